"""The files that are read and written, and no others: `walk` finds those below folders.

What is read is opened without waiting, and up to a bound. What is written stands beside its place
first, and is put there in one step. All of that goes by descriptors, since in a folder that
somebody else may write a name may lead elsewhere at any moment.
"""
from __future__ import annotations

import errno
import fcntl
import os
import secrets
import stat
import sys
from collections.abc import Callable, Iterable, Iterator
from contextlib import contextmanager, suppress
from dataclasses import dataclass
from typing import BinaryIO

from gregorio_chant.errors import GregorioError
from gregorio_chant.work.ending import undone
from gregorio_chant.work.streams import STDIN

# How what is written is called until it stands in its place.
BESIDE = ".gregorio-chant."
# No score has more bytes, so that no file without an end takes all memory.
_MOST_BYTES = 1 << 28
_PIECE = 1 << 20
_OUTSIDE = "it leads out of the folder"
_READ = os.O_RDONLY | os.O_NONBLOCK | os.O_NOCTTY | os.O_CLOEXEC
_FOLDER = os.O_RDONLY | os.O_DIRECTORY | os.O_CLOEXEC
_WRITABLE = stat.S_IWUSR | stat.S_IWGRP | stat.S_IWOTH
# The extended attributes that are a file's own, and no label of the system: those of users, and
# lists of who may do what.
_OWN_ATTRIBUTES = ("user.", "system.")


class FileChanged(GregorioError):
    """A file is no longer what was read."""


@dataclass(frozen=True)
class Content:
    """What a file held, and the file's state when it was read; standard input has none."""

    data: bytes
    state: os.stat_result | None = None


# ---- reading


def read(name: str) -> Content:
    """Returns what the file holds, or standard input. A pipe or a device that the user has named is
    read too. Raises `OSError`, also above 256 MB."""
    if name == STDIN:
        with open(0, "rb", closefd=False) as file:
            return Content(_all_of(file, _MOST_BYTES))
    with open(name, "rb") as file:
        return Content(_all_of(file, _MOST_BYTES), os.fstat(file.fileno()))


def read_plain(name: str, most: int, follows_links: bool = True) -> bytes:
    """Returns what a plain file holds, which has at most `most` bytes. Raises `OSError`."""
    with _opened_plain(name, 0 if follows_links else os.O_NOFOLLOW) as file:
        return _all_of(file, most)


def _opened_plain(name: str, flags: int = 0) -> BinaryIO:
    file = open(os.open(name, _READ | flags), "rb")
    if not stat.S_ISREG(os.fstat(file.fileno()).st_mode):
        file.close()
        raise OSError(0, "it is no plain file")
    return file


def _all_of(file: BinaryIO, most: int) -> bytes:
    """Returns what is left of a file, which is awaited in its length and may be longer. Raises
    `OSError` where that is more than `most` bytes."""
    pieces = [file.read(min(os.fstat(file.fileno()).st_size, most) + 1)]
    count = len(pieces[0])
    while count <= most and (piece := file.read(min(_PIECE, most + 1 - count))):
        pieces.append(piece)
        count += len(piece)
    if count > most:
        raise OSError(errno.EFBIG, f"it is longer than {most:,} bytes")
    return b"".join(pieces)


def is_below(path: str, folder: str) -> bool:
    """Returns whether a path leads below a folder; both are without links."""
    return path.startswith(os.path.join(folder, ""))


def _path_of(descriptor: int, name: str) -> str:
    """Returns the path of an open file without links: by the system, where it says that, since
    `name` may lead elsewhere by now."""
    try:
        return os.readlink(f"/proc/self/fd/{descriptor}")
    except OSError:
        return os.path.realpath(name)


@dataclass(frozen=True)
class Reader:
    """Reads the files that a command names, and what is found below the folders that it names, as
    long as that stands there."""

    named: frozenset[str]
    folders: tuple[str, ...]

    @classmethod
    def of(cls, paths: Iterable[str]) -> Reader:
        paths = frozenset(paths)
        return cls(
            paths,
            tuple(
                os.path.realpath(it) for it in sorted(paths) if it != STDIN and os.path.isdir(it)
            ),
        )

    def read(self, name: str) -> Content:
        """Returns what the file holds. Raises `OSError`."""
        if name in self.named:
            return read(name)
        with _opened_plain(name) as file:
            path = _path_of(file.fileno(), name)
            if not any(is_below(path, it) for it in self.folders):
                raise OSError(0, _OUTSIDE)
            return Content(_all_of(file, _MOST_BYTES), os.fstat(file.fileno()))


# ---- writing


def replace(name: str, content: Content, data: bytes) -> None:
    """Puts `data` in place of what was read of the file, in one step: at every moment the file is
    whole, the old or the new one.

    The file that a link leads to is replaced. It keeps its mode and its extended attributes, also
    lists of who may do what, and its owner and group where that is allowed. Raises `FileChanged`
    where the file was changed meanwhile, and `OSError` where it has other names (hard links), which
    would keep the old content, may not be written, or cannot be.
    """
    state = content.state
    if state is None or not stat.S_ISREG(state.st_mode):
        raise OSError(0, "it is no plain file")
    if state.st_nlink > 1:
        raise OSError(0, "it has other names (hard links)")
    if not state.st_mode & _WRITABLE:
        raise OSError(0, "it is read-only")
    path = os.path.realpath(name)
    base = os.path.basename(path)

    def put(folder: int, beside: str) -> None:
        _refuse_changed(os.stat(base, dir_fd=folder, follow_symlinks=False), content)
        os.replace(beside, base, src_dir_fd=folder, dst_dir_fd=folder)

    with _folder_of(path) as folder, _old_file(folder, base) as old:
        if old is None:
            raise FileNotFoundError(errno.ENOENT, os.strerror(errno.ENOENT))
        _refuse_changed(os.fstat(old), content)
        _write_beside(folder, (data,), old, put, is_synced=True)


def _refuse_changed(now: os.stat_result, content: Content) -> None:
    """Raises `FileChanged` where a file in this state is not the one that was read."""
    then = content.state
    if then is None or (now.st_dev, now.st_ino, now.st_size, now.st_mtime_ns) != (
        then.st_dev,
        then.st_ino,
        then.st_size,
        then.st_mtime_ns,
    ):
        raise FileChanged("it was changed meanwhile")


def write(
    name: str,
    pieces: Iterable[bytes],
    is_named: bool = False,
    is_forced: bool = True,
    below: str | None = None,
) -> None:
    """Writes a file anew, in one step, as `replace` does; a new one has the usual mode. If the user
    has named it, a link is followed, and a pipe or a device is written into; else both are
    replaced. Raises `OSError`, `FileExistsError` where the file is there and that is not forced,
    and where it would not stand in or below the folder `below`, if one is given."""
    if is_named and _is_no_plain_file(name):
        with open(os.open(name, os.O_WRONLY | os.O_NOCTTY | os.O_CLOEXEC), "wb") as file:
            file.writelines(pieces)
        return
    path = os.path.realpath(name) if is_named else name
    base = os.path.basename(path)

    def put(folder: int, beside: str) -> None:
        if is_forced:
            os.replace(beside, base, src_dir_fd=folder, dst_dir_fd=folder)
        else:
            os.link(beside, base, src_dir_fd=folder, dst_dir_fd=folder, follow_symlinks=False)
            os.unlink(beside, dir_fd=folder)

    if not is_forced and os.path.lexists(path):
        raise FileExistsError(errno.EEXIST, os.strerror(errno.EEXIST))
    with _folder_of(path) as folder, _old_file(folder, base) as old:
        if below is not None and not is_below(
            os.path.join(_path_of(folder, os.path.dirname(path)), base), os.path.realpath(below)
        ):
            raise OSError(0, _OUTSIDE)
        _write_beside(folder, pieces, old, put)


def _is_no_plain_file(name: str) -> bool:
    try:
        return not stat.S_ISREG(os.stat(name).st_mode)
    except OSError:
        return False


@contextmanager
def _folder_of(path: str) -> Iterator[int]:
    """Gives a descriptor of the folder of a path."""
    folder = os.open(os.path.dirname(path) or os.curdir, _FOLDER)
    try:
        _sweep(folder)
        yield folder
    finally:
        os.close(folder)


@contextmanager
def _old_file(folder: int, name: str) -> Iterator[int | None]:
    """Gives a descriptor of the plain file that is to be replaced, or nothing where there is none.
    Raises `OSError` where it may not be written."""
    try:
        descriptor = os.open(name, _READ | os.O_NOFOLLOW, dir_fd=folder)
    except OSError as error:
        if error.errno not in (errno.ENOENT, errno.ELOOP, errno.ENXIO):
            raise
        yield None
        return
    try:
        is_plain = stat.S_ISREG(os.fstat(descriptor).st_mode)
        if is_plain and not os.access(name, os.W_OK, dir_fd=folder):
            raise PermissionError(errno.EACCES, os.strerror(errno.EACCES))
        yield descriptor if is_plain else None
    finally:
        os.close(descriptor)


def _write_beside(
    folder: int,
    pieces: Iterable[bytes],
    old: int | None,
    put: Callable[[int, str], None],
    is_synced: bool = False,
) -> None:
    """Writes a file with a name of its own, with the rights of the `old` one, and has it `put` into
    its place. Whatever goes wrong, it goes."""
    name = BESIDE + secrets.token_hex(8)

    def remove() -> None:
        with suppress(OSError):
            os.unlink(name, dir_fd=folder)

    with undone(remove):
        try:
            with open(_made_beside(folder, name, 0o666 if old is None else 0o600), "wb") as file:
                file.writelines(pieces)
                file.flush()
                if old is not None:
                    _copy_rights(old, file.fileno())
                if is_synced:
                    os.fsync(file.fileno())
                put(folder, name)
        except BaseException:
            remove()
            raise


def _made_beside(folder: int, name: str, mode: int) -> int:
    """Returns the descriptor of a new file, which is locked as long as it is open: `_sweep` leaves
    it alone."""
    while True:
        descriptor = os.open(
            name,
            os.O_WRONLY | os.O_CREAT | os.O_EXCL | os.O_NOFOLLOW | os.O_CLOEXEC,
            mode,
            dir_fd=folder,
        )
        with suppress(OSError):
            fcntl.flock(descriptor, fcntl.LOCK_EX)
        if os.fstat(descriptor).st_nlink:
            return descriptor
        os.close(descriptor)


# ---- who may do what with a file


def _copy_rights(old: int, new: int) -> None:
    """Gives the new file the owner, the group, the mode and the attributes of the old one. If the
    group cannot be kept, another one may do no more than everybody. Raises `OSError` where the
    attributes cannot be kept."""
    state = os.fstat(old)
    mode = stat.S_IMODE(state.st_mode)
    keeps_owner, keeps_group = _change_owner(new, state.st_uid, -1), _change_owner(
        new, -1, state.st_gid
    )
    if not keeps_group:
        mode &= ~stat.S_IRWXG | (mode & stat.S_IRWXO) << 3
    if not keeps_owner or not keeps_group:
        mode &= 0o777
    _copy_attributes(old, new)
    os.fchmod(new, mode)


def _change_owner(descriptor: int, owner: int, group: int) -> bool:
    try:
        os.fchown(descriptor, owner, group)
    except OSError:
        return False
    return True


def _copy_attributes(old: int, new: int) -> None:
    """Gives the new file the attributes of the old one alone: it may have got some from its
    folder."""
    if sys.platform != "linux":
        return
    wanted = {it: os.getxattr(old, it) for it in _attributes_of(old)}
    for name in _attributes_of(new):
        if name not in wanted:
            os.removexattr(new, name)
    for name, value in wanted.items():
        os.setxattr(new, name, value)


def _attributes_of(descriptor: int) -> list[str]:
    try:
        return [it for it in os.listxattr(descriptor) if it.startswith(_OWN_ATTRIBUTES)]
    except OSError:
        return []


# ---- what a run has left that was ended from outside

_swept: set[tuple[int, int]] = set()


def sweep(folder: str) -> None:
    """Removes what an earlier run of the same user has left in a folder, which was ended while it
    wrote there."""
    with suppress(OSError), _folder_of(os.path.join(folder, "")):
        pass


def _sweep(folder: int) -> None:
    """Does so once for each folder."""
    state = os.fstat(folder)
    if (state.st_dev, state.st_ino) in _swept:
        return
    _swept.add((state.st_dev, state.st_ino))
    with suppress(OSError):
        for name in os.listdir(folder):
            if name.startswith(BESIDE):
                _remove_left(folder, name)


def _remove_left(folder: int, name: str) -> None:
    with suppress(OSError):
        left = os.open(name, _READ | os.O_NOFOLLOW, dir_fd=folder)
        try:
            state = os.fstat(left)
            if stat.S_ISREG(state.st_mode) and state.st_uid == os.geteuid():
                # Whoever writes it holds the lock.
                fcntl.flock(left, fcntl.LOCK_EX | fcntl.LOCK_NB)
                if os.path.samestat(os.stat(name, dir_fd=folder, follow_symlinks=False), state):
                    os.unlink(name, dir_fd=folder)
        finally:
            os.close(left)
