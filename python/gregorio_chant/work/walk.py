"""The scores below folders."""
from __future__ import annotations

import os
import stat
from collections.abc import Iterable, Iterator, Sequence

from gregorio_chant.work.files import BESIDE, is_below, sweep
from gregorio_chant.work.ignored import FILE, LeftOut, Tell
from gregorio_chant.work.streams import STDIN
from gregorio_chant.work.streams import tell as tell_user

_ENDING = ".gabc"
# No folder further below the one that is named is read.
_DEEPEST = 100


def find_scores(paths: Iterable[str], tell: Tell, exclude: Sequence[str] = ()) -> list[str]:
    """Returns the names of the files: each path that is no folder, and the scores below each folder
    in order.

    Of a folder these are left out: what is no plain file, what a `.gitignore` or a pattern of
    `exclude` names, and the folder `.git`. Links to files are taken as long as they lead below the
    folder, and others are told; links to folders are not followed. Raises `MissingDependency` where
    there are such patterns and no package that reads them, and `UsageError` for an `exclude` that
    is no pattern.
    """
    names: list[str] = []
    for path in paths:
        if path != STDIN and os.path.isdir(path):
            names.extend(_below(path, LeftOut.at(path, exclude, tell), tell))
        else:
            names.append(path)
    return names


def _below(folder: str, top: LeftOut, tell: Tell) -> Iterator[str]:
    root = os.path.realpath(folder)
    waiting = [(folder, top, 0)]
    while waiting:
        where, left_out, depth = waiting.pop()
        if depth > _DEEPEST:
            tell(where, OSError(0, f"it lies more than {_DEEPEST} folders deep"))
            continue
        entries = _entries(where, tell)
        if any(it.name == FILE for it in entries):
            left_out = left_out.with_file_of(where, tell)
        if any(it.name.startswith(BESIDE) for it in entries):
            sweep(where)
        yield from (
            it.path
            for it in entries
            if _is_score(it) and not left_out.names(it.name) and _stays_below(it, root)
        )
        inner = [
            it
            for it in entries
            if it.is_dir(follow_symlinks=False) and not left_out.names(it.name, is_folder=True)
        ]
        waiting += [(it.path, left_out.below(it.name), depth + 1) for it in reversed(inner)]


def _entries(folder: str, tell: Tell) -> list[os.DirEntry[str]]:
    try:
        with os.scandir(folder) as entries:
            return sorted(entries, key=lambda it: it.name)
    except OSError as error:
        tell(folder, error)
        return []


def has_name_of_score(name: str) -> bool:
    """Returns whether a file of this name is taken for a score, where it is not named itself."""
    return name.lower().endswith(_ENDING)


def _is_score(entry: os.DirEntry[str]) -> bool:
    """Whether it is a plain file by a score's name, or a link with such a name that leads
    nowhere: reading it says why."""
    if not has_name_of_score(entry.name):
        return False
    try:
        return stat.S_ISREG(entry.stat().st_mode)
    except OSError:
        return True


def _stays_below(entry: os.DirEntry[str], root: str) -> bool:
    """Whether it is no link, or one that leads to a file below the folder; the user is told of
    another one. A link that leads nowhere stays: reading it says why."""
    if not entry.is_symlink():
        return True
    path = os.path.realpath(entry.path)
    if is_below(path, root) or not os.path.exists(path):
        return True
    tell_user(
        f"{entry.path} is passed by: this link leads out of the folder; name it to have it read"
    )
    return False
