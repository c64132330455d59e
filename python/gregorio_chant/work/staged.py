"""The scores that are staged in git, with the bytes that a commit would have."""
from __future__ import annotations

import os
import subprocess
from collections.abc import Iterable, Iterator

from gregorio_chant.errors import GregorioError
from gregorio_chant.work.files import Content
from gregorio_chant.work.statuses import CANNOT_READ_OR_WRITE
from gregorio_chant.work.streams import reason_of
from gregorio_chant.work.walk import has_name_of_score

_PLAIN_FILES = (b"100644", b"100755")


class GitError(GregorioError):
    """Git does not say what is staged."""

    status = CANNOT_READ_OR_WRITE

    def __init__(self, reason: str) -> None:
        super().__init__(f"cannot read what is staged: {reason}")


def _git(*words: str, data: bytes = b"") -> bytes:
    try:
        ran = subprocess.run(
            ["git", *words], input=data, stdout=subprocess.PIPE, stderr=subprocess.PIPE, check=False
        )
    except OSError as error:
        raise GitError(f"git cannot be run: {reason_of(error)}") from None
    if ran.returncode != 0:
        told = os.fsdecode(ran.stderr).strip().split("\n")[0]
        raise GitError(told or f"git {words[0]} ended with {ran.returncode}")
    return ran.stdout


def _changed(paths: Iterable[str]) -> Iterator[tuple[str, str]]:
    """Yields the path from the top of the repository, and the name of the content, of each plain
    file that is staged and is not taken away."""
    listed = _git(
        "--literal-pathspecs",
        "diff",
        "--cached",
        "--raw",
        "-z",
        "--no-abbrev",
        "--no-renames",
        "--no-relative",
        "--no-ext-diff",
        "--diff-filter=AMT",
        "--",
        *paths,
    )
    fields = iter(listed.split(b"\0")[:-1])
    for about in fields:
        path = next(fields)
        _, mode, _, content, _ = about.split(b" ")
        if mode in _PLAIN_FILES:
            yield os.fsdecode(path), content.decode("ascii")


class StagedFiles:
    """What is staged at or below `paths`, or all: of each path that is no folder the file, and
    below a folder the scores.

    Names are those from the working folder. What is staged is read once, at the beginning.
    """

    def __init__(self, paths: Iterable[str] = ()) -> None:
        """Asks git. Raises `GitError`."""
        top = os.fsdecode(_git("rev-parse", "--show-toplevel")[:-1])
        named = {os.path.realpath(it) for it in paths}
        contents = {}
        for path, content in _changed(paths):
            whole = os.path.join(top, path)
            if has_name_of_score(path) or whole in named:
                contents[os.path.relpath(whole)] = content
        self._data = _contents(contents)

    @property
    def names(self) -> list[str]:
        return list(self._data)

    def read(self, name: str) -> Content:
        """Returns what is staged of the file with one of the names."""
        return Content(self._data[name])


def _contents(names: dict[str, str]) -> dict[str, bytes]:
    """Returns the bytes of each content, by the names of the files."""
    told = _git(
        "cat-file", "--batch", data="".join(f"{it}\n" for it in names.values()).encode("ascii")
    )
    found, at = {}, 0
    for name, content in names.items():
        line_end = told.index(b"\n", at)
        about = told[at:line_end].split(b" ")
        if about[1:2] != [b"blob"]:
            raise GitError(f"git has no content {content} of {name}")
        begin = line_end + 1
        end = begin + int(about[2])
        found[name], at = told[begin:end], end + 1
    return found
