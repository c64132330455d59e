"""The files of a repository, and the list of its crates."""

from __future__ import annotations

import os
from collections.abc import Iterable, Iterator

ROOT = os.path.dirname(os.path.dirname(os.path.dirname(os.path.realpath(__file__))))


def read(path: str) -> str:
    """Returns the text of a file."""
    with open(path, encoding="utf-8") as file:
        return file.read()


def write(path: str, text: str) -> None:
    """Writes a text as the whole of a file."""
    with open(path, "w", encoding="utf-8") as file:
        file.write(text)


def files_below(folder: str, ending: str = "") -> Iterator[str]:
    """Yields the paths of the files below a folder whose names end so: those of a folder before
    those of the folders in it, each by their names."""
    for at, folders, names in os.walk(folder):
        folders.sort()
        yield from (os.path.join(at, name) for name in sorted(names) if name.endswith(ending))


def module_name(path: str, folder: str) -> str:
    """Returns the name of the module that a file below `folder` is, with dots between its parts."""
    return os.path.splitext(os.path.relpath(path, folder))[0].replace(os.sep, ".")


def crates_folder(root: str) -> str:
    """Returns the folder of the crates of the repository at `root`."""
    return os.path.join(root, "crates")


def crate_names(root: str) -> list[str]:
    """Returns the names of the folders of crates, in their order."""
    return sorted(os.listdir(crates_folder(root)))


def crate_lines(root: str) -> dict[str, str]:
    """Returns the line of `crates.txt` for each crate, by its name, lowest first."""
    lines = read(os.path.join(root, "crates.txt")).split("\n")
    found = (it for it in lines if ":" in it.partition("#")[0])
    return {it.split(":")[0].split()[0]: it.strip() for it in found}


def told(lines: Iterable[str], head: str = "") -> int:
    """Prints the lines, each with `head` before it, and returns the exit status: 1 if there is
    one, else 0."""
    status = 0
    for line in lines:
        print(f"{head}{line}")
        status = 1
    return status


def plural(count: int, word: str) -> str:
    """Returns the number with the word, which gets an `s` unless there is one."""
    return f"{count} {word}" if count == 1 else f"{count} {word}s"
