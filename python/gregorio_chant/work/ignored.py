"""What the walk of a folder leaves out: what `.gitignore` files and patterns like theirs name."""
from __future__ import annotations

import os
from collections.abc import Callable, Sequence
from dataclasses import dataclass

from gregorio_chant.errors import UsageError
from gregorio_chant.work.files import read_plain
from gregorio_chant.work.patterns import MOST, NoPattern, Patterns, TooCostly

FILE = ".gitignore"
_GIT = ".git"
_MOST_BYTES = 1 << 18
# Takes the name of each folder or file that cannot be read, and why.
Tell = Callable[[str, OSError], None]


@dataclass(frozen=True)
class _Level:
    """Patterns, and the way from the folder that they stand in to the one that is walked:
    nothing, or names that each end in `/`."""

    patterns: Patterns
    way: str = ""

    def below(self, way: str) -> _Level:
        return _Level(self.patterns, self.way + way)

    def verdict(self, ending: str) -> bool | None:
        return self.patterns.verdict(self.way + ending)


@dataclass(frozen=True)
class LeftOut:
    """What is left out of one folder. Of patterns that name the same thing the last one counts,
    and those of an inner folder come last."""

    levels: tuple[_Level, ...]
    exclude: _Level

    @classmethod
    def at(cls, folder: str, exclude: Sequence[str], tell: Tell) -> LeftOut:
        """Returns what the folders above leave out of one that is named; nothing, if they leave
        out the folder itself."""
        alone = cls((), _Level(_excluding(exclude)))
        above = cls((), _Level(Patterns()))
        *ways, whole = _ways_from_top(os.path.realpath(folder))
        for way, inner in zip(ways, [*ways[1:], whole]):
            above = above.with_file_of(way, tell)
            name = os.path.basename(inner)
            if above.names(name, is_folder=True):
                return alone
            above = above.below(name)
        return cls(above.levels, alone.exclude)

    def below(self, name: str) -> LeftOut:
        """Returns what these patterns leave out of the folder `name` of this one."""
        way = f"{name}/"
        return LeftOut(tuple(it.below(way) for it in self.levels), self.exclude.below(way))

    def with_file_of(self, folder: str, tell: Tell) -> LeftOut:
        """Returns what is left out with the file of this folder, if it has one, which stands at
        the path `folder`."""
        patterns = _patterns_in(folder, MOST - sum(it.patterns.count for it in self.levels), tell)
        return LeftOut((*self.levels, _Level(patterns)), self.exclude) if patterns.count else self

    def names(self, name: str, is_folder: bool = False) -> bool:
        """Returns whether what is called `name` in this folder is left out."""
        if is_folder and name == _GIT:
            return True
        ending = f"{name}/" if is_folder else name
        verdicts = (it.verdict(ending) for it in reversed(self.levels))
        return self.exclude.verdict(ending) is True or next(
            (it for it in verdicts if it is not None), False
        )


def _ways_from_top(folder: str) -> list[str]:
    """Returns the folders from the top of the repository of git down to `folder`; that alone
    where there is no such repository."""
    ways = [folder]
    while not os.path.exists(os.path.join(ways[0], _GIT)):
        above = os.path.dirname(ways[0])
        if above == ways[0]:
            return [folder]
        ways.insert(0, above)
    return ways


def _patterns_in(folder: str, most: int, tell: Tell) -> Patterns:
    """Returns the patterns of the folder's file, if it has one. A line that is no pattern is
    left out, as git does, and a file that is a link is not read. Above `most` patterns, or where
    one of them costs too much, there are none, and that is told."""
    name = os.path.join(folder, FILE)
    if os.path.isdir(name):
        return Patterns()
    try:
        lines = (
            read_plain(name, _MOST_BYTES, follows_links=False)
            .decode("utf-8", "surrogateescape")
            .split("\n")
        )
        return Patterns(_patterns_of(lines, most))
    except FileNotFoundError:
        return Patterns()
    except OSError as error:
        tell(name, error)
        return Patterns()


def _patterns_of(lines: Sequence[str], most: int) -> list[str]:
    """Returns the lines that are patterns. Raises `OSError` with the line that is one too many or
    costs too much."""
    patterns: list[str] = []
    for number, line in enumerate(lines, 1):
        try:
            is_pattern = Patterns.takes(line)
        except TooCostly as error:
            raise OSError(0, f"line {number}: {error}") from None
        except NoPattern:
            continue
        if is_pattern and len(patterns) == most:
            raise OSError(
                0,
                (
                    f"line {number}: there are at most {MOST:,} patterns, with those of the folders"
                    " above"
                ),
            )
        patterns += [line] * is_pattern
    return patterns


def _excluding(words: Sequence[str]) -> Patterns:
    for word in words:
        try:
            Patterns.takes(word)
        except NoPattern as error:
            raise UsageError(f"--exclude {word}: {error}") from None
    try:
        return Patterns(words)
    except NoPattern as error:
        raise UsageError(f"--exclude: {error}") from None
