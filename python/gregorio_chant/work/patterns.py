"""Patterns of paths, in the one language that `.gitignore`, `--exclude` and settings have: that of
git, by `pathspec`.

Many patterns are matched as a few regular expressions, and none of them takes more than a time that
grows with the path: also what a stranger wrote costs little.
"""
from __future__ import annotations

import itertools
import re
import sys
from collections.abc import Iterable, Sequence
from functools import lru_cache

from gregorio_chant.errors import GregorioError
from gregorio_chant.work.needs import MissingDependency

# So many patterns may count for a file.
MOST = 5_000
# Before Python 3.11 stars are tried again and again, so there may be fewer.
_MOST_STARS = 8 if sys.version_info >= (3, 11) else 3
_MOST_DEEP_STARS = 2
# What `pathspec` writes before and after what a pattern spells, the longest first.
_BEFORE = ("^(?:.+/)?[^/]*", "^(?:.+/)?", "^")
_AFTER = ("(?:/.*)?$", "/.*$", "$")
_STAR = "[^/]*"
# How it marks the `/` after a folder.
_MARKED = "(?P<ps_d>/)"
# A class of all characters but some, which in git has no `/`, and any class.
_OTHERS = re.compile(r"(?<!\[)\[\^(?!/\])")
_CLASS = re.compile(r"\[\^?[^\]]+\]")


class NoPattern(GregorioError, ValueError):
    """A line is no pattern."""


class TooCostly(NoPattern):
    """A pattern has too many stars, or there are too many patterns."""


@lru_cache(2 * MOST)
def _parsed(line: str) -> tuple[str, bool] | None:
    """Returns a line as a regular expression, and whether it names what it matches or takes it
    back. Nothing for a line that is empty or a comment. Raises `NoPattern` and
    `MissingDependency`."""
    if not line.strip() or line.startswith("#"):
        return None
    if line.count("*") > _MOST_STARS or line.count("**") > _MOST_DEEP_STARS:
        raise TooCostly(f"a pattern has at most {_MOST_STARS} * and {_MOST_DEEP_STARS} **")
    try:
        from pathspec.patterns.gitwildmatch import GitWildMatchPattern
    except ImportError:
        raise MissingDependency(
            "leaving out what .gitignore, --exclude or settings name", "pathspec"
        ) from None
    try:
        found, include = GitWildMatchPattern.pattern_to_regex(line)
    except ValueError:
        raise NoPattern("this is no pattern") from None
    return (
        None
        if found is None or include is None
        else (_OTHERS.sub("[^/", found.replace(_MARKED, "/")), include)
    )


class Patterns:
    """Patterns in order. Of those that match a path the last one counts."""

    def __init__(self, lines: Iterable[str] = ()) -> None:
        """Raises `NoPattern`, and `MissingDependency` where there are patterns and no package that
        reads them."""
        found = [it for it in map(_parsed, lines) if it is not None]
        if len(found) > MOST:
            raise TooCostly(f"there are at most {MOST:,} patterns")
        self.count = len(found)
        # Those with one verdict that stand next to each other, the last ones first.
        blocks = [
            (verdict, [it for it, _ in block])
            for verdict, block in itertools.groupby(found, lambda it: it[1])
        ]
        self._blocks = [(verdict, _expressions(block)) for verdict, block in reversed(blocks)]
        self._folders = {"": False}

    @staticmethod
    def takes(line: str) -> bool:
        """Returns whether a line is a pattern; an empty one and a comment are none. Raises
        `NoPattern` and `MissingDependency`."""
        return _parsed(line) is not None

    def verdict(self, path: str) -> bool | None:
        """Returns what the last pattern says that matches a path, which ends in `/` if it is a
        folder's; nothing where none does."""
        return next(
            (verdict for verdict, them in self._blocks if any(it.match(path) for it in them)), None
        )

    def has(self, path: str) -> bool:
        """Returns whether a file is named, or a folder that it stands in: then nothing takes that
        back."""
        return bool(self._blocks) and (
            self._has_folder(path.rpartition("/")[0]) or self.verdict(path) is True
        )

    def _has_folder(self, folder: str) -> bool:
        if folder not in self._folders:
            self._folders[folder] = (
                self._has_folder(folder.rpartition("/")[0]) or self.verdict(f"{folder}/") is True
            )
        return self._folders[folder]


def _expressions(block: Sequence[str]) -> list[re.Pattern[str]]:
    """Returns regular expressions of which one matches what one of the block does. What many of
    them share at both ends stands once in each."""
    groups: dict[tuple[str, str], list[str]] = {}
    for whole in block:
        after = next((it for it in _AFTER if whole.endswith(it)), "")
        spelled = _without_trying_again(whole)
        before = next((it for it in _BEFORE if spelled.startswith(it)), "")
        groups.setdefault((before, after), []).append(
            spelled[len(before) : len(spelled) - len(after)]
        )
    return [
        re.compile(
            f"{before}(?:{'|'.join(them)}){after[:-1]}\\Z" if after else "|".join(them), re.DOTALL
        )
        for (before, after), them in groups.items()
    ]


def _without_trying_again(spelled: str) -> str:
    """Returns an expression that matches the same. Of three stars or more in the name of one folder
    or file each but the last two stands for as little as it can, and is not tried again with more:
    what comes after it would be found no better."""
    if sys.version_info < (3, 11):
        return spelled
    head, *parts = spelled.split(_STAR)
    made = head
    for at, part in enumerate(parts):
        is_followed = len(parts) > at + 2 and not any(
            it in "/(" for it in _CLASS.sub("", part + parts[at + 1])
        )
        made += f"(?>{_STAR}?{part})" if is_followed and part else _STAR + part
    return made
