"""What is found in a score, as plain data: a message with its place, its help, and the repair that
would mend it."""
from __future__ import annotations

from collections.abc import Iterable, Iterator, Mapping
from dataclasses import dataclass
from itertools import zip_longest

from gregorio_chant._native.results import Message
from gregorio_chant.text.source import Lines


@dataclass(frozen=True)
class Change:
    """A change of a text: `new` takes the place of the characters from `begin` up to `end`, which
    count from 0, with each CR and U+FEFF."""

    begin: int
    end: int
    new: str


@dataclass(frozen=True)
class ProblemRepair:
    """A repair of a problem: `name` is its name, `text` says what it does, and of a guess also what
    it changes. `changes` are in order, and none touches another."""

    name: str
    is_safe: bool
    text: str
    changes: tuple[Change, ...]


@dataclass(frozen=True)
class Problem:
    """A message about a score. Lines and columns count from 1; the end is the place after the
    character. `kind` is `warning`, `error` or `fatal`."""

    line: int
    column: int
    end_line: int
    end_column: int
    kind: str
    code: str
    text: str
    help: str | None
    repair: ProblemRepair | None = None


def problems_of(
    text: str,
    messages: Iterable[Message],
    helps: Iterable[str | None],
    repairs: Mapping[Message, ProblemRepair] | None = None,
) -> Iterator[Problem]:
    """Yields the problems that these messages tell of a text, each with its help and its repair, if
    it has one."""
    lines = Lines(text)
    for it, help in zip_longest(messages, helps):
        end = lines.column_after(it.line, it.column)
        yield Problem(
            it.line,
            it.column,
            it.line,
            end,
            it.kind.value,
            it.code,
            it.text,
            help,
            (repairs or {}).get(it),
        )
