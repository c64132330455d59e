"""A line of help for each message: which thing it is about, what probably was meant, and what to
write instead.

The sentences are rows of the table `helps.json`, which the page in a browser reads too. A row
applies if all that it asks for holds, and if each fact that it names has a value; the first one of
a code that applies is its help.
"""
from __future__ import annotations

import json
import re
from collections.abc import Iterable, Iterator
from dataclasses import dataclass
from functools import cache
from pathlib import Path
from string import Formatter
from typing import Any

from gregorio_chant._native.node_kinds import NodeKind
from gregorio_chant._native.results import Kind, Message
from gregorio_chant.linting.facts import FACTS
from gregorio_chant.linting.slips import Subject
from gregorio_chant.objects.compiled import MOST_BYTES, Compiled

_TABLE = Path(__file__).with_name("helps.json")
_CLASSES = {"digit": str.isdigit, "letter": str.isalpha}


def _kinds(names: Iterable[str]) -> tuple[NodeKind, ...]:
    """Returns the kinds of nodes that the table names as JavaScript does, as `styleTag`."""
    return tuple(NodeKind[re.sub(r"(?=[A-Z])", "_", it).upper()] for it in names)


@dataclass(frozen=True)
class _Row:
    """A row of the table: what it asks for, the facts that it needs, and its sentence. If
    `is_once`, a later message with the same help refers to the first one."""

    help: str
    nodes: tuple[NodeKind, ...]
    after: tuple[NodeKind, ...]
    before: tuple[str, ...]
    at: tuple[str, ...]
    character: str | None
    facts: tuple[str, ...]
    is_once: bool

    @classmethod
    def of(cls, row: dict[str, Any]) -> _Row:
        """Reads a row of the file."""
        holes = [name for _, name, _, _ in Formatter().parse(row["help"]) if name]
        return cls(
            row["help"],
            _kinds(row.get("node", ())),
            _kinds(row.get("after", ())),
            tuple(row.get("before", ())),
            tuple(row.get("at", ())),
            row.get("is"),
            (*row.get("if", ()), *holes),
            row.get("once", False),
        )

    def applies(self, subject: Subject, at: int) -> bool:
        """Returns whether what stands at this place and beside it is what the row asks for."""
        text = subject.text
        return (
            (not self.at or text.startswith(self.at, at))
            and (not self.before or text.endswith(self.before, 0, at))
            and (self.character is None or _CLASSES[self.character](text[at : at + 1]))
            and (not self.nodes or subject.kind_at(at) in self.nodes)
            and (not self.after or subject.kind_at(at - 1) in self.after)
        )

    def sentence(self, subject: Subject, at: int) -> str | None:
        """Returns its help for this place, if it applies and each of its facts has a value."""
        if not self.applies(subject, at):
            return None
        values = {}
        for name in self.facts:
            value = FACTS[name](subject, at)
            if not value:
                return None
            values[name] = value
        return self.help.format_map(values)


@dataclass(frozen=True)
class _Table:
    """The rows of each code, in order, and the sentence that refers to an earlier help."""

    rows: dict[str, list[_Row]]
    again: str


@cache
def _table() -> _Table:
    table = json.loads(_TABLE.read_text(encoding="utf-8"))
    rows: dict[str, list[_Row]] = {}
    for it in table["helps"]:
        row = _Row.of(it)
        for code in it["codes"]:
            rows.setdefault(code, []).append(row)
    return _Table(rows, table["again"])


@dataclass(frozen=True)
class _Help:
    """A help, and whether it is told but once."""

    text: str
    is_once: bool


def _help(subject: Subject, message: Message) -> _Help | None:
    at = subject.offset(message)
    for row in _table().rows.get(message.code, ()):
        text = row.sentence(subject, at)
        if text is not None:
            return _Help(text, row.is_once)
    return None


def help_for(subject: Subject, message: Message) -> str | None:
    """Returns the help for a message of the compiler; a message of a rule says by itself what it is
    about."""
    help = _help(subject, message)
    return None if help is None else help.text


def _each_help(subject: Subject, told: Iterable[Message]) -> Iterator[str | None]:
    first: dict[str, str] = {}
    for it in told:
        help = _help(subject, it)
        if help is None:
            yield None
        elif help.is_once and help.text in first and it.kind is not Kind.FATAL:
            yield _table().again.format(first=first[help.text])
        else:
            first.setdefault(help.text, f"{it.line}:{it.column}")
            yield help.text


def helps_for(compiled: Compiled, told: Iterable[Message]) -> tuple[str | None, ...]:
    """Returns the help for each message that is reported of a score. Where several messages have
    one slip, as a lost bracket, all but the first say so. Those of a score that is too long for its
    tree have none."""
    if len(compiled.data) > MOST_BYTES:
        return tuple(None for _ in told)
    return tuple(_each_help(Subject(compiled), told))
