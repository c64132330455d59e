"""Comments that silence messages: `% gregorio: ignore W6, E2` on their line, `% gregorio:
ignore-file W6` in the score."""
from __future__ import annotations

import re
from collections.abc import Collection, Iterator
from dataclasses import dataclass
from typing import Optional

from gregorio_chant._native.node_kinds import NodeKind
from gregorio_chant._native.nodes import Tree
from gregorio_chant._native.results import Kind, Message
from gregorio_chant.linting.selection import KINDS, RULES, group_of
from gregorio_chant.objects.compiled import Compiled
from gregorio_chant.text.source import Place

_WORD = b"gregorio:"
IGNORE = re.compile(rb"%[ \t]*gregorio:[ \t]*(ignore-file|ignore)(?![\w-])([^%]*)")
_CODE = re.compile(rb"[^\s,]+")


# Where something is silenced, on a line or in the whole score, and what: a code, its kind, or the
# rules.
_Key = tuple[Optional[int], Optional[str]]


@dataclass(frozen=True)
class _Ignore:
    """A code to be silenced, at the place where it is named; without a code the comment names
    none."""

    place: Place
    code: str | None
    in_file: bool

    @property
    def key(self) -> _Key:
        return None if self.in_file else self.place.line, self.code

    def fault(self, known: Collection[str]) -> str:
        """Returns what is wrong with it, where it silences nothing."""
        if self.code is None:
            return "this names no code, so it silences nothing"
        if self.code not in known and self.code not in (*KINDS, RULES):
            return f"{self.code} is no code, so it silences nothing"
        if self.code[0] == "F":
            return f"{self.code} is fatal, so it cannot be silenced"
        return (
            f"there is no {self.code} {'in the score' if self.in_file else 'on this line'} to"
            " silence"
        )


def _keys_of(message: Message) -> set[_Key]:
    """Returns what silences this message. A fatal fault cannot be silenced."""
    if message.kind is Kind.FATAL:
        return set()
    return {
        (line, code)
        for line in (None, message.line)
        for code in (message.code, group_of(message.code))
    }


@dataclass(frozen=True)
class Unused:
    """An ignore that silences nothing, and why."""

    place: Place
    text: str


def _ignores_in(tree: Tree) -> Iterator[_Ignore]:
    for comment in tree.of_kind(NodeKind.COMMENT, NodeKind.HEADER_COMMENT):
        text = comment.source
        for found in IGNORE.finditer(text):
            in_file = found[1] == b"ignore-file"
            codes = list(_CODE.finditer(text, *found.span(2)))
            for it in codes:
                code = it[0].decode("utf-8", "replace")
                yield _Ignore(tree.place(comment.begin + it.start()), code, in_file)
            if not codes:
                yield _Ignore(tree.place(comment.begin + found.start()), None, in_file)


def silenced(
    compiled: Compiled, messages: tuple[Message, ...], known: Collection[str]
) -> tuple[tuple[Message, ...], tuple[Unused, ...]]:
    """Returns the messages that are not silenced by comments of the score, and the ignores that
    silence nothing. `known` has all codes."""
    if _WORD not in compiled.data:
        return messages, ()
    ignores = list(_ignores_in(compiled.tree))
    wanted = {it.key for it in ignores}
    kept: list[Message] = []
    used: set[_Key] = set()
    for message in messages:
        keys = _keys_of(message) & wanted
        used |= keys
        if not keys:
            kept.append(message)
    return tuple(kept), tuple(
        Unused(it.place, it.fault(known)) for it in ignores if it.key not in used
    )
