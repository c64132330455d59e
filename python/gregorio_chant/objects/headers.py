"""The headers of a score."""
from __future__ import annotations

import re

from gregorio_chant._native.node_kinds import NodeKind
from gregorio_chant.objects.item import Item
from gregorio_chant.text.source import Place

# A run of `;` that ends a value: such a value stands on lines of its own.
_MARK = re.compile(r";[ \t]*(?:%|$)", re.MULTILINE)

_REPEATS = 202


def header_spelling(name: str, value: str) -> str:
    """Returns the canonical line of a header, or its lines, without the last LF."""
    if not value:
        return f"{name}:;"
    if "\n" in value or _MARK.search(value):
        return f"{name}:\n {value};;"
    return f"{name}: {value};"


class Header(Item):
    """A header."""

    __slots__ = ()

    @property
    def name(self) -> str:
        return self._kept(NodeKind.HEADER_NAME)

    @property
    def value(self) -> str:
        return self._kept(NodeKind.HEADER_VALUE)

    @property
    def repeats(self) -> bool:
        """Whether it takes the place of an earlier one of its name."""
        return self._a == _REPEATS

    def _kept(self, kind: NodeKind) -> str:
        tree = self._score.tree
        return tree.kept(tree.kinds.index(kind, self._number))

    @property
    def spelling(self) -> str:
        """Its canonical line, or the lines, without the last LF."""
        return header_spelling(self.name, self.value)

    @property
    def place(self) -> Place:
        """Its place in the canonical text."""
        written = self._score.written
        return written.place(written.of_header(self))
