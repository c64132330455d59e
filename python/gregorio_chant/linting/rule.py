"""What rules read, and what they find."""
from __future__ import annotations

from collections.abc import Iterator
from dataclasses import dataclass
from functools import cached_property
from typing import NamedTuple

from gregorio_chant._native.node_kinds import NodeKind
from gregorio_chant._native.nodes import Node, Tree
from gregorio_chant.objects.item import Item
from gregorio_chant.objects.score import Score

_SNIPPET = int(NodeKind.SNIPPET)


@dataclass(frozen=True)
class Found:
    """What a rule finds: at a byte of the score."""

    byte: int
    text: str


class Text(NamedTuple):
    """The text of the syllable `number` of a tree, whose nodes go up to `past`: its bytes from
    `begin` up to `end`, where the `(` stands."""

    number: int
    past: int
    begin: int
    end: int


class Subject:
    """A score that no fatal fault stops, as rules read it."""

    def __init__(self, score: Score) -> None:
        self.score = score

    @property
    def tree(self) -> Tree:
        return self.score.tree

    @property
    def source(self) -> bytes:
        """The bytes of the score."""
        return self.score.tree.source

    @cached_property
    def line(self) -> Node:
        """The line `%%`."""
        return next(self.tree.of_kind(NodeKind.SCORE_LINE))

    @cached_property
    def comments(self) -> list[Node]:
        """All comments. What a U+FEFF parts from its begin is none."""
        found = list(self.tree.of_kind(NodeKind.HEADER_COMMENT))
        ends = {0}
        for it in self.tree.of_kind(NodeKind.COMMENT):
            if self.source[it.begin - 3 : it.begin] != b"\xef\xbb\xbf" or it.begin - 3 not in ends:
                found.append(it)
            ends.add(it.end)
        return found

    def numbers(self, *kinds: NodeKind) -> list[int]:
        """Returns the numbers of the nodes of these kinds."""
        return self.tree.numbers_of(*kinds)

    @cached_property
    def texts(self) -> list[Text]:
        """The text of each syllable, as its node and its bytes."""
        return list(self._texts())

    def _texts(self) -> Iterator[Text]:
        wide, kinds = self.tree.wide, self.tree.kinds
        for number in self.tree.numbers_of(NodeKind.SYLLABLE):
            begin, end, inner = wide[5 * number : 5 * number + 3]
            first = kinds.find(_SNIPPET, number, number + 1 + inner)
            yield Text(number, number + 1 + inner, begin, end if first < 0 else wide[5 * first] - 1)

    def found(self, item: Item, text: str) -> Found:
        """Returns what is found at the begin of an item."""
        return Found(item.begin, text)
