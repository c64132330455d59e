"""Where the headers, syllables and comments of a score stand, in characters of its text as the
compiler counts it: what an editor, a help and a repair look at. It is read off the tree."""
from __future__ import annotations

import bisect
from collections.abc import Iterator
from dataclasses import dataclass
from functools import cached_property

from gregorio_chant._native.node_kinds import NodeKind
from gregorio_chant._native.nodes import Node, Tree
from gregorio_chant.text.vocabulary import SPANS, STYLES

_NOT_CLOSED = 306
# The code of a header `nabc-lines` with no number.
_NO_NUMBER, _NABC_LINES = 105, "nabc-lines"


@dataclass(frozen=True, slots=True)
class Span:
    """The characters from `begin` up to `end`, which is the offset after them."""

    begin: int
    end: int


@dataclass(frozen=True, slots=True)
class HeaderSpan(Span):
    """A header, with its name; a line without a colon has none."""

    name: str | None


@dataclass(frozen=True, slots=True)
class SyllableSpan(Span):
    """A syllable with all that stands before it; where its text begins, after blanks and comments;
    and where its notes begin: at the `(`, or at the end if it has none."""

    text: int
    notes: int


@dataclass(frozen=True, slots=True)
class Mark:
    """A tag of a style or of a span of a text: where it begins, its name, and whether it closes."""

    begin: int
    name: str
    closes: bool


class Parts:
    """The parts of a score. What was not read after a fatal fault is one more syllable; in the
    headers it has no parts. `opener` is where the notes begin that are not closed, if that is the
    fault."""

    def __init__(self, tree: Tree, opener: int | None = None) -> None:
        self._tree, self._opener = tree, opener
        self._count = tree.places.counted

    @cached_property
    def headers(self) -> list[HeaderSpan]:
        """The headers, also those that are left out."""
        nodes = self._tree.of_kind(NodeKind.HEADER, NodeKind.HEADER_LEFT_OUT)
        return list(map(self._header, nodes))

    def _header(self, node: Node) -> HeaderSpan:
        named = next(node.children(NodeKind.HEADER_NAME), None)
        name = _NABC_LINES if node.a == _NO_NUMBER else None if named is None else named.kept
        begin = node.end - len(node.source.lstrip())
        return HeaderSpan(self._count(begin), self._count(node.end), name)

    @cached_property
    def comments(self) -> list[Span]:
        return [
            Span(self._count(it.begin), self._count(it.end))
            for it in self._tree.of_kind(NodeKind.COMMENT, NodeKind.HEADER_COMMENT)
        ]

    @cached_property
    def style_tags(self) -> list[Mark]:
        """The tags of styles that were read."""
        return [
            Mark(self._count(it.begin), STYLES[it.b], it.c == 1)
            for it in self._tree.of_kind(NodeKind.STYLE_TAG)
        ]

    def style_tags_in(self, begin: int, end: int) -> list[Mark]:
        """Returns the tags of styles that begin from `begin` up to `end`."""
        first = bisect.bisect_left(self.style_tags, begin, key=lambda it: it.begin)
        past = bisect.bisect_left(self.style_tags, end, first, key=lambda it: it.begin)
        return self.style_tags[first:past]

    def span_marks(self) -> Iterator[Mark]:
        """Yields the tags of spans that were read."""
        for it in self._tree.of_kind(NodeKind.SPAN_MARK):
            yield Mark(self._count(it.begin), SPANS[it.b // 2], it.b % 2 == 1)

    @cached_property
    def score(self) -> int:
        """Where the line `%%` begins; the end of the score if there is none."""
        line = next(self._tree.of_kind(NodeKind.SCORE_LINE), None)
        return self._count(len(self._tree.source) if line is None else line.begin)

    @cached_property
    def syllables(self) -> list[SyllableSpan]:
        return list(self._syllables())

    def _syllables(self) -> Iterator[SyllableSpan]:
        line = next(self._tree.of_kind(NodeKind.SCORE_LINE), None)
        if line is None:
            return
        begin = self._count(line.end)
        for it in self._tree.root.children(NodeKind.SYLLABLE, NodeKind.UNREAD):
            end = self._count(it.end)
            if it.kind == NodeKind.SYLLABLE:
                snippet = next(it.children(NodeKind.SNIPPET), None)
                notes = end if snippet is None else self._count(snippet.begin) - 1
                text = self._count(self._tree.core(it.number)[0])
            else:
                text = self._count(it.begin)
                is_open = it.a == _NOT_CLOSED and self._opener is not None
                notes = self._opener if is_open and self._opener is not None else end
            yield SyllableSpan(begin, end, text, notes)
            begin = end

    def number_at(self, offset: int) -> int | None:
        """Returns which syllable is the last that begins at `offset` or before it."""
        number = bisect.bisect_right(self.syllables, offset, key=lambda it: it.begin) - 1
        return number if number >= 0 else None
