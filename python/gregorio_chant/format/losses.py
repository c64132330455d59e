"""What the canonical form of a score would lose: all that changes in it but its blanks, with where
that stands."""
from __future__ import annotations

import bisect
from collections.abc import Iterator
from dataclasses import dataclass

from gregorio_chant._native.node_kinds import NodeKind
from gregorio_chant._native.nodes import Node
from gregorio_chant.format.parts import BLANKS, COMMENTS, header_pairs
from gregorio_chant.objects.compiled import Compiled
from gregorio_chant.text.source import Place

_COMMENTS = "comments"
_SPELLING = "spelling"
# The codes of what changes the text; of `W2` the earlier header goes, so it is found by that.
_CHANGING = frozenset(("E1", "E2", "E3", "E4", "E5", "E6", "W3", "W4", "W5", "W9"))
REASONS = _CHANGING | {"W2", _COMMENTS, _SPELLING}
_MARK = "\ufeff".encode()


@dataclass(frozen=True)
class Loss:
    """A change at a place of the score: `reason` is a code, `comments` or `spelling`."""

    place: Place
    reason: str
    text: str


def losses_of(score: Compiled) -> list[Loss]:
    """Returns what more than blanks would change in a score that no fatal fault stops, in order;
    nothing where only blanks would."""
    if without_blanks(score.data) == without_blanks(score.canonical.encode("utf-8")):
        return []
    end = Loss(score.tree.place(len(score.data)), _SPELLING, "something would be added")
    return sorted({*_Losses(score)} or {end}, key=lambda it: (it.place, it.reason))


def without_blanks(text: bytes) -> bytes:
    """Returns a text without its blanks and line ends."""
    return text.translate(None, BLANKS)


class _Losses:
    """The losses of one score."""

    def __init__(self, score: Compiled) -> None:
        self._score, self._tree = score, score.tree
        self._changing = [it for it in score.messages if it.code in _CHANGING]
        self._told = sorted(map(score.byte, self._changing))
        self._skipped = [
            (it.begin, it.end) for it in self._tree.of_kind(*COMMENTS, NodeKind.SILENT)
        ]

    def __iter__(self) -> Iterator[Loss]:
        for message in self._changing:
            yield self._loss(self._score.byte(message), message.code, message.text)
        yield from self._of_comments()
        if _MARK in self._tree.source:
            yield self._loss(0, _SPELLING, "a byte order mark would go")
        yield from self._of_headers()
        yield from self._of_syllables()

    def _loss(self, at: int, reason: str, text: str) -> Loss:
        """Returns a loss at the character that holds the byte `at`."""
        source = self._tree.source
        while at < len(source) and source[at] & 0xC0 == 0x80:
            at -= 1
        return Loss(self._tree.place(at), reason, text)

    def _of_comments(self) -> Iterator[Loss]:
        """Yields a loss for each comment, of which a U+FEFF parts the node in two."""
        end = -1
        for it in self._tree.of_kind(*COMMENTS, NodeKind.SILENT):
            source = it.source
            if it.kind != NodeKind.SILENT and it.begin != end and source.strip():
                blanks = len(source) - len(source.lstrip())
                yield self._loss(it.begin + blanks, _COMMENTS, "a comment would go")
            if it.kind != NodeKind.SILENT or it.begin == end:
                end = it.end

    def _of_headers(self) -> Iterator[Loss]:
        pairs = header_pairs(self._tree, self._score.written)
        for it in self._tree.root.children(NodeKind.HEADER, NodeKind.HEADER_LEFT_OUT):
            written = pairs.get(it.number)
            if written is not None:
                yield from self._of_part(it.begin, it.end, written)
            elif it.kind == NodeKind.HEADER:
                yield self._loss(it.begin, "W2", "an earlier value of a header would go")

    def _of_syllables(self) -> Iterator[Loss]:
        """Yields the losses of the syllables, and of a text after the last notes of which nothing
        is kept, as tags of styles."""
        end = next(self._tree.root.children(NodeKind.SCORE_LINE)).end
        written = self._score.written.root.children(NodeKind.SYLLABLE)
        for it, other in zip(self._tree.root.children(NodeKind.SYLLABLE), written):
            yield from self._of_part(end, it.end, other)
            end = it.end
        rest = self._kept(end, len(self._tree.source))
        if rest and not any(it >= end for it in self._told):
            yield self._loss(rest[0], _SPELLING, "this would go")

    def _of_part(self, begin: int, end: int, written: Node) -> Iterator[Loss]:
        """Yields the change of a part of which no message and no comment tells."""
        told = bisect.bisect_left(self._told, begin)
        if told < len(self._told) and self._told[told] <= end:
            return
        kept = self._kept(begin, end)
        before = bytes(self._tree.source[it] for it in kept)
        after = without_blanks(written.source)
        if before == after:
            return
        same = next((at for at, (a, b) in enumerate(zip(before, after)) if a != b), len(after))
        at = kept[min(same, len(kept) - 1)] if kept else begin
        yield self._loss(at, _SPELLING, "this would be spelled in another way")

    def _kept(self, begin: int, end: int) -> list[int]:
        """Returns the bytes from `begin` up to `end` that are no blanks, stand in no comment and
        take a column."""
        first = bisect.bisect_left(self._skipped, (begin,))
        at, kept = begin, list[int]()
        for skipped in (*self._skipped[first:], (end, end)):
            kept += range(at, min(skipped[0], end))
            if skipped[0] >= end:
                break
            at = skipped[1]
        return [it for it in kept if self._tree.source[it] not in BLANKS]
