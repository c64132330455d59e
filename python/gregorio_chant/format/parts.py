"""The parts of a score that the formatter lays out: headers, the line `%%` and syllables, each with
its canonical spelling, by the trees of the score and of its canonical text.

A part stays as it is spelled if something is found in it, if it holds a comment, and if its
canonical spelling has other letters or line ends, or has the blank before it that stands inside.
"""
from __future__ import annotations

import bisect
from collections.abc import Iterator
from dataclasses import dataclass
from functools import cached_property

from gregorio_chant._native.node_kinds import NodeKind
from gregorio_chant._native.nodes import Node, Tree
from gregorio_chant._native.trees import tree
from gregorio_chant.objects.compiled import Compiled

BLANKS = b" \t\n\r"
COMMENTS = (NodeKind.COMMENT, NodeKind.HEADER_COMMENT)
_HEADERS = (NodeKind.HEADER, NodeKind.HEADER_LEFT_OUT)
_MARK = "\ufeff".encode()


@dataclass(frozen=True, slots=True)
class Part:
    """A part of a score, without the blanks and comments before it: its bytes from `begin` up to
    `end`. Without a `spelling` it stays as it is."""

    begin: int
    end: int
    spelling: bytes | None = None


def marks_end(source: bytes, at: int = 0) -> int:
    """Returns where the marks U+FEFF from `at` on end, in bytes of the score."""
    while source.startswith(_MARK, at):
        at += len(_MARK)
    return at


def _letters(syllable: Node, begin: int) -> bytes:
    """Returns the bytes of a syllable from `begin` on, without blanks, line ends and tags of
    styles: what another spelling of it may not change."""
    kept, at = [], begin
    for tag in syllable.children(NodeKind.STYLE_TAG):
        kept.append(syllable.tree.source[at : tag.begin])
        at = tag.end
    kept.append(syllable.tree.source[at : syllable.end])
    return b"".join(kept).translate(None, BLANKS)


def name_of(header: Node) -> str:
    """Returns the name of a header."""
    return next(header.children(NodeKind.HEADER_NAME)).kept


def header_pairs(source: Tree, written: Tree) -> dict[int, Node]:
    """Returns the header that is written for each header of the score, by the number of its node:
    of headers with one name for the last, but each `annotation` stands for itself."""
    named: dict[str, list[int]] = {}
    for it in source.root.children(NodeKind.HEADER):
        named.setdefault(name_of(it), []).append(it.number)
    pairs = {}
    for it in written.root.children(NodeKind.HEADER):
        name = name_of(it)
        pairs[named[name].pop(0 if name == "annotation" else -1)] = it
    return pairs


class _Written:
    """The canonical text of a score, syllable by syllable. Its tree is made when one of them is
    spelled in another way than in the score."""

    def __init__(self, score: Compiled) -> None:
        self._score, self._text = score, score.canonical.encode("utf-8")
        self._number = -1
        # Where the next syllable begins: after the line `%%`.
        self._at = 2 if self._text.startswith(b"%%") else self._text.find(b"\n%%") + 3

    @cached_property
    def _syllables(self) -> list[Node]:
        return [*self._score.written.root.children(NodeKind.SYLLABLE)]

    def headers(self) -> dict[int, Node]:
        """Returns the header that is written for each header of the score, unless all are spelled
        so already."""
        text = self._text[: self._at]
        if self._score.data.startswith(text):
            return {}
        return header_pairs(self._score.tree, tree(text))

    def next(self, before: bytes) -> Node | None:
        """Passes a syllable that is spelled so in the score, and returns what is written of it if
        that is spelled in another way. What stands before it may differ."""
        self._number += 1
        for spelling in (b"\n" + before, before):
            if self._text.startswith(spelling, self._at):
                self._at += len(spelling)
                return None
        node = self._syllables[self._number] if self._number < len(self._syllables) else None
        self._at = len(self._text) if node is None else node.end
        return node


class _Parts:
    """The parts of one score."""

    def __init__(self, score: Compiled) -> None:
        self._tree, self._source = score.tree, score.data
        self._written = _Written(score)
        self._told = sorted(map(score.byte, score.messages))
        self._comments = [it.begin for it in self._tree.of_kind(*COMMENTS)]
        # Where the part before ends, and where a character stands that was left out after it.
        self._end, self._left_out = 0, -1

    def __iter__(self) -> Iterator[Part]:
        headers = self._written.headers()
        for node in self._tree.root.children():
            if node.kind == NodeKind.SYLLABLE:
                part = self._syllable(node)
            elif node.kind in _HEADERS:
                part = self._header(node, headers.get(node.number))
            elif node.kind == NodeKind.SCORE_LINE:
                part = self._score_line(node)
            else:
                if node.kind == NodeKind.LEFT_OUT and self._left_out < self._end:
                    self._left_out = node.begin
                continue
            yield self._with_marks(part)

    def _with_marks(self, part: Part) -> Part:
        """Returns a part with the marks U+FEFF directly after it, and passes it."""
        self._end = end = marks_end(self._source, part.end)
        return part if end == part.end else Part(part.begin, end)

    def _score_line(self, node: Node) -> Part:
        """Returns the whole line, with a comment on it."""
        line = self._source[node.begin :].partition(b"\n")[0].rstrip(b" \t")
        return Part(node.begin, node.begin + len(line))

    def _header(self, node: Node, written: Node | None) -> Part:
        line = max(self._source.rfind(b"\n", 0, node.begin) + 1, marks_end(self._source))
        begin = node.begin if self._source[line : node.begin].strip(b" \t") else line
        if written is None or self._stays(begin, node.end):
            return Part(begin, node.end)
        before, after = node.source, written.source
        same = _header_letters(before) == _header_letters(after)
        return Part(begin, node.end, after if same else None)

    def _syllable(self, node: Node) -> Part:
        begin = self._left_out if self._left_out >= self._end else self._tree.core(node.number)[0]
        stays, before = Part(begin, node.end), self._source[begin : node.end]
        written = self._written.next(before)
        if written is None or _MARK in before or self._stays(begin, node.end):
            return stays
        spelling = written.source
        after = spelling.removeprefix(b"\n")
        keeps_blanks = before.count(b"\n") == after.count(b"\n") and (
            spelling == after or begin > self._end
        )
        may_change = keeps_blanks and _letters(node, begin) == _letters(written, written.begin)
        return Part(begin, node.end, after) if may_change else stays

    def _stays(self, begin: int, end: int) -> bool:
        """Returns whether something is found in a part, or a comment stands in it."""
        told, comment = (bisect.bisect_left(it, begin) for it in (self._told, self._comments))
        is_last = end == len(self._source)
        return (told < len(self._told) and (self._told[told] < end or is_last)) or (
            comment < len(self._comments) and self._comments[comment] < end
        )


def _header_letters(text: bytes) -> bytes:
    return text.translate(None, BLANKS + b";")


def parts_of(score: Compiled) -> Iterator[Part]:
    """Yields the parts of a score that no fatal fault stops, in order."""
    return iter(_Parts(score))
