"""The tree of a score: its nodes, each with its place, as views of the compiler's records that are
made when they are asked for."""
from __future__ import annotations

import bisect
import re
import sys
from collections.abc import Collection, Iterator
from functools import cached_property, lru_cache

from gregorio_chant._native.node_kinds import NOT_KEPT, NodeKind
from gregorio_chant.text.byte_places import BytePlaces
from gregorio_chant.text.source import Place

# A record: `begin`, `end` and `inner` of four bytes each, and `kind`, `a`, `b` and `c` of two each.
RECORD = 20
_WIDE, _NARROW = RECORD // 4, RECORD // 2
_INNER, _KIND = 2, 6
# The byte of a record with the low half of its kind; no kind has a high one.
_KIND_BYTE = 2 * _KIND + (sys.byteorder == "big")
_KINDS = tuple(NodeKind)
# What stands before a syllable, and is none of it.
_BLANKS = bytes(NOT_KEPT - {NodeKind.LEFT_OUT} | {NodeKind.TEXT_BLANK})


@lru_cache(maxsize=64)
def kinds_pattern(*kinds: NodeKind) -> re.Pattern[bytes]:
    """Returns a pattern for one node of these kinds in `Tree.kinds`."""
    return re.compile(b"[%s]" % re.escape(bytes(kinds)))


NOT_KEPT_PATTERN = kinds_pattern(*NOT_KEPT)


class Node:
    """A node of a tree: what it is, its bytes, what its kind says of it in numbers, and the nodes
    that lie in it. Those of its bytes that lie in no node inside it are its own. Two nodes are
    equal if they are the same one of the same tree."""

    __slots__ = ("number", "tree")

    def __init__(self, tree: Tree, number: int) -> None:
        self.tree, self.number = tree, number

    def __eq__(self, other: object) -> bool:
        return isinstance(other, Node) and (self.tree is other.tree and self.number == other.number)

    def __hash__(self) -> int:
        return hash((id(self.tree), self.number))

    def __repr__(self) -> str:
        return f"<Node {self.number} {self.kind.name} {self.begin}:{self.end} {self.values}>"

    def __str__(self) -> str:
        return f"{self.line}:{self.column}"

    @property
    def kind(self) -> NodeKind:
        return _KINDS[self.tree.narrow[_NARROW * self.number + _KIND]]

    @property
    def begin(self) -> int:
        """Its first byte."""
        return self.tree.wide[_WIDE * self.number]

    @property
    def end(self) -> int:
        """The byte after its last one."""
        return self.tree.wide[_WIDE * self.number + 1]

    @property
    def values(self) -> tuple[int, int, int]:
        """The three numbers `a`, `b` and `c` that its kind says."""
        at = _NARROW * self.number + _KIND
        a, b, c = self.tree.narrow[at + 1 : at + 4]
        return a, b, c

    @property
    def a(self) -> int:
        return self.tree.narrow[_NARROW * self.number + _KIND + 1]

    @property
    def b(self) -> int:
        return self.tree.narrow[_NARROW * self.number + _KIND + 2]

    @property
    def c(self) -> int:
        return self.tree.narrow[_NARROW * self.number + _KIND + 3]

    @property
    def past(self) -> int:
        """The number of the node after it and all that lie in it."""
        return self.number + 1 + self.tree.wide[_WIDE * self.number + _INNER]

    def __len__(self) -> int:
        """Returns how many nodes lie in it, at any depth."""
        return self.tree.wide[_WIDE * self.number + _INNER]

    def __bool__(self) -> bool:
        return True

    def __iter__(self) -> Iterator[Node]:
        """Yields the nodes that lie in it, at any depth, in order."""
        return (Node(self.tree, it) for it in range(self.number + 1, self.past))

    def children(self, *kinds: NodeKind) -> Iterator[Node]:
        """Yields the nodes that lie directly in it, in order; if `kinds` are given, those of these
        kinds."""
        kinds_of = self.tree.kinds
        for number in self.tree.children(self.number):
            if not kinds or kinds_of[number] in kinds:
                yield Node(self.tree, number)

    @property
    def source(self) -> bytes:
        """All of its bytes."""
        return self.tree.source[self.begin : self.end]

    @property
    def text(self) -> str:
        """All that stands at its place; bytes that are no UTF-8 as U+FFFD."""
        return self.source.decode("utf-8", "replace")

    @property
    def own(self) -> bytes:
        """Its own bytes: those that lie in no node inside it."""
        return b"".join(self.tree.source[begin:end] for begin, end in self.own_spans())

    def own_spans(self) -> Iterator[tuple[int, int]]:
        """Yields where its own bytes stand: one span more than it has children, some of no
        bytes."""
        return self._between(self.children())

    @property
    def kept(self) -> str:
        """What was kept of it: its text without what the compiler does not keep, each CR as LF."""
        return self.tree.kept(self.number)

    @property
    def place(self) -> Place:
        """Where it begins: the characters before it, its line and its column, as in messages."""
        return self.tree.place(self.begin)

    @property
    def end_place(self) -> Place:
        """Where it ends."""
        return self.tree.place(self.end)

    @property
    def line(self) -> int:
        return self.place.line

    @property
    def column(self) -> int:
        return self.place.column

    def _between(self, nodes: Iterator[Node]) -> Iterator[tuple[int, int]]:
        """Yields the spans of it that lie before, between and after `nodes`."""
        at = self.begin
        for it in nodes:
            yield at, it.begin
            at = it.end
        yield at, self.end


class Tree:
    """The tree of a score: a list of nodes, in the order of the file, each before those that lie in
    it. The first is the file, in which all others lie. Each byte of the score belongs to the
    innermost node that holds it, so the own bytes of all nodes join to the score.

    `source` is the score, as bytes. `records` are the compiler's, in the machine's order of bytes.
    """

    def __init__(self, source: bytes, records: bytes | memoryview) -> None:
        self.source = source
        self.records = memoryview(records)
        self.wide, self.narrow = self.records.cast("I"), self.records.cast("H")
        # The number of the kind of each node, in a byte.
        self.kinds = bytes(self.records[_KIND_BYTE::RECORD])

    def __len__(self) -> int:
        return len(self.wide) // _WIDE

    def __getitem__(self, number: int) -> Node:
        """Returns the node `number`, from 0; a negative one counts from the end."""
        count = len(self)
        if not -count <= number < count:
            raise IndexError(f"a tree of {count} nodes has no node {number}")
        return Node(self, number % count)

    def __iter__(self) -> Iterator[Node]:
        """Yields all nodes, in order."""
        return (Node(self, it) for it in range(len(self)))

    def __repr__(self) -> str:
        return f"<Tree of {len(self)} nodes over {len(self.source)} bytes>"

    @property
    def root(self) -> Node:
        """The file."""
        return Node(self, 0)

    def of_kind(self, *kinds: NodeKind) -> Iterator[Node]:
        """Yields the nodes of these kinds, in order."""
        return (Node(self, it) for it in self.numbers_of(*kinds))

    def numbers_of(self, *kinds: NodeKind) -> list[int]:
        """Returns the numbers of the nodes of these kinds, in order."""
        return [it.start() for it in kinds_pattern(*kinds).finditer(self.kinds)]

    def said_but_of(self, kinds: Collection[NodeKind]) -> Iterator[bytes]:
        """Yields the kinds of all nodes that are of none of these kinds, then their first numbers,
        their second and their third ones, in order."""
        others = re.compile(b"[^%s]+" % re.escape(bytes(kinds)))
        runs = [it.span() for it in others.finditer(self.kinds)]
        yield b"".join([self.kinds[first:past] for first, past in runs])
        for number in range(1, 4):
            column = self.narrow[_KIND + number :: _NARROW].tobytes()
            yield b"".join([column[2 * first : 2 * past] for first, past in runs])

    def children(self, number: int) -> Iterator[int]:
        """Yields the numbers of the nodes that lie directly in the node `number`, in order."""
        past = number + 1 + self.wide[_WIDE * number + _INNER]
        number += 1
        while number < past:
            yield number
            number += 1 + self.wide[_WIDE * number + _INNER]

    def core(self, number: int) -> tuple[int, int]:
        """Returns the bytes of the syllable `number` without blanks and comments at both ends."""
        begin, end = self.wide[_WIDE * number : _WIDE * number + 2]
        inner = list(self.children(number))
        for it in inner:
            if self.wide[_WIDE * it] != begin or self.kinds[it] not in _BLANKS:
                break
            begin = self.wide[_WIDE * it + 1]
        for it in reversed(inner):
            if self.wide[_WIDE * it + 1] != end or self.kinds[it] not in _BLANKS:
                break
            end = self.wide[_WIDE * it]
        return begin, end

    def kept(self, number: int) -> str:
        """Returns what was kept of the node `number`."""
        begin, end, inner = self.wide[_WIDE * number : _WIDE * number + _INNER + 1]
        if inner:
            return self.kept_text(number + 1, number + 1 + inner, begin, end)
        return self.source[begin:end].decode("utf-8", "replace").replace("\r", "\n")

    def kept_text(self, first: int, past: int, begin: int, end: int) -> str:
        """Returns what was kept of the bytes from `begin` up to `end`, in which no nodes lie but
        those from `first` up to `past`."""
        source = self.source
        if NOT_KEPT_PATTERN.search(self.kinds, first, past) is None:
            kept = source[begin:end]
        else:
            kept = b"".join([source[a:b] for a, b in self.kept_spans(first, past, begin, end)])
        return kept.decode("utf-8", "replace").replace("\r", "\n")

    def kept_spans(self, first: int, past: int, begin: int, end: int) -> Iterator[tuple[int, int]]:
        """Yields where these bytes stand. Nodes before `begin` do not count."""
        for found in NOT_KEPT_PATTERN.finditer(self.kinds, first, past):
            at, past_it = self.wide[_WIDE * found.start() : _WIDE * found.start() + 2]
            if at >= end:
                break
            if at >= begin:
                yield begin, at
                begin = past_it
        yield begin, end

    def at(self, offset: int) -> Node:
        """Returns the innermost node that holds the byte `offset`: that to which the byte belongs.
        Raises `IndexError` if the score has no such byte."""
        if not 0 <= offset < len(self.source):
            raise IndexError(f"a score of {len(self.source)} bytes has no byte {offset}")
        number = bisect.bisect_right(self.wide[::_WIDE], offset) - 1
        while self.wide[_WIDE * number + 1] <= offset:
            number -= 1
        return Node(self, number)

    def place(self, offset: int) -> Place:
        """Returns the place of the byte `offset`: the characters before it, its line and its
        column, as in messages."""
        return self.places.place(offset)

    @cached_property
    def places(self) -> BytePlaces:
        """The places of the score's bytes."""
        return BytePlaces(self.source)
