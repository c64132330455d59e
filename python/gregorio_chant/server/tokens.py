"""The kinds of a score's parts, for editors that colour by them, up to a fatal fault that stops
the score."""
from __future__ import annotations

from collections.abc import Iterator
from typing import NamedTuple

from gregorio_chant._native.node_kinds import NodeKind
from gregorio_chant._native.nodes import Node
from gregorio_chant.server.document import Document
from gregorio_chant.server.protocol import Json, Params

KINDS = ["property", "comment", "keyword", "parameter", "class", "operator", "variable", "function"]
_KIND_OF = {
    NodeKind.HEADER_NAME: "property",
    NodeKind.HEADER_COMMENT: "comment",
    NodeKind.COMMENT: "comment",
    NodeKind.STYLE_TAG: "keyword",
    NodeKind.SPAN_MARK: "keyword",
    NodeKind.TAG: "keyword",
    NodeKind.ATTRIBUTE: "parameter",
    NodeKind.CLEF: "class",
    NodeKind.BAR: "operator",
    NodeKind.NOTE: "variable",
    NodeKind.DESCRIPTOR: "function",
}


class _Token(NamedTuple):
    begin: int
    end: int
    kind: str


def tokens(document: Document, params: Params) -> Json:
    """Returns the parts in the form of the protocol: five numbers for each, the first two from the
    part before it."""
    numbers: list[int] = []
    line = character = 0
    for it in _tokens(document):
        where = document.text.range(it.begin, it.end)
        if where.start.line != line:
            character = 0
        numbers += [
            where.start.line - line,
            where.start.character - character,
            where.end.character - where.start.character,
            KINDS.index(it.kind),
            0,
        ]
        line, character = where.start.line, where.start.character
    return {"data": numbers}


def _tokens(document: Document) -> Iterator[_Token]:
    """Yields the parts in order, each up to the first thing in it that is not kept."""
    tree = document.compiled.tree
    for node in tree.of_kind(*_KIND_OF, NodeKind.RAW):
        for begin, end in _tags_of(node) if node.kind == NodeKind.RAW else [_first(node)]:
            count = tree.places.counted
            yield _Token(count(begin), count(end), _KIND_OF.get(node.kind, "keyword"))


def _first(node: Node) -> tuple[int, int]:
    """Returns where a node begins, and where the first thing in it begins that is not kept."""
    tree = node.tree
    return next(tree.kept_spans(node.number + 1, node.past, node.begin, node.end))


def _tags_of(node: Node) -> Iterator[tuple[int, int]]:
    """Yields where the two tags of a raw part stand."""
    source = node.source
    yield node.begin, node.begin + source.index(b">") + 1
    yield node.begin + source.rindex(b"<"), node.end
