"""The form of a tree: each node lies in the one around it, the own bytes of all join to the score,
and those of each kind are what they have to be."""
from __future__ import annotations

import re
from collections.abc import Iterator

from gregorio_chant._native.node_kinds import NodeKind
from gregorio_chant._native.nodes import Node, Tree

_BLANKS = re.compile(rb"[ \t\r\n]*")
# What may stand after the last syllable and makes none.
_TAIL = re.compile(rb"(?:[ \t\r\n{}]|<[^>]*>)*")
_SILENT = re.compile(rb"(?<=\r)\n|\xef\xbb\xbf")
_CHARACTER = rb"[\x00-\x7f]|[\xc0-\xff][\x80-\xbf]+"
# What the own bytes of a node are, where this is not left to what is written of the tree.
_OWN = {
    NodeKind.HEADER: rb"[ \t]*:[ \t\r\n;]*;",
    NodeKind.SCORE_LINE: b"%%",
    NodeKind.SYLLABLE: rb"|\((\|)*\)",
    NodeKind.SNIPPET: b"",
    NodeKind.GLYPH: b"",
    NodeKind.COMMENT: rb"[^\r\n]+",
    NodeKind.HEADER_COMMENT: rb"%[^\r\n]*",
    NodeKind.SILENT: rb"\n|\xef\xbb\xbf",
    NodeKind.LEFT_OUT: _CHARACTER,
    NodeKind.FURTHER_BLANK: rb"[ \t\r\n]+",
    NodeKind.TEXT_BLANK: rb"[ \t\r\n]",
    NodeKind.BRACE: rb"[{}]",
    NodeKind.FUSION: rb"@\[?|\]",
}


class FormError(ValueError):
    """A node that lies not within the one around it, or not after the one before it."""


def own_parts(tree: Tree) -> Iterator[bytes]:
    """Yields the own bytes of all nodes, in the order of the score. Raises `FormError` for a node
    that lies not where it has to."""
    around: list[Node] = []
    at = 0
    for node in tree:
        while around and around[-1].past <= node.number:
            outer = around.pop()
            yield tree.source[at : outer.end]
            at = outer.end
        last = around[-1].end if around else len(tree.source)
        if not at <= node.begin <= node.end <= last or node.past > (
            around[-1].past if around else len(tree)
        ):
            raise FormError(f"{node!r} stands not after byte {at}, or not before byte {last}")
        yield tree.source[at : node.begin]
        at = node.begin
        around.append(node)
    for outer in reversed(around):
        yield tree.source[at : outer.end]
        at = outer.end


def check_own(node: Node) -> None:
    """Raises `FormError` unless the own bytes of `node` are what they have to be."""
    pattern = _OWN.get(node.kind)
    if pattern and not re.fullmatch(pattern, node.own, re.DOTALL):
        raise FormError(f"{node!r} has the own bytes {node.own!r}")
    if node.kind in (NodeKind.COMMENT, NodeKind.HEADER_COMMENT):
        check_comment(node)


def check_file(tree: Tree) -> None:
    """Raises `FormError` unless the own bytes of the file are blanks, and after the last syllable
    what makes none; before what is unread there are none."""
    last = max(
        (it.number for it in tree.root.children(NodeKind.SCORE_LINE, NodeKind.SYLLABLE)), default=0
    )
    numbers = [it.number for it in tree.root.children()] + [len(tree)]
    is_unread = any(tree.root.children(NodeKind.UNREAD))
    for (begin, end), number in zip(tree.root.own_spans(), numbers, strict=True):
        part = tree.source[begin:end]
        is_tail = last < number
        if not (_TAIL if is_tail else _BLANKS).fullmatch(part) or (part and is_unread and is_tail):
            raise FormError(f"the file has the own bytes {part!r} before the node {number}")


def check_comment(node: Node) -> None:
    """Raises `FormError` unless a comment begins with a `%`, or after the line `%%`, and goes up to
    the end of its line, or to a U+FEFF in it."""
    source = node.tree.source
    begins = source[node.begin : node.begin + 1] == b"%" or node.tree[node.number - 1].kind in (
        NodeKind.SCORE_LINE,
        NodeKind.SILENT,
    )
    if (
        not begins
        or source[node.end : node.end + 3] not in (b"", b"\xef\xbb\xbf")
        and source[node.end : node.end + 1] not in (b"\r", b"\n")
    ):
        raise FormError(f"{node!r} is not all of a comment")


def check_silent(tree: Tree) -> None:
    """Raises `FormError` unless each U+FEFF and each LF directly after a CR, up to what is unread,
    is a node."""
    end = min((it.begin for it in tree.root.children(NodeKind.UNREAD)), default=len(tree.source))
    silent = [it.span() for it in _SILENT.finditer(tree.source, 0, end)]
    found = [(it.begin, it.end) for it in tree.of_kind(NodeKind.SILENT)]
    if silent != found:
        raise FormError(f"silent are {found}, and not {silent}")


def check_form(tree: Tree) -> None:
    """Raises `FormError` unless each node lies within the one around it, after the one before it,
    and the own bytes of all join to the score."""
    if (tree.root.kind, tree.root.begin, tree.root.end, len(tree.root)) != (
        NodeKind.FILE,
        0,
        len(tree.source),
        len(tree) - 1,
    ):
        raise FormError(f"{tree.root!r} is not the whole of {tree!r}")
    if b"".join(own_parts(tree)) != tree.source:
        raise FormError("the own bytes do not join to the score")
    check_file(tree)
    check_silent(tree)
    for node in tree:
        check_own(node)
