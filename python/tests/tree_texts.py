"""The dump and the canonical text of a score, written from its tree alone: no character of the
score is looked at to know what it means.

Usage: python tree_texts.py FILE..     prints the nodes of each score
"""
from __future__ import annotations

import re
import sys
from collections.abc import Iterator
from pathlib import Path

from support import ROOT

from gregorio_chant import tree
from gregorio_chant._native.node_kinds import NodeKind
from gregorio_chant._native.nodes import Node, Tree

_STYLES = ("b", "c", "e", "i", "sc", "tt", "ul")
_SPECIAL = re.compile(r"[()\[\]{}<>%$]")
_HEIGHTS = "abcdefghijklmnp"
_SHAPES = (
    "punctum",
    "inclinatum",
    "virga",
    "bivirga",
    "trivirga",
    "virga-reversa",
    "stropha",
    "distropha",
    "tristropha",
    "oriscus",
    "oriscus-scapus",
    "quilisma",
    "quilisma-quadratum",
    "quadratum",
    "cavum",
    "lined",
    "linea",
)
_BASES = (
    "pes",
    "clivis",
    "torculus",
    "porrectus",
    "scandicus",
    "scandicus-flexus",
    "torculus-resupinus",
    "porrectus-flexus",
    "torculus-resupinus-flexus",
    "climacus",
    "inclinata",
)
_ONE_NOTE = 16
_CLIMACUS = 9
_DEGREES = ("ut", "re", "mi", "fa", "sol", "la", "si", "-")
_SIGNS = ("none", "flat", "natural", "sharp")
_BARS = ("virgula", "minimis", "minima", "minor", "maior", "finalis")
_POSITIONS = ("one", "beginning", "middle", "end")
_BEGINS_ELEMENT = 64
_REPEATS = 202
_NAME = re.compile(r"\('(.)', '(.)', \"([^\"]+)\"\)")


def names_of_nabc() -> dict[str, str]:
    """Returns the name of each code of NABC, as the compiler's table has them."""
    table = ROOT / "crates" / "gabc_nabc" / "src" / "names.rt"
    return {a + b: name for a, b, name in _NAME.findall(table.read_text(encoding="utf-8"))}


_NAMES = names_of_nabc()


def _escaped(text: str) -> str:
    return text.replace("\\", "\\\\").replace("\n", "\\n")


# ---- the headers


def _has_score(tree: Tree) -> bool:
    return any(tree.root.children(NodeKind.SCORE_LINE))


def _book(tree: Tree) -> list[tuple[str, str]]:
    """Returns the headers that count, each at its first place with its last value."""
    book: list[tuple[str, str]] = []
    for header in tree.root.children(NodeKind.HEADER):
        name, value = (
            it.kept for it in header.children(NodeKind.HEADER_NAME, NodeKind.HEADER_VALUE)
        )
        if header.a == _REPEATS:
            book[max(at for at, it in enumerate(book) if it[0] == name)] = (name, value)
        else:
            book.append((name, value))
    return book


def _header_line(name: str, value: str) -> str:
    if "\n" in value or re.search(r";[ \t]*(%|$)", value):
        return f"{name}:\n {value};;\n"
    return f"{name}: {value};\n" if value else f"{name}:;\n"


# ---- the text of a syllable


def _piece(node: Node) -> str | None:
    """Returns what is written of a node of a text, if it is a piece of it."""
    kind = node.kind
    if kind == NodeKind.CHARACTERS:
        return _SPECIAL.sub(r"$\g<0>", node.kept)
    if kind == NodeKind.TEXT_BLANK:
        return " " if node.b else None
    return (
        node.kept
        if kind in (NodeKind.ESCAPE, NodeKind.RAW, NodeKind.TAG, NodeKind.SPAN_MARK)
        else None
    )


def _styles(node: Node) -> list[str]:
    return [style for bit, style in enumerate(_STYLES) if node.a >> bit & 1]


def _joint(was: list[str], now: list[str], marks: str) -> str:
    """Returns what stands between two pieces in these styles: closing tags, the marks of the
    centre, opening tags."""
    same = next(
        (at for at, (one, other) in enumerate(zip(was, now)) if one != other),
        min(len(was), len(now)),
    )
    closed = "".join(f"</{it}>" for it in reversed(was[same:]))
    return closed + marks + "".join(f"<{it}>" for it in now[same:])


def text_of(syllable: Node) -> str:
    """Returns the canonical text of a syllable, without its translation and its notes."""
    written, styles, marks, is_open = "", list[str](), "", False
    for node in syllable.children():
        if node.kind == NodeKind.BRACE:
            marks, is_open = marks + "{}"[node.b], not node.b
        piece = _piece(node)
        if piece is not None:
            now = _styles(node)
            if bool(node.a & 128) != is_open:
                raise ValueError(f"{node!r} tells another centre than the braces")
            written, styles, marks = written + _joint(styles, now, marks) + piece, now, ""
    return written + _joint(styles, [], marks + "}" * is_open)


def _translation_of(syllable: Node) -> str | None:
    translations = list(syllable.children(NodeKind.TRANSLATION))
    if [it.b for it in translations] != [1, *[0] * len(translations)][: len(translations)]:
        raise ValueError(f"of {translations} not the first one alone counts")
    return translations[0].kept[1:-1] if translations else None


# ---- the canonical text


def _canonical_syllable(syllable: Node) -> str:
    translation = _translation_of(syllable)
    notes = "|".join(it.kept for it in syllable.children(NodeKind.SNIPPET))
    begins_word = syllable.a in (0, 1)
    return (
        "\n" * begins_word
        + text_of(syllable)
        + (f"[{translation}]" if translation is not None else "")
        + f"({notes})"
    )


def canonical_of(tree: Tree) -> str:
    """Returns the canonical text of the score of `tree`."""
    if not _has_score(tree):
        return ""
    headers = "".join(_header_line(*it) for it in _book(tree))
    return (
        headers
        + "%%"
        + "".join(map(_canonical_syllable, tree.root.children(NodeKind.SYLLABLE)))
        + "\n"
    )


# ---- the dump


def _glyph_line(glyph: Node) -> str:
    base = _SHAPES[glyph.a - _ONE_NOTE] if glyph.a >= _ONE_NOTE else _BASES[glyph.a]
    resupinus = "-resupinus" if glyph.a == _CLIMACUS else "-subpunctis-resupinus"
    return f"glyph {base}{('', '-subpunctis', resupinus)[glyph.b]} {glyph.c}"


def _note_line(note: Node, spelling: str) -> str:
    return (
        "note"
        f" {_HEIGHTS[note.a & 15]} {_SHAPES[note.b & 31]} {_DEGREES[note.c & 7]} {_SIGNS[note.c >> 3 & 3]} {spelling}"
    )


def _descriptor_line(descriptor: Node, spelling: str) -> str:
    codes = [chr(it.a) + chr(it.b) for it in descriptor.children(NodeKind.NABC_GLYPH)]
    return f"descriptor {spelling} {'!'.join(_NAMES.get(it, it) for it in codes)}"


_SIMPLE = {
    NodeKind.CLEF: "clef",
    NodeKind.LINE_BREAK: "break",
    NodeKind.FUSION: "fusion",
    NodeKind.NABC_SPACE: "space",
}


def _item_line(item: Node) -> str:
    kind, spelling = item.kind, _escaped(item.kept)
    match kind:
        case NodeKind.NOTE:
            return _note_line(item, spelling)
        case NodeKind.ALTERATION:
            return f"alteration {_HEIGHTS[item.a]} {_SIGNS[item.b]} {spelling}"
        case NodeKind.BAR:
            return f"bar {_BARS[item.a]} {spelling}"
        case NodeKind.SPACING:
            return "space blank" if item.a == 6 else f"space {spelling}"
        case NodeKind.CUSTOS:
            return "custos auto" if item.a == 15 else f"custos {_HEIGHTS[item.a]}"
        case NodeKind.ATTRIBUTE:
            return f"attribute {spelling[1:-1]}"
        case NodeKind.DESCRIPTOR:
            return _descriptor_line(item, spelling)
        case _:
            return f"{_SIMPLE[kind]} {spelling}"


_ITEMS = (
    NodeKind.GLYPH,
    NodeKind.NOTE,
    NodeKind.ALTERATION,
    NodeKind.CLEF,
    NodeKind.BAR,
    NodeKind.SPACING,
    NodeKind.CUSTOS,
    NodeKind.LINE_BREAK,
    NodeKind.ATTRIBUTE,
    NodeKind.FUSION,
    NodeKind.DESCRIPTOR,
    NodeKind.NABC_SPACE,
)


def _element_of(item: Node) -> Iterator[str]:
    """Yields the line of an element if `item` begins one. Of a glyph its first note says it."""
    first = next(item.children(NodeKind.NOTE)) if item.kind == NodeKind.GLYPH else item
    if first.c & _BEGINS_ELEMENT and first.kind not in (NodeKind.DESCRIPTOR, NodeKind.NABC_SPACE):
        yield "element"


def _snippet_lines(snippet: Node) -> Iterator[str]:
    yield (f"nabc {snippet.a}:" if snippet.a else "notes:") + _escaped(snippet.kept)
    for item in snippet.children(*_ITEMS):
        yield from _element_of(item)
        if item.kind == NodeKind.GLYPH:
            yield _glyph_line(item)
            yield from map(_item_line, item.children(*_ITEMS))
        else:
            yield _item_line(item)


def _syllable_lines(number: int, syllable: Node) -> Iterator[str]:
    spans = " eu" * (syllable.b & 1) + " nlba" * (syllable.b >> 1 & 1)
    yield f"syllable {number} {_POSITIONS[syllable.a]}{spans}"
    text, translation = text_of(syllable), _translation_of(syllable)
    if text:
        yield f"text:{_escaped(text)}"
    if translation is not None:
        yield f"translation:{_escaped(translation)}"
    snippets = list(syllable.children(NodeKind.SNIPPET))
    if not snippets:
        yield "notes:"
    for it in snippets:
        yield from _snippet_lines(it)


def _dump_lines(tree: Tree) -> Iterator[str]:
    yield "dump 2"
    yield from (f"header {_escaped(name)}:{_escaped(value)}" for name, value in _book(tree))
    count = 0
    for count, syllable in enumerate(tree.root.children(NodeKind.SYLLABLE), 1):
        yield from _syllable_lines(count, syllable)
    if not any(tree.root.children(NodeKind.UNREAD)):
        yield f"end {count}"


def dump_of(tree: Tree) -> str:
    """Returns the dump of the score of `tree`."""
    return "".join(f"{it}\n" for it in _dump_lines(tree)) if _has_score(tree) else ""


def outline_of(tree: Tree) -> Iterator[str]:
    """Yields a line for each node: what it is, its bytes, its numbers and its own bytes, indented
    by what it lies in."""
    ends: list[int] = []
    for node in tree:
        while ends and ends[-1] <= node.number:
            ends.pop()
        yield (
            f"{'  ' * len(ends)}{node.kind.name} {node.begin}:{node.end} {node.values} {node.own!r}"
        )
        ends.append(node.past)


if __name__ == "__main__":
    for name in sys.argv[1:]:
        print(*outline_of(tree(Path(name).read_bytes())), sep="\n")
