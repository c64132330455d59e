"""What the numbers of a node have to say, read once more from its spelling."""
from __future__ import annotations

import re
from collections.abc import Callable

from spelled_signs import spelled_signs

from gregorio_chant._native.node_kinds import NodeKind
from gregorio_chant._native.nodes import Node, Tree
from gregorio_chant.objects.signs import AUTO, OVER, UNDER, NoteSigns

_HEIGHTS = "abcdefghijklmnp"
_SIDES = {None: 0, AUTO: 1, OVER: 2, UNDER: 3}
_LIQUESCENCES = {None: 0, "deminutus": 1, "augmented": 2, "diminished": 3}
_SIZES = ("whole", "left", "centre", "right")
_OVER_STAFF = ("accent", "grave", "circle", "lower-arc", "upper-arc", "flat", "natural", "sharp")
_STYLES = ("b", "c", "e", "i", "sc", "tt", "ul")
_MARKS = ("<eu>", "</eu>", "<nlba>", "</nlba>")
_ELEMENT = 64
_CLEF = re.compile(r"([cf])(b?)([1-5])")
_GLYPH_HEIGHT = re.compile(r".*h([a-np])", re.DOTALL)
_POINTS = re.compile(r"(su|pp)([a-zA-Z]?)([1-9])")
_LETTERS = re.compile(r"(ls|lt).*?([1-9])", re.DOTALL)
_MACRO = re.compile(r"\[(?:nm|gm|em|altm)([0-9])\]")
_BAR = re.compile(r"[`^,;:]+([0-9]?)")

Values = tuple[int, int, int]


# ---- notes


def numbers_of(signs: NoteSigns) -> tuple[int, ...]:
    """Returns the numbers that say these signs."""
    over_staff = sum(1 << _OVER_STAFF.index(it) for it in set(signs.over_staff))
    orientation = {None: 0, False: 1, True: 2}[signs.points_up]
    sizes = [_SIZES.index(it.size) for it in signs.episemata if it.size != "whole"]
    covered = [
        max((min(it.count, 7) for it in signs.episemata if it.side == side), default=0)
        for side in (AUTO, OVER, UNDER)
    ]
    return (
        over_staff,
        int(signs.is_hollow),
        int(signs.is_lined),
        orientation,
        _LIQUESCENCES[signs.liquescence],
        min(signs.morae, 3),
        _SIDES[signs.ictus],
        sizes[-1] if sizes else 0,
        int(any(not it.is_bridged for it in signs.episemata)),
        int(signs.is_initio_debilis),
        *covered,
    )


def numbers_in(note: Node) -> tuple[int, ...]:
    """Returns the same numbers as the node says them."""
    a, b, c = note.values
    return (
        a >> 4 & 255,
        a >> 12 & 1,
        a >> 13 & 1,
        a >> 14,
        b >> 5 & 3,
        b >> 7 & 3,
        b >> 9 & 3,
        b >> 11 & 3,
        b >> 13,
        c >> 5 & 1,
        c >> 7 & 7,
        c >> 10 & 7,
        c >> 13,
    )


# ---- other items of GABC


def _alteration(spelling: str) -> Values:
    sign = spelling[1:]
    is_other = sign[:1].isupper() or sign.startswith("##")
    return (
        _HEIGHTS.index(spelling[0].lower()),
        "xy#".index(sign[0].lower()) + 1,
        int("?" in sign) + 2 * is_other,
    )


def _clef(spelling: str) -> Values:
    first, *second = (
        (int(letter == "f"), int(bool(flat)), int(line))
        for letter, flat, line in _CLEF.findall(spelling)
    )
    other = 1 + 2 * second[0][0] + 4 * second[0][1] + 8 * second[0][2] if second else 0
    return first[0] + 2 * first[1], first[2], other


def _bar(spelling: str) -> Values:
    digit = _BAR.match(spelling)
    return (
        5 if spelling.startswith("::") else "`^,;:".index(spelling[0]),
        1 + int(digit[1]) if digit and digit[1] else 0,
        0,
    )


def _spacing(spelling: str) -> Values:
    named = {"/": 0, "//": 1, "/0": 2, "/!": 3, "!": 5}
    return named.get(spelling, 4 if spelling.startswith("/[") else 6), 0, 0


def _custos(spelling: str) -> Values:
    return 15 if spelling.startswith("z0") else _HEIGHTS.index(spelling[0]), 0, 0


def _line_break(spelling: str) -> Values:
    return int(spelling[0] == "Z"), 1 if "+" in spelling else 2 if "-" in spelling else 0, 0


def _attribute(spelling: str) -> Values:
    macro = _MACRO.fullmatch(spelling)
    return 1 + int(macro[1]) if macro else 0, 0, 0


def _fusion(spelling: str) -> Values:
    return ("@", "@[", "]").index(spelling), 0, 0


# ---- NABC


def _nabc_glyph(spelling: str) -> Values:
    height = _GLYPH_HEIGHT.match(spelling, 2)
    return ord(spelling[0]), ord(spelling[1]), 1 + _HEIGHTS.index(height[1]) if height else 0


def _nabc_points(spelling: str) -> Values:
    found = _POINTS.match(spelling)
    assert found
    return int(found[1] == "pp"), ord(found[2]) if found[2] else 0, int(found[3])


def _nabc_letters(spelling: str) -> Values:
    found = _LETTERS.match(spelling)
    assert found
    return int(found[1] == "lt"), 0, int(found[2])


# ---- texts, of which the styles are not looked at here


def _raw(spelling: str) -> Values:
    return 0, ("v", "sp", "alt").index(spelling[1 : spelling.index(">")]), 0


def _span_mark(spelling: str) -> Values:
    return 0, _MARKS.index(spelling), 0


def _style_tag(spelling: str) -> Values:
    return 0, _STYLES.index(spelling.strip("</>")), int(spelling.startswith("</"))


def _brace(spelling: str) -> Values:
    return 0, "{}".index(spelling), 0


_READERS: dict[NodeKind, Callable[[str], Values]] = {
    NodeKind.ALTERATION: _alteration,
    NodeKind.CLEF: _clef,
    NodeKind.BAR: _bar,
    NodeKind.SPACING: _spacing,
    NodeKind.CUSTOS: _custos,
    NodeKind.LINE_BREAK: _line_break,
    NodeKind.ATTRIBUTE: _attribute,
    NodeKind.FUSION: _fusion,
    NodeKind.NABC_GLYPH: _nabc_glyph,
    NodeKind.NABC_POINTS: _nabc_points,
    NodeKind.NABC_LETTERS: _nabc_letters,
    NodeKind.RAW: _raw,
    NodeKind.SPAN_MARK: _span_mark,
    NodeKind.STYLE_TAG: _style_tag,
    NodeKind.BRACE: _brace,
}
_OF_TEXTS = (NodeKind.RAW, NodeKind.SPAN_MARK, NodeKind.STYLE_TAG, NodeKind.BRACE)


def _said(node: Node) -> Values:
    """Returns what a node says beside its styles, and beside whether it begins an element."""
    a, b, c = node.values
    return (0, b, c) if node.kind in _OF_TEXTS else (a, b, c & ~_ELEMENT)


def check_values(made: Tree) -> None:
    """Raises `ValueError` unless the numbers of each node say what its spelling does."""
    for node in made:
        if node.kind == NodeKind.NOTE:
            said, spelled = numbers_in(node), numbers_of(spelled_signs(node.kept))
        elif node.kind in _READERS:
            said, spelled = _said(node), _READERS[node.kind](node.kept)
        else:
            continue
        if said != spelled:
            raise ValueError(f"{node!r}, spelled {node.kept!r}, says {said}, and not {spelled}")
