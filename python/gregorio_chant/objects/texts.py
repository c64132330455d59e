"""The text of a syllable, as its pieces: letters in their styles, raw parts and tags."""
from __future__ import annotations

import re
from collections.abc import Iterator, Sequence
from typing import NamedTuple

from gregorio_chant._native.node_kinds import NodeKind
from gregorio_chant._native.nodes import Tree, kinds_pattern
from gregorio_chant.text.vocabulary import STYLES

# The bit of the centre beside those of the styles.
_CENTRE = 128
_SPECIAL_CHARACTER = re.compile(r"[()\[\]{}<>%$]")
# What the special characters of the manual look like; others are read as they are spelled.
_SPECIAL = {
    "ae": "æ",
    "oe": "œ",
    "'ae": "ǽ",
    "'oe": "œ́",
    "'æ": "ǽ",
    "'œ": "œ́",
    "A/": "A",
    "R/": "℟",
    "V/": "℣",
    "*": "*",
    "+": "†",
    "-": "",
    "~": "~",
}
_VERBATIM, _SP, _ALT = 0, 1, 2
_TAG_LENGTHS = {_VERBATIM: 3, _SP: 4, _ALT: 5}
_TEXTS = (
    NodeKind.CHARACTERS,
    NodeKind.ESCAPE,
    NodeKind.TEXT_BLANK,
    NodeKind.RAW,
    NodeKind.TAG,
    NodeKind.SPAN_MARK,
    NodeKind.BRACE,
)
_OF_TEXT = kinds_pattern(*_TEXTS)
# Of these the ones of which something is sung.
_SUNG = (NodeKind.CHARACTERS, NodeKind.ESCAPE, NodeKind.TEXT_BLANK, NodeKind.RAW)
_OF_SUNG = kinds_pattern(NodeKind.SYLLABLE, *_SUNG)
_SYLLABLE = int(NodeKind.SYLLABLE)
_CHARACTERS, _ESCAPE, _RAW = map(int, (NodeKind.CHARACTERS, NodeKind.ESCAPE, NodeKind.RAW))
_TEXT_BLANK, _BRACE, _SNIPPET = map(int, (NodeKind.TEXT_BLANK, NodeKind.BRACE, NodeKind.SNIPPET))
_BRACES = ("{", "}")


class Piece(NamedTuple):
    """A piece of a text: `letters` is what is sung of it, `written` its canonical text. `raw` is
    the content of a raw part, which `kind` tells: 0 verbatim TeX, 1 a special character, 2 a text
    over the staff, else `None`. A piece with a `brace` is a brace of the centre and nothing else.
    """

    letters: str
    written: str
    styles: frozenset[str] = frozenset()
    in_centre: bool = False
    raw: str | None = None
    kind: int | None = None
    brace: str | None = None

    @property
    def above(self) -> str | None:
        """A text over the staff, if it is one."""
        return self.raw if self.kind == _ALT else None

    @property
    def special(self) -> str | None:
        """The name of a special character, if it is one."""
        return self.raw if self.kind == _SP else None

    @property
    def is_verbatim(self) -> bool:
        return self.kind == _VERBATIM


def special_character(name: str) -> str:
    """Returns the text of the special character `name` of the manual; an unknown one is its own
    name."""
    return _SPECIAL.get(name, name)


_STYLES_OF = [
    frozenset(it for bit, it in enumerate(STYLES) if number >> bit & 1) for number in range(_CENTRE)
]


def _raw_piece(kept: str, styles: int, kind: int) -> Piece:
    """Returns the piece of a raw part with its tags."""
    length = _TAG_LENGTHS[kind]
    raw = kept[length : -length - 1]
    letters = special_character(raw) if kind == _SP else ""
    return Piece(letters, kept, _STYLES_OF[styles & 127], bool(styles & _CENTRE), raw, kind)


def _piece_of(tree: Tree, number: int) -> Piece | None:
    """Returns the piece that this node of a text is; a further blank is none."""
    kind, styles, value = tree.narrow[10 * number + 6 : 10 * number + 9]
    if kind == _BRACE:
        return Piece("", "", brace=_BRACES[value])
    styled = _STYLES_OF[styles & 127], bool(styles & _CENTRE)
    if kind == _TEXT_BLANK:
        return Piece(" ", " ", *styled) if value else None
    kept = tree.kept(number)
    if kind == _RAW:
        return _raw_piece(kept, styles, value)
    if kind == _CHARACTERS:
        return Piece(kept, _SPECIAL_CHARACTER.sub(r"$\g<0>", kept), *styled)
    return Piece(kept[1:] if kind == _ESCAPE else "", kept, *styled)


def _text_end(tree: Tree, syllable: int) -> int:
    """Returns the number of the node after those of the text of a syllable."""
    past = syllable + 1 + tree.wide[5 * syllable + 2]
    end = tree.kinds.find(_SNIPPET, syllable, past)
    return past if end < 0 else end


def pieces_of(tree: Tree, syllable: int) -> Iterator[Piece]:
    """Yields the pieces of the text of the syllable with this number."""
    found = _OF_TEXT.finditer(tree.kinds, syllable, _text_end(tree, syllable))
    return filter(None, (_piece_of(tree, it.start()) for it in found))


def _letters_at(tree: Tree, number: int) -> str:
    """Returns what is sung of a node of `_SUNG`."""
    kind = tree.kinds[number]
    if kind == _CHARACTERS:
        return tree.kept(number)
    value = tree.narrow[10 * number + 8]
    if kind == _TEXT_BLANK:
        return " " if value else ""
    if kind == _ESCAPE:
        return tree.kept(number)[1:]
    return special_character(tree.kept(number)[len("<sp>") : -len("</sp>")]) if value == _SP else ""


def all_letters(tree: Tree) -> list[str]:
    """Returns what is sung of the text of each syllable of a score."""
    letters: list[str] = []
    for found in _OF_SUNG.finditer(tree.kinds):
        number = found.start()
        if tree.kinds[number] == _SYLLABLE:
            letters.append("")
        else:
            letters[-1] += _letters_at(tree, number)
    return letters


# ---- the canonical text


def _joint(was: Sequence[str], now: Sequence[str], marks: str) -> str:
    """Returns what stands between two pieces in these styles: closing tags, the marks of the
    centre, opening tags."""
    pairs = enumerate(zip(was, now))
    same = next((at for at, (one, other) in pairs if one != other), min(len(was), len(now)))
    closed = "".join(f"</{it}>" for it in reversed(was[same:]))
    return closed + marks + "".join(f"<{it}>" for it in now[same:])


def written_text(pieces: Sequence[Piece]) -> str:
    """Returns the canonical text of these pieces."""
    written: list[str] = []
    styles: Sequence[str] = ()
    marks = ""
    is_open = False
    for it in pieces:
        if it.brace:
            marks, is_open = marks + it.brace, it.brace == "{"
            continue
        if marks or it.styles or styles:
            now = [style for style in STYLES if style in it.styles]
            written.append(_joint(styles, now, marks))
            styles, marks = now, ""
        written.append(it.written)
    return "".join(written) + _joint(styles, (), marks + "}" * is_open)
