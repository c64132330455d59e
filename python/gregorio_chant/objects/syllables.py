"""Syllables, their snippets, and the neumes of these."""
from __future__ import annotations

from collections.abc import Iterator
from typing import TYPE_CHECKING, Union

from gregorio_chant._native.node_kinds import NodeKind
from gregorio_chant.objects.item import Item
from gregorio_chant.objects.items import (
    SHAPES,
    Alteration,
    Attribute,
    Bar,
    Break,
    Clef,
    Custos,
    Fusion,
    Note,
    Space,
)
from gregorio_chant.objects.nabc import Descriptor
from gregorio_chant.objects.texts import Piece, pieces_of, written_text
from gregorio_chant.objects.written import notes_of, text_of
from gregorio_chant.text.source import Place, Source

if TYPE_CHECKING:
    from gregorio_chant.objects.passages import Word
    from gregorio_chant.objects.reading import Reading

_BASES = (
    "pes",
    "clivis",
    "torculus",
    "porrectus",
    "scandicus",
    "scandicus-flexus",
    "torculus-resupinus",
    "porrectus-flexus",
    "torculus-resupinus-flexus",
    "climacus",
    "inclinata",
)
_CLIMACUS, _ONE_NOTE = 9, 16
_RESUPINUS = 2
_POSITIONS = ("one", "beginning", "middle", "end")
_BEGINS_ELEMENT = 64
_CLASSES: dict[int, type[Item]] = {
    NodeKind.NOTE: Note,
    NodeKind.ALTERATION: Alteration,
    NodeKind.CLEF: Clef,
    NodeKind.BAR: Bar,
    NodeKind.SPACING: Space,
    NodeKind.CUSTOS: Custos,
    NodeKind.LINE_BREAK: Break,
    NodeKind.ATTRIBUTE: Attribute,
    NodeKind.FUSION: Fusion,
    NodeKind.DESCRIPTOR: Descriptor,
    NodeKind.NABC_SPACE: Space,
}
# What ends an element and stands in none.
_OUTSIDE = (Bar, Clef, Custos, Break)


class Glyph(Item):
    """A neume of the notes; its spelling goes from the first note to the last."""

    __slots__ = ("_notes",)

    def __init__(self, score: Reading, number: int) -> None:
        super().__init__(score, number)
        self._notes: tuple[Note, ...] | None = None

    @property
    def kind(self) -> str:
        base = self._a
        if base >= _ONE_NOTE:
            return SHAPES[base - _ONE_NOTE]
        resupinus = "-resupinus" if base == _CLIMACUS else "-subpunctis-resupinus"
        return _BASES[base] + ("", "-subpunctis", resupinus)[self._b]

    @property
    def notes(self) -> tuple[Note, ...]:
        if self._notes is None:
            self._notes = tuple(self._score.notes_in(self._number, self.node.past))
        return self._notes


class Element(Item):
    """Items with no divider among them, and the glyphs of their notes."""

    __slots__ = ("items",)

    def __init__(self, score: Reading, items: tuple[Item, ...]) -> None:
        super().__init__(score, items[0]._number)
        self.items = items

    @property
    def glyphs(self) -> tuple[Glyph, ...]:
        around = self._score.tree.kinds.rfind(NodeKind.GLYPH, 0, self._number)
        first = around if self._score.tree[around].past > self._number else self._number
        return tuple(self._score.glyphs_in(first, self.items[-1]._number + 1))

    @property
    def spelling(self) -> str:
        """Its text in the canonical form."""
        return self._score.tree.kept_text(self._number, self.items[-1].node.past, *self._bytes)

    @property
    def _bytes(self) -> tuple[int, int]:
        return super()._bytes[0], self.items[-1]._bytes[1]


class _Snippet(Item):
    """A snippet."""

    __slots__ = ("_items",)

    def __init__(self, score: Reading, number: int) -> None:
        super().__init__(score, number)
        self._items: tuple[Item, ...] | None = None

    @property
    def items(self) -> tuple[Item, ...]:
        """All its items, in order."""
        if self._items is None:
            self._items = tuple(self._score.items_in(self._number))
        return self._items

    @property
    def _bytes(self) -> tuple[int, int]:
        """Its bytes from its first item to its last one."""
        items = self.items
        end = super()._bytes[1]
        return (items[0]._bytes[0], items[-1]._bytes[1]) if items else (end, end)


class NoteSnippet(_Snippet):
    """A snippet of notes: all its items, and the elements among them."""

    __slots__ = ()

    @property
    def elements(self) -> tuple[Element, ...]:
        return tuple(Element(self._score, tuple(it)) for it in self._elements())

    def _elements(self) -> Iterator[list[Item]]:
        inside: list[Item] = []
        for it in self.items:
            ends = isinstance(it, _OUTSIDE) or isinstance(it, Space) and it.is_divider
            if inside and (ends or it._c & _BEGINS_ELEMENT):
                yield inside
                inside = []
            if not ends:
                inside.append(it)
        if inside:
            yield inside

    @property
    def glyphs(self) -> tuple[Glyph, ...]:
        return tuple(self._score.glyphs_in(self._number, self.node.past))


class NabcSnippet(_Snippet):
    """A snippet of NABC: its descriptors and spaces."""

    __slots__ = ()

    @property
    def line(self) -> int:
        """Its line, from 1."""
        return self._a


Snippet = Union[NoteSnippet, NabcSnippet]


def _snippet(score: Reading, number: int) -> Snippet:
    """Returns the snippet that this node is: of NABC if it has a line."""
    has_line = score.tree.narrow[10 * number + 7]
    return NabcSnippet(score, number) if has_line else NoteSnippet(score, number)


def item_of(score: Reading, number: int) -> Item | None:
    """Returns what the node `number` of a snippet is, if it is an item."""
    item = _CLASSES.get(score.tree.kinds[number])
    return item(score, number) if item else None


class Syllable(Item):
    """A syllable."""

    __slots__ = ("_snippets", "_source", "number")

    def __init__(self, score: Reading, node: int, number: int) -> None:
        super().__init__(score, node)
        # Its number in the score, from 1.
        self.number = number
        self._snippets: tuple[Snippet, ...] | None = None
        self._source: Source | None = None

    @property
    def syllable(self) -> Syllable:
        """The syllable itself."""
        return self

    @property
    def position(self) -> str:
        """Its position in its word: one, beginning, middle or end."""
        return _POSITIONS[self._a]

    @property
    def begins_word(self) -> bool:
        return self._a < 2

    @property
    def word(self) -> Word | None:
        """The word in which it stands; `None` if it is in none, as a clef."""
        return self._score.word_of(self)

    @property
    def is_eu(self) -> bool:
        return bool(self._b & 1)

    @property
    def is_nlba(self) -> bool:
        return bool(self._b & 2)

    @property
    def pieces(self) -> tuple[Piece, ...]:
        """The pieces of its text."""
        return tuple(pieces_of(self._score.tree, self._number))

    @property
    def text(self) -> str:
        """Its canonical text without the translation."""
        return written_text(self.pieces)

    @property
    def plain(self) -> str:
        """Its text without tags, braces and escapes, special characters as they look, and nothing
        of raw TeX."""
        return self._score.plains[self.number - 1]

    @property
    def translation(self) -> str | None:
        tree = self._score.tree
        for it in self.node.children(NodeKind.TRANSLATION):
            return tree.kept(it.number)[1:-1]
        return None

    @property
    def snippets(self) -> tuple[Snippet, ...]:
        if self._snippets is None:
            numbers = self._score.snippets_in(self._number)
            self._snippets = tuple(_snippet(self._score, it) for it in numbers)
        return self._snippets

    @property
    def items(self) -> tuple[Item, ...]:
        """The items of all its snippets of notes."""
        notes = (it for it in self.snippets if isinstance(it, NoteSnippet))
        return tuple(item for it in notes for item in it.items)

    @property
    def notes(self) -> tuple[Note, ...]:
        return tuple(self._score.notes_in(self._number, self.node.past))

    @property
    def notes_and_bars(self) -> Iterator[Note | Bar]:
        """Its notes and its bars, in order."""
        return self._score.notes_and_bars_in(self._number, self.node.past)

    @property
    def glyphs(self) -> tuple[Glyph, ...]:
        return tuple(self._score.glyphs_in(self._number, self.node.past))

    @property
    def spelling(self) -> str:
        """Its canonical text, with that of its notes."""
        return f"{text_of(self)}({notes_of(self)})"

    @property
    def source(self) -> Source:
        """Its place in the file that was read, and its text there."""
        if self._source is None:
            self._source = super().source
        return self._source

    @property
    def place(self) -> Place:
        """Its place in the canonical text."""
        return self._score.written.place(self._score.written.of_syllable(self))

    @property
    def shift(self) -> int:
        """0: it begins at its text."""
        return 0

    @property
    def _bytes(self) -> tuple[int, int]:
        """Its bytes without blanks and comments at both ends."""
        return self._score.tree.core(self._number)
