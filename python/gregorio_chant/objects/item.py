"""What all objects of a score are: views of nodes of its tree, made when they are asked for."""
from __future__ import annotations

from typing import TYPE_CHECKING, cast

from gregorio_chant._native.nodes import Node
from gregorio_chant.objects.written import Shifts
from gregorio_chant.text.source import Place, Source

if TYPE_CHECKING:
    from gregorio_chant.objects.reading import Reading
    from gregorio_chant.objects.score import Score
    from gregorio_chant.objects.syllables import Syllable

# The letters of pitches, from low to high.
PITCHES = "abcdefghijklmnp"
SIGNS = ("none", "flat", "natural", "sharp")


class Item:
    """A thing in a score: a view of its node in the tree. Two are equal if they are the same one
    of the same score."""

    __slots__ = ("_number", "_score")

    def __init__(self, score: Reading, number: int) -> None:
        self._score, self._number = score, number

    def __eq__(self, other: object) -> bool:
        if not isinstance(other, Item) or type(self) is not type(other):
            return NotImplemented
        return self._number == other._number and self._score is other._score

    def __hash__(self) -> int:
        return hash((id(self._score), self._number))

    def __repr__(self) -> str:
        return f"<{type(self).__name__} {self.spelling!r} at {self.source}>"

    @property
    def score(self) -> Score:
        """The score that it is of."""
        return cast("Score", self._score)

    @property
    def node(self) -> Node:
        """Its node in the tree of the score."""
        return Node(self._score.tree, self._number)

    @property
    def begin(self) -> int:
        """Its first byte in the file."""
        return self._bytes[0]

    @property
    def spelling(self) -> str:
        """Its text in the canonical form."""
        return self._score.tree.kept(self._number)

    @property
    def source(self) -> Source:
        """Its place in the file that was read, and its text there, with all comments in it and all
        that was left out of it."""
        return self._score.source(*self._bytes)

    @property
    def place(self) -> Place:
        """Its place in the canonical text."""
        written = self._score.written
        return written.place(written.of_notes(self.syllable) + self.shift)

    @property
    def syllable(self) -> Syllable:
        """The syllable in which it stands."""
        return self._score.syllable_of(self._number)

    @property
    def shift(self) -> int:
        """How many characters of the canonical text stand between the `(` of its syllable and
        it."""
        return Shifts(self.syllable).before(self.begin)

    def offset_of(self, index: int) -> int:
        """Returns how many characters stand in the file before the character `index`, from 0, of
        its spelling."""
        return self._score.tree.place(self._score.byte_of(self._number, index)).offset

    @property
    def _bytes(self) -> tuple[int, int]:
        """Its first byte in the file, and the byte after its last one."""
        begin, end = self._score.tree.wide[5 * self._number : 5 * self._number + 2]
        return begin, end

    @property
    def _a(self) -> int:
        return self._score.tree.narrow[10 * self._number + 7]

    @property
    def _b(self) -> int:
        return self._score.tree.narrow[10 * self._number + 8]

    @property
    def _c(self) -> int:
        return self._score.tree.narrow[10 * self._number + 9]
