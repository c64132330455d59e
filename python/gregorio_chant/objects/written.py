"""Where the parts of a score stand in its canonical text."""
from __future__ import annotations

from array import array
from typing import TYPE_CHECKING

from gregorio_chant._native.node_kinds import NodeKind
from gregorio_chant._native.nodes import NOT_KEPT_PATTERN
from gregorio_chant.text.source import Lines, Place

if TYPE_CHECKING:
    from gregorio_chant.objects.headers import Header
    from gregorio_chant.objects.reading import Reading
    from gregorio_chant.objects.syllables import Syllable


def text_of(syllable: Syllable) -> str:
    """Returns the canonical text of a syllable with its translation, without its notes."""
    translation = syllable.translation
    return syllable.text if translation is None else f"{syllable.text}[{translation}]"


def notes_of(syllable: Syllable) -> str:
    """Returns the canonical text of the notes of a syllable, without their brackets."""
    score, number = syllable.score, syllable.node.number
    return "|".join([score.tree.kept(it) for it in score.snippets_in(number)])


def begin_of_notes(syllable: Syllable) -> int:
    """Returns the byte of the file at which the notes of a syllable begin, after their `(`; its end
    if it has none."""
    node = syllable.node
    first = node.tree.kinds.find(NodeKind.SNIPPET, node.number, node.past)
    return node.end if first < 0 else node.tree.wide[5 * first]


class Shifts:
    """How many characters of the canonical text stand between the `(` of a syllable and what
    stands in its notes."""

    def __init__(self, syllable: Syllable) -> None:
        node = syllable.node
        kinds = node.tree.kinds
        self._tree, self._past = node.tree, node.past
        self._first = max(kinds.find(NodeKind.SNIPPET, node.number, node.past), node.number)
        self._begin = begin_of_notes(syllable)
        left_out = NOT_KEPT_PATTERN.search(kinds, self._first, self._past)
        notes = node.tree.source[self._begin : node.end]
        self._is_plain = left_out is None and notes.isascii()

    def before(self, byte: int) -> int:
        """Returns this for what begins at a byte of the file."""
        if self._is_plain:
            return byte - self._begin
        return len(self._tree.kept_text(self._first, self._past, self._begin, byte))


class Written:
    """The places of headers, syllables and items in the canonical text of a score."""

    def __init__(self, canonical: str, score: Reading) -> None:
        self._lines = Lines(canonical)
        self._headers: dict[Header, int] = {}
        at = 0
        for header in score.headers:
            self._headers[header] = at
            at += len(header.spelling) + 1
        # The offsets of the line `%%`, of the syllables and of their notes.
        self.score_line = at
        self.offsets, self._notes = array("I"), array("I")
        at += len("%%")
        for it in score.syllables:
            at += it.begins_word
            self.offsets.append(at)
            self._notes.append(at + len(text_of(it)) + 1)
            at = self._notes[-1] + len(notes_of(it)) + 1

    def place(self, offset: int) -> Place:
        """Returns the place of a character."""
        return self._lines.place(offset)

    def of_header(self, header: Header) -> int:
        """Returns the offset of a header."""
        return self._headers[header]

    def of_syllable(self, syllable: Syllable) -> int:
        """Returns the offset of a syllable."""
        return self.offsets[syllable.number - 1]

    def of_notes(self, syllable: Syllable) -> int:
        """Returns the offset of the notes of a syllable, after their `(`."""
        return self._notes[syllable.number - 1]
