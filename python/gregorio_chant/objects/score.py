"""Reads a score into objects: each is a view of the compiler's tree, made when it is asked for.

>>> score = Score.parse("name: Kyrie;\\n%%\\n(c4) Ky(f)ri(gfg)")
>>> for syllable in score.syllables:
...     print(syllable.plain, [(it.degree, it.source.line, it.source.column) for it in syllable.notes])
 []
Ky [('fa', 3, 9)]
ri [('sol', 3, 14), ('fa', 3, 15), ('sol', 3, 16)]
"""
from __future__ import annotations

import bisect
from array import array
from functools import cached_property, lru_cache

from gregorio_chant._native.memory import bytes_of
from gregorio_chant._native.results import Message
from gregorio_chant._native.runs import Limits
from gregorio_chant.objects.compiled import Compiled
from gregorio_chant.objects.edits import Edited
from gregorio_chant.objects.heights import Range
from gregorio_chant.objects.items import Note, semitones_of
from gregorio_chant.objects.left_out import LeftOut, left_out_of
from gregorio_chant.objects.passages import FINALIS, Phrase, Word, phrases_of, words_of
from gregorio_chant.objects.reading import Reading

# What stands in the arrays for a note before any clef.
NO_STEP = -128


@lru_cache(maxsize=None)
def _semitones_of(step: int, sign: int) -> int:
    """Returns the semitones of a note at this step, if it is one."""
    return NO_STEP if step == NO_STEP else semitones_of(step, sign)


def rises_of(heights: array[int]) -> array[int]:
    """Returns how much higher each of these is than the one before; `NO_STEP` if one of both is
    that."""
    pairs = zip(heights, heights[1:])
    return array("b", [NO_STEP if NO_STEP in (a, b) else b - a for a, b in pairs])


class Score(Reading):
    """A score, read up to a fatal fault if there is one: it is not whole then, and has the
    syllables before that."""

    @classmethod
    def parse(
        cls, text: str | bytes | bytearray | memoryview, limits: Limits | None = None
    ) -> Score:
        """Reads a score, under these limits if they are given. Raises as the class does."""
        return cls(Compiled(bytes(bytes_of(text)), limits))

    def __repr__(self) -> str:
        return f"<Score of {len(self._syllables)} syllables>"

    # ---- the file and the canonical text

    @cached_property
    def text(self) -> str:
        """The file that was read; bytes that are no UTF-8 as U+FFFD."""
        return self.tree.source.decode("utf-8", "replace")

    @property
    def canonical(self) -> str:
        """The canonical text."""
        return self.compiled.canonical

    @property
    def messages(self) -> tuple[Message, ...]:
        """The messages of the compiler."""
        return self.compiled.messages

    @property
    def fault(self) -> Message | None:
        """The fatal fault that stopped the reading, if one did."""
        return self.compiled.fault

    @property
    def is_whole(self) -> bool:
        """Whether no fault stopped the reading."""
        return self.fault is None

    @cached_property
    def left_out(self) -> tuple[LeftOut, ...]:
        """What the compiler left out of the headers and of these syllables, in order."""
        return left_out_of(self)

    def source_offset(self, written: int) -> int:
        """Returns how many characters stand in the file before the character of notes that has
        `written` others before it in the canonical text."""
        number = bisect.bisect_right(self.written.offsets, written)
        return self.offset_in_notes(number - 1, written)

    # ---- headers

    def header(self, name: str) -> str | None:
        """Returns the value of the last header `name`, or `None` where there is none."""
        return next((it.value for it in reversed(self.headers) if it.name == name), None)

    # ---- syllables and their notes

    @cached_property
    def notes(self) -> tuple[Note, ...]:
        return tuple([Note(self, it) for it in self.note_numbers])

    @cached_property
    def words(self) -> tuple[Word, ...]:
        """The words: all that have a letter or a digit."""
        return words_of(self.syllables)

    @property
    def phrases(self) -> tuple[Phrase, ...]:
        """What stands between bars of any kind, if there is a note or a word in it."""
        return phrases_of(self.syllables)

    @property
    def verses(self) -> tuple[Phrase, ...]:
        """What stands between final bars."""
        return self.phrases_at(FINALIS)

    def phrases_at(self, *kinds: str) -> tuple[Phrase, ...]:
        """Returns the music between bars of these kinds, if it has a note or a word."""
        return phrases_of(self.syllables, kinds)

    @property
    def range(self) -> Range | None:
        """The lowest and the highest note; `None` if all notes come before any clef."""
        heights = self.semitones
        sounding = [it for it in heights if it != NO_STEP]
        if not sounding:
            return None
        low, high = heights.index(min(sounding)), heights.index(max(sounding))
        return Range(self.note(low), self.note(high))

    @property
    def final(self) -> Note | None:
        """The last note."""
        return self.note(-1) if self.note_numbers else None

    def edited(self) -> Edited:
        """Returns an empty collection of changes of this score. Raises `EditError` if the score has
        a fatal fault."""
        return Edited(self)

    # ---- heights of all notes, as arrays

    @cached_property
    def pitches(self) -> array[int]:
        """The height of each note: 0 for `a`, a step for each letter."""
        narrow = self.tree.narrow
        return array("b", [narrow[10 * it + 7] & 15 for it in self.note_numbers])

    @cached_property
    def steps(self) -> array[int]:
        """The step of each note; `NO_STEP` before any clef."""
        steps = array("b")
        ends = [bisect.bisect_left(self.note_numbers, it) for it in self._clefs]
        begin = 0
        for base, end in zip(self._bases, [*ends, len(self.note_numbers)]):
            heights = self.pitches[begin:end]
            steps.extend([NO_STEP if base is None else base + it for it in heights])
            begin = end
        return steps

    @cached_property
    def semitones(self) -> array[int]:
        """The semitones of each note, with its alteration; `NO_STEP` before any clef."""
        narrow = self.tree.narrow
        signs = [narrow[10 * it + 9] >> 3 & 3 for it in self.note_numbers]
        return array("b", map(_semitones_of, self.steps, signs))

    @property
    def intervals(self) -> array[int]:
        """The steps from each note to the next one; `NO_STEP` if one of both comes before any
        clef."""
        return rises_of(self.steps)
