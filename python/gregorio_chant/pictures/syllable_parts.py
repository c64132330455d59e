"""What stands of each syllable in each row of a picture, with the heads of its notes."""
from __future__ import annotations

import itertools
from collections.abc import Callable, Iterator
from dataclasses import dataclass

from gregorio_chant.objects.score import Score
from gregorio_chant.objects.syllables import Glyph, Syllable
from gregorio_chant.objects.written import begin_of_notes
from gregorio_chant.pictures.outlines import Outlines
from gregorio_chant.pictures.sheet import Group, Head, Row, heads


class Notes:
    """The notes of a syllable: the byte at which each begins, how often it sounds, and the numbers
    of the first note of each neume and of that after the last one. `begin` is the byte at which
    they begin."""

    def __init__(self, syllable: Syllable) -> None:
        notes = syllable.notes
        self.begins = [it.node.begin for it in notes]
        self.times = [it.times for it in notes]
        self.neumes = [*itertools.accumulate(map(_count, syllable.glyphs), initial=0)]
        self.begin = begin_of_notes(syllable)


def _count(glyph: Glyph) -> int:
    return len(glyph.notes)


@dataclass(frozen=True)
class Part:
    """What stands of a syllable in a row, by its number from 0: its group, the letters of the
    syllable if it begins here, and if they are wanted the notes of the syllable, the number of the
    first one in this part, and the heads. A group that is no syllable has none."""

    group: Group
    syllable: Syllable | None
    number: int = 0
    plain: str = ""
    notes: Notes | None = None
    first: int = 0
    heads: tuple[Head, ...] = ()


class PartMaker:
    """Finds the syllables of the rows of a picture, which are those of the score, in order. They
    stand `shift` bytes later than in the score. `wanted` says of the number of a syllable, from 0,
    whether the heads of its notes are wanted."""

    def __init__(
        self, score: Score, outlines: Outlines, shift: int, wanted: Callable[[int], bool]
    ) -> None:
        self._outlines, self._wanted = outlines, wanted
        self._syllables = {it.node.begin + shift: it for it in score.syllables}
        self._last: Syllable | None = None
        self._number = self._first = 0
        self._notes: Notes | None = None
        self._times: Iterator[int] = iter(())

    def parts_of(self, row: Row) -> list[Part]:
        """Returns the parts of the next row."""
        return [self._part(it) for it in row.groups]

    def _part(self, group: Group) -> Part:
        syllable = self._syllables.get(group.begin) if group.end else None
        if syllable is None:
            return Part(group, None)
        if syllable is self._last:
            self._number += 1
        else:
            self._last, self._number, self._first = syllable, 0, 0
            self._notes = Notes(syllable) if self._wanted(syllable.number - 1) else None
            self._times = iter(self._notes.times if self._notes else ())
        found = tuple(self._heads(group)) if self._notes else ()
        plain = "" if self._number else syllable.plain
        part = Part(group, syllable, self._number, plain, self._notes, self._first, found)
        self._first += len(found)
        return part

    def _heads(self, group: Group) -> Iterator[Head]:
        """Yields one head for each note: of one that sounds several times, all its heads."""
        drawn = heads(group.content, self._outlines)
        for first in drawn:
            times = next(self._times, 1)
            *_, last = (first, *itertools.islice(drawn, times - 1))
            yield first._replace(width=last.x + last.width - first.x)
