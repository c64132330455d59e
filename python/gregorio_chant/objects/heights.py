"""How high notes stand and how far they are from each other."""
from __future__ import annotations

from collections.abc import Sequence
from dataclasses import dataclass

from gregorio_chant.objects.items import Note


@dataclass(frozen=True, slots=True)
class Interval:
    """The distance from one note up to another, below 0 for down: `steps` from degree to degree,
    and `semitones` with the alterations of both notes."""

    steps: int
    semitones: int


@dataclass(frozen=True, slots=True)
class Range:
    """The lowest and the highest note of some; of equal ones the first."""

    low: Note
    high: Note


def interval(first: Note, second: Note) -> Interval | None:
    """Returns the distance from `first` up to `second`; `None` if one of them comes before any
    clef."""
    if (
        first.step is None
        or second.step is None
        or first.semitones is None
        or second.semitones is None
    ):
        return None
    return Interval(second.step - first.step, second.semitones - first.semitones)


def intervals(notes: Sequence[Note]) -> tuple[Interval | None, ...]:
    """Returns the interval from each of the notes to the next one."""
    return tuple(interval(a, b) for a, b in zip(notes, notes[1:]))
