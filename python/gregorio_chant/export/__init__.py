"""Scores in the formats of others: Volpiano, MusicXML and MEI, and MIDI for listening. Each says
what it cannot say of a score."""
from __future__ import annotations

from collections.abc import Callable
from dataclasses import dataclass

from gregorio_chant.errors import GregorioError
from gregorio_chant.objects.items import Note
from gregorio_chant.objects.score import Score

Write = Callable[[Score], bytes]


class NoHeight(GregorioError, ValueError):
    """A score that cannot be written so: a note before any clef has no height."""

    def __init__(self, note: Note) -> None:
        super().__init__(f"{note.source}: a note before any clef has no height")


@dataclass(frozen=True)
class Way:
    """A format: its name, the ending of its files, how a score is written, and which kinds of
    things it says nothing of (`losses`)."""

    name: str
    ending: str
    write: Write
    lost: frozenset[str]
