"""Scores as objects: `Score.parse`, the items of a score and its changes. They are defined in the
modules of `gregorio_chant.objects`."""
from __future__ import annotations

from gregorio_chant._native.runs import Limits
from gregorio_chant.objects.edits import Edited, EditError
from gregorio_chant.objects.headers import Header
from gregorio_chant.objects.heights import Interval, Range, interval, intervals
from gregorio_chant.objects.item import Item
from gregorio_chant.objects.items import (
    Alteration,
    Attribute,
    Bar,
    Break,
    Clef,
    Custos,
    Fusion,
    Note,
    Space,
)
from gregorio_chant.objects.left_out import LeftOut
from gregorio_chant.objects.nabc import Descriptor, NabcGlyph, NabcLetters, NabcPart, NabcPoints
from gregorio_chant.objects.passages import Phrase, Word
from gregorio_chant.objects.reading import ScoreError
from gregorio_chant.objects.score import NO_STEP, Score
from gregorio_chant.objects.syllables import (
    Element,
    Glyph,
    NabcSnippet,
    NoteSnippet,
    Snippet,
    Syllable,
)
from gregorio_chant.text.source import Place, Source

__all__ = [
    "NO_STEP",
    "Alteration",
    "Attribute",
    "Bar",
    "Break",
    "Clef",
    "Custos",
    "Descriptor",
    "EditError",
    "Edited",
    "Element",
    "Fusion",
    "Glyph",
    "Header",
    "Interval",
    "Item",
    "LeftOut",
    "Limits",
    "NabcGlyph",
    "NabcLetters",
    "NabcPart",
    "NabcPoints",
    "NabcSnippet",
    "Note",
    "NoteSnippet",
    "Phrase",
    "Place",
    "Range",
    "Score",
    "ScoreError",
    "Snippet",
    "Source",
    "Space",
    "Syllable",
    "Word",
    "interval",
    "intervals",
]
