"""What is looked for in scores: intervals, melodies, neumes and words."""
from __future__ import annotations

import fnmatch
import re
import unicodedata
from array import array
from collections import Counter
from collections.abc import Iterator, Sequence
from dataclasses import dataclass
from itertools import filterfalse
from typing import Protocol

from gregorio_chant.errors import UsageError
from gregorio_chant.export.volpiano import LETTERS, letter_of
from gregorio_chant.objects.items import Note
from gregorio_chant.objects.passages import text_of_syllables
from gregorio_chant.objects.score import Score, rises_of
from gregorio_chant.objects.syllables import Glyph
from gregorio_chant.tables.tables import Row
from gregorio_chant.text.nearest import did_you_mean

_JOINED = (
    "pes",
    "clivis",
    "torculus",
    "porrectus",
    "scandicus",
    "scandicus-flexus",
    "torculus-resupinus",
    "porrectus-flexus",
    "torculus-resupinus-flexus",
)
_SHAPES = (
    "punctum",
    "virga",
    "virga-reversa",
    "bivirga",
    "trivirga",
    "stropha",
    "distropha",
    "tristropha",
    "oriscus",
    "oriscus-scapus",
    "quilisma",
    "quilisma-quadratum",
    "quadratum",
    "cavum",
    "lined",
    "linea",
)
# All kinds of neumes.
KINDS = (
    *(f"{it}{end}" for it in _JOINED for end in ("", "-subpunctis", "-subpunctis-resupinus")),
    "climacus",
    "climacus-resupinus",
    "inclinata",
    *_SHAPES,
)
_SIGNS = {"none": "", "natural": "", "flat": "\u266d", "sharp": "\u266f"}
# What a melody in Volpiano has beside its letters.
_NO_LETTERS = re.compile("[-1-7iIwWxXyYzZ\\s]")
_STEP = re.compile(r"[+-]?[0-9]{1,2}")

NEUME = ("neume", "spelling", "degrees", "text")
COUNT = ("neume", "count", "spelling", "text")
FOUND = ("notes", "degrees", "text")


def degree_of(note: Note) -> str:
    """Returns how a note sounds, with its alteration, or `-` before any clef."""
    return f"{note.degree}{_SIGNS[note.alteration]}" if note.degree else "-"


def degrees_of(notes: Sequence[Note]) -> str:
    return " ".join(map(degree_of, notes))


def _neumes(score: Score) -> Iterator[Glyph]:
    return score.glyphs_in(0, score.past)


def each_neume(score: Score) -> Iterator[Row]:
    """Yields a row for each neume."""
    for it in _neumes(score):
        yield Row.at(it.source, it.kind, it.spelling, degrees_of(it.notes), it.syllable.plain)


def counted_neumes(score: Score) -> Iterator[Row]:
    """Yields a row for each kind of neume: how many there are, and the first one."""
    count = Counter[str]()
    first: dict[str, Glyph] = {}
    for it in _neumes(score):
        count[it.kind] += 1
        first.setdefault(it.kind, it)
    for kind, it in first.items():
        yield Row(
            it.source.line,
            it.source.column,
            (kind, count[kind], it.spelling, it.syllable.plain),
            count[kind],
        )


@dataclass(frozen=True, slots=True)
class Match:
    """What a search finds: its notes, and the row of it."""

    notes: tuple[Note, ...]
    row: Row


class Search(Protocol):
    """Finds places in a score."""

    def matches(self, score: Score) -> Iterator[Match]:
        """Yields what is found, in order."""


@dataclass(frozen=True)
class Together:
    """Makes the rows of what the first search finds, if it shares a note with something that each
    of the others finds."""

    first: Search
    others: tuple[Search, ...] = ()

    def __call__(self, score: Score) -> Iterator[Row]:
        of_others = [
            {note for it in search.matches(score) for note in it.notes} for search in self.others
        ]
        for it in self.first.matches(score):
            if all(not notes.isdisjoint(it.notes) for notes in of_others):
                yield it.row


@dataclass(frozen=True)
class NeumeSearch:
    """Finds neumes of the kinds that match a pattern, in which `*` stands for anything."""

    pattern: str

    @classmethod
    def of(cls, word: str) -> NeumeSearch:
        """Raises `UsageError` where no kind matches."""
        pattern = word.casefold()
        if not fnmatch.filter(KINDS, pattern):
            raise UsageError(
                f"{word} is no kind of neume:"
                f" {did_you_mean(word, KINDS, 'docs/LANGUAGE.md lists them')}"
            )
        return cls(pattern)

    def matches(self, score: Score) -> Iterator[Match]:
        for it in _neumes(score):
            if fnmatch.fnmatchcase(it.kind, self.pattern):
                row = Row.at(it.source, it.spelling, degrees_of(it.notes), it.syllable.plain)
                yield Match(it.notes, row)


@dataclass(frozen=True)
class IntervalSearch:
    """Finds notes that follow each other at these intervals, in steps or in semitones."""

    wanted: tuple[int, ...]
    in_semitones: bool

    @classmethod
    def of(cls, words: str, in_semitones: bool) -> IntervalSearch:
        """Raises `UsageError` for what is no row of numbers."""
        steps = words.split()
        if not steps or not all(_STEP.fullmatch(it) for it in steps):
            raise UsageError(f'--interval {words}: numbers are needed, as in "+2 +1 -3"')
        return cls(tuple(map(int, steps)), in_semitones)

    def matches(self, score: Score) -> Iterator[Match]:
        heights = score.semitones if self.in_semitones else score.steps
        rises = rises_of(heights).tobytes()
        wanted = array("b", self.wanted).tobytes()
        at = rises.find(wanted)
        notes = score.notes if at >= 0 else ()
        while at >= 0:
            yield _match_of(notes[at : at + len(wanted) + 1])
            at = rises.find(wanted, at + 1)


def _match_of(notes: Sequence[Note]) -> Match:
    """Returns the match of notes that follow each other."""
    syllables = list(dict.fromkeys(it.syllable for it in notes))
    pitches = "".join(it.pitch for it in notes)
    row = Row.at(notes[0].source, pitches, degrees_of(notes), text_of_syllables(syllables))
    return Match(tuple(notes), row)


@dataclass(frozen=True)
class VolpianoSearch:
    """Finds a melody by its letters in Volpiano: the clef, hyphens, bars, flats and liquescence do
    not count."""

    letters: str

    @classmethod
    def of(cls, word: str) -> VolpianoSearch:
        """Raises `UsageError` for what is no melody."""
        letters = _NO_LETTERS.sub("", word).replace("(", "8").replace(")", "9").lower()
        if not letters or any(it not in LETTERS for it in letters):
            raise UsageError(f"--volpiano {word}: letters of a melody are needed, as in 1---f--gh")
        return cls(letters)

    def matches(self, score: Score) -> Iterator[Match]:
        sung = [note for note in score.notes for _ in range(note.times)]
        melody = "".join(letter_of(note) or "?" for note in sung)
        at = melody.find(self.letters)
        while at >= 0:
            yield _match_of(list(dict.fromkeys(sung[at : at + len(self.letters)])))
            at = melody.find(self.letters, at + 1)


def without_accents(text: str) -> str:
    """Returns `text` without accents."""
    return "".join(filterfalse(unicodedata.combining, unicodedata.normalize("NFD", text)))


def folded(text: str) -> str:
    """Returns `text` in small letters without accents and without the signs at both ends."""
    letters = text if text.isascii() else without_accents(text)
    letters = letters.casefold()
    if letters.isalnum():
        return letters
    inside = [at for at, it in enumerate(letters) if it.isalnum()]
    return letters[inside[0] : inside[-1] + 1] if inside else ""


@dataclass(frozen=True)
class TextSearch:
    """Finds words that follow each other and match these patterns, in which `*` stands for
    anything: accents, capitals and punctuation do not count."""

    patterns: tuple[str, ...]

    @classmethod
    def of(cls, words: str) -> TextSearch:
        """Raises `UsageError` where there is no word."""
        patterns = tuple(without_accents(it).casefold() for it in words.split())
        if not patterns:
            raise UsageError('--text needs a word, as in "Kyri*"')
        return cls(patterns)

    def matches(self, score: Score) -> Iterator[Match]:
        words = score.words
        texts = [folded(it.text) for it in words]
        fits = [re.compile(fnmatch.translate(it)).match for it in self.patterns]
        for at in range(len(words) - len(fits) + 1):
            if all(fit(it) for fit, it in zip(fits, texts[at : at + len(fits)])):
                found = words[at : at + len(self.patterns)]
                notes = tuple(note for it in found for note in it.notes)
                yield Match(
                    notes,
                    Row.at(
                        found[0].source,
                        "".join(it.pitch for it in notes),
                        degrees_of(notes),
                        " ".join(it.text for it in found),
                    ),
                )
