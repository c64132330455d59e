"""A score as sounds: its notes all of one length, for listening."""
from __future__ import annotations

from collections.abc import Iterable, Iterator
from dataclasses import dataclass

from gregorio_chant.errors import GregorioError
from gregorio_chant.objects.compiled import Compiled
from gregorio_chant.objects.items import Bar, Note
from gregorio_chant.objects.syllables import NoteSnippet, Syllable
from gregorio_chant.rhythm import morae_of

# How many ticks a note has, and the key of step 0: the c below the one in the middle.
TICKS = 480
LOWEST = 48
# How many notes long the rest of a bar is.
_RESTS = {"virgula": 0.5, "minimis": 0.5, "minima": 1.0, "minor": 1.0, "maior": 2.0, "finalis": 2.0}


class NoteBeforeClef(GregorioError, ValueError):
    """A score that cannot be heard: a note stands before any clef."""

    def __init__(self, note: Note) -> None:
        super().__init__(f"{note.source}: a note before any clef has no sound")


@dataclass(frozen=True, slots=True)
class Sound:
    """A note, or a rest if it has no `key`. `text` is sung from here on; `ticks` is how long it is;
    `syllable` is the number of its syllable, and `note` that of its note there, from 0."""

    key: int | None
    ticks: int
    text: str | None
    syllable: int
    note: int = 0


def _lengths(snippet: NoteSnippet) -> Iterator[int]:
    """Yields how many notes long each note is: two if a mora stands at it."""
    return (2 if it else 1 for it in morae_of([it for it in snippet.items if isinstance(it, Note)]))


def _lyric(syllable: Syllable) -> str | None:
    """Returns the text of a syllable, with a hyphen where its word goes on, and with a blank where
    it ends."""
    text = syllable.plain.strip()
    if not text:
        return None
    return f"{text}-" if syllable.position in ("beginning", "middle") else f"{text} "


def sounds_of(syllables: Iterable[Syllable]) -> Iterator[Sound]:
    """Yields the notes and rests of syllables, in order. Raises `NoteBeforeClef`."""
    for syllable in syllables:
        text, number = _lyric(syllable), 0
        for snippet in syllable.snippets:
            if not isinstance(snippet, NoteSnippet):
                continue
            lengths = _lengths(snippet)
            for it in snippet.items:
                if isinstance(it, Bar):
                    yield Sound(None, int(_RESTS[it.name] * TICKS), None, syllable.number)
                if not isinstance(it, Note):
                    continue
                if it.semitones is None:
                    raise NoteBeforeClef(it)
                length = next(lengths)
                for _ in range(it.times):
                    yield Sound(
                        LOWEST + it.semitones, length * TICKS, text, syllable.number, number
                    )
                    text = None
                number += 1


def sounds_of_score(compiled: Compiled) -> tuple[Sound, ...]:
    """Returns the sounds of a score; none if one of its notes has no height, or if nothing of it
    was read."""
    try:
        return tuple(sounds_of(compiled.score.syllables)) if compiled.has_score else ()
    except NoteBeforeClef:
        return ()
