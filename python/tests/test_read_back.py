"""Reads exported MusicXML back by a program of others, `musicxml2ly` of LilyPond: notes, bars,
syllables and neumes are those of the score."""
from __future__ import annotations

import re
import shutil
import subprocess
import unittest
from collections.abc import Iterator
from dataclasses import dataclass

from support import SCORE, files_of_scores, scores_of_tables

from gregorio_chant.dump import Bar, Note, NoteSnippet, Score, ScoreError
from gregorio_chant.export.musicxml import musicxml_of
from gregorio_chant.rhythm import morae_of

_KEYS = {"c": 48, "d": 50, "e": 52, "f": 53, "g": 55, "a": 57, "b": 59}
_NAMES = {"es": "ees", "as": "aes"}
_BARS = {"virgula": "'", "minimis": "'", "minima": ",", "minor": "!", "maior": "|", "finalis": "||"}
_MUSIC = re.compile(
    r"""\\bar\s+"(?P<bar>[^"]*)"|(?P<slur>[()])|(?<![\\\w])(?P<name>[a-g](?:es|is|s)?)(?P<octave>[',]*)(?P<length>\d+)"""
)
_WORDS = re.compile(
    r'(?P<hyphen>--)|\\skip1|"(?P<quoted>(?:[^"\\]|\\.)*)"|(?P<word>(?:(?!\\skip1|--)[^\s"])+)'
)
# How many inputs of the tables are read.
_TRIED = 600


@dataclass(frozen=True)
class Read:
    """What stands in a file of LilyPond: notes as keys of MIDI with their lengths, how many notes
    are under each slur, the bars, and the syllables, each with whether its word goes on."""

    notes: list[tuple[int, int]]
    slurs: list[int]
    bars: list[str]
    syllables: list[tuple[str, bool]]


def read(text: str) -> Read:
    """Reads what `musicxml2ly --absolute` writes."""
    music = re.search(
        r"^PartPOneVoiceOne =(.*?)^(?:PartP|% The score)", text, re.DOTALL | re.MULTILINE
    )
    assert music is not None
    made = Read([], [], [], [])
    begin: int | None = None
    for it in _MUSIC.finditer(re.sub(r'\\clef\s+"\w+"|\\key\s+\w+', "", music[1])):
        if it["bar"] is not None:
            made.bars.append(it["bar"])
        elif it["slur"] == "(":
            begin = len(made.notes) - 1
        elif it["slur"]:
            assert begin is not None
            made.slurs.append(len(made.notes) - begin)
        else:
            name = _NAMES.get(it["name"], it["name"])
            key = _KEYS[name[0]] + {"": 0, "es": -1, "is": 1}[name[1:]]
            made.notes.append(
                (key + 12 * (it["octave"].count("'") - it["octave"].count(",")), int(it["length"]))
            )
    made.syllables.extend(_syllables(text))
    return made


def _syllables(text: str) -> Iterator[tuple[str, bool]]:
    words = re.search(
        r"\\lyricmode \{\s*(?:\\set\s+ignoreMelismata\s*=\s*##t)?(.*)\}\s+% The score",
        text,
        re.DOTALL,
    )
    last: str | None = None
    for it in _WORDS.finditer(words[1] if words else ""):
        if it["hyphen"] and last is not None:
            yield last, True
            last = None
        elif it["quoted"] is not None or it["word"]:
            if last is not None:
                yield last, False
            last = it["word"] or it["quoted"]
    if last is not None:
        yield last, False


def awaited(score: Score) -> Read:
    """Returns the same of a score."""
    made = Read([], [], bars_of(score), [])
    for syllable in score.syllables:
        for snippet in (it for it in syllable.snippets if isinstance(it, NoteSnippet)):
            notes = [it for it in snippet.items if isinstance(it, Note)]
            made.notes.extend(
                (48 + (it.semitones or 0), 4 if morae else 8)
                for it, morae in zip(notes, morae_of(notes))
                for _ in range(it.times)
            )
        made.slurs.extend(
            sum(it.times for it in glyph.notes) for glyph in syllable.glyphs if len(glyph.notes) > 1
        )
        text = " ".join(syllable.plain.split())
        if text and syllable.notes:
            made.syllables.append((text, syllable.position in ("beginning", "middle")))
    return made


def bars_of(score: Score) -> list[str]:
    """Returns the bars of a score: of several without a note between them the first."""
    bars: list[str] = []
    is_after_note = True
    for item in (item for syllable in score.syllables for item in syllable.items):
        if isinstance(item, Bar) and is_after_note:
            bars.append(_BARS[item.name])
        if isinstance(item, (Bar, Note)):
            is_after_note = isinstance(item, Note)
    return bars


def scores() -> Iterator[Score]:
    """Yields the scores of the examples and of GREGORIO_FOLDER, and some of the tables, that have
    notes and a height for each."""
    tables = [it for it in scores_of_tables() if len(it) < 1_000]
    for data in [*(it.read_bytes() for it in files_of_scores()), *tables[:: len(tables) // _TRIED]]:
        try:
            score = Score.parse(data)
        except ScoreError:
            continue
        if score.notes and all(it.step is not None for it in score.notes):
            yield score


@unittest.skipUnless(shutil.which("musicxml2ly"), "there is no musicxml2ly, of Debian's lilypond")
class MusicXml(unittest.TestCase):
    def read(self, score: Score) -> Read:
        ran = subprocess.run(
            ["musicxml2ly", "--absolute", "--nsd", "-o", "-", "-"],
            input=musicxml_of(score),
            capture_output=True,
            check=False,
        )
        self.assertEqual(ran.returncode, 0, ran.stderr)
        return read(ran.stdout.decode())

    def test_a_score(self) -> None:
        self.assertEqual(
            self.read(Score.parse(SCORE)),
            Read(
                [(53, 8), (55, 8), (53, 8), (55, 8), (52, 4)],
                [3],
                ["||"],
                [("Ky", True), ("ri", True), ("e", False)],
            ),
        )

    def test_scores(self) -> None:
        count = 0
        for score in scores():
            found, its = self.read(score), awaited(score)
            with self.subTest(score.text):
                self.assertEqual(
                    (found.notes, found.slurs, found.bars), (its.notes, its.slurs, its.bars)
                )
                # It leaves a backslash in a text as it is, which then means something else.
                if not any("\\" in text or '"' in text for text, _ in its.syllables):
                    self.assertEqual(found.syllables, its.syllables)
                    count += 1
        self.assertGreater(count, 100)
