"""Tries how high notes stand: by the degrees of the compiler in all scores, and by hand."""
from __future__ import annotations

import unittest

from support import ROOT, scores_of_tables

from gregorio_chant.dump import (
    Clef,
    Descriptor,
    Interval,
    NabcGlyph,
    NabcLetters,
    NabcPoints,
    NabcSnippet,
    Place,
    Score,
    ScoreError,
    interval,
    intervals,
)

_DEGREES = ("ut", "re", "mi", "fa", "sol", "la", "si")
_PLAIN = (0, 2, 4, 5, 7, 9, 11)


def scores() -> list[Score]:
    """Returns all scores of the repository that can be read."""
    read = []
    for data in [
        *(it.read_bytes() for it in sorted(ROOT.glob("examples/*.gabc"))),
        *scores_of_tables(),
    ]:
        try:
            read.append(Score.parse(data))
        except ScoreError:
            pass
    return read


def descriptors(score: Score) -> list[Descriptor]:
    nabc = (
        snippet
        for it in score.syllables
        for snippet in it.snippets
        if isinstance(snippet, NabcSnippet)
    )
    return [it for snippet in nabc for it in snippet.items if isinstance(it, Descriptor)]


class Everywhere(unittest.TestCase):
    def test_degrees(self) -> None:
        """The degree that the compiler tells is that of the step, and the semitones are those of
        degree and alteration."""
        tried = 0
        for score in scores():
            for note in score.notes:
                if note.step is None or note.semitones is None:
                    self.assertIsNone(note.degree)
                    self.assertIsNone(note.clef)
                    continue
                self.assertEqual(note.degree, _DEGREES[note.step % 7])
                altered = note.semitones - 12 * (note.step // 7) - _PLAIN[note.step % 7]
                self.assertEqual(
                    altered, {"none": 0, "flat": -1, "natural": 0, "sharp": 1}[note.alteration]
                )
                self.assertEqual("abcdefghijklmnp"[note.height], note.pitch)
                tried += 1
        self.assertGreater(tried, 1_000)

    def test_parts_of_descriptors(self) -> None:
        """The parts of a descriptor, with a `!` between glyphs, are all that it is spelled by, and
        each stands at its place."""
        tried = 0
        for score in scores():
            for it in descriptors(score):
                spelled = ""
                for part in it.parts:
                    spelled += "!" * (spelled != "" and isinstance(part, NabcGlyph)) + part.spelling
                    self.assertEqual(
                        score.canonical[part.place.offset :][: len(part.spelling)], part.spelling
                    )
                    self.assertEqual(part.source.spelling[:1], part.spelling[:1])
                self.assertEqual(spelled, it.spelling)
                self.assertEqual(tuple(glyph.name for glyph in it.glyphs), it.names)
                tried += 1
        self.assertGreater(tried, 200)


class ByHand(unittest.TestCase):
    def heights(self, notes: str) -> list[tuple[int, int | None, int | None]]:
        return [(it.height, it.step, it.semitones) for it in Score.parse(f"%%\n({notes})").notes]

    def test_heights(self) -> None:
        self.assertEqual(
            self.heights("a c4 j c h a"),
            [(0, None, None), (9, 7, 12), (2, 0, 0), (7, 5, 9), (0, -2, -3)],
        )
        self.assertEqual(
            self.heights("c3 h f3 h c5 p n f5 a"),
            [(7, 7, 12), (7, 3, 5), (14, 10, 17), (13, 9, 16), (0, -8, -13)],
        )
        self.assertEqual(
            self.heights("cb4 i iyi ix i j#j"), [(8, 6, 10), (8, 6, 11), (8, 6, 10), (9, 7, 13)]
        )

    def test_clefs(self) -> None:
        score = Score.parse("%%\n  (cb4@f3 h c2g)")
        clefs = [it for it in score.syllables[0].items if isinstance(it, Clef)]
        self.assertEqual(
            [(it.letter, it.line, it.has_flat) for it in clefs], [("c", 4, True), ("c", 2, False)]
        )
        second = clefs[0].second
        assert second is not None
        self.assertEqual(
            (second.letter, second.line, second.has_flat, second.second, second.spelling),
            ("f", 3, False, None, "f3"),
        )
        self.assertEqual((second.place, str(second.source)), (Place(8, 2, 6), "2:8"))
        self.assertIsNone(clefs[1].second)
        self.assertEqual([it.clef for it in score.notes], clefs)

    def test_intervals(self) -> None:
        score = Score.parse("%%\n(e c4 fhixif c3 d)")
        self.assertEqual(
            intervals(score.notes),
            (None, Interval(2, 4), Interval(1, 1), Interval(-3, -5), Interval(0, 0)),
        )
        self.assertIsNone(interval(score.notes[0], score.notes[1]))
        self.assertEqual(interval(score.notes[3], score.notes[1]), Interval(-3, -5))

    def test_range_and_final(self) -> None:
        score = Score.parse("%%\n(a c4 hfjfj g)")
        assert score.range is not None and score.final is not None
        self.assertEqual(
            (score.range.low.place.column, score.range.high.place.column, score.final.pitch),
            (8, 9, "g"),
        )
        empty = Score.parse("%%\n(::)")
        self.assertEqual((empty.range, empty.final), (None, None))
        self.assertIsNone(Score.parse("%%\n(a)").range)

    def test_nabc(self) -> None:
        [it] = descriptors(
            Score.parse("nabc-lines: 1;\n%%\n(f|peS2-hg!clhpppt2su3hklsal-m4hplti1)")
        )
        pes, clivis, before, after, letters, tironian = it.parts
        assert isinstance(pes, NabcGlyph) and isinstance(clivis, NabcGlyph)
        self.assertEqual(
            (pes.code, pes.name, pes.modifiers, pes.pitch), ("pe", "pes", ("S2", "-"), "g")
        )
        self.assertEqual((clivis.name, clivis.modifiers, clivis.pitch), ("clivis", (), "p"))
        assert isinstance(before, NabcPoints) and isinstance(after, NabcPoints)
        self.assertEqual(
            (before.kind, before.letter, before.count, before.pitch), ("pp", "t", 2, None)
        )
        self.assertEqual((after.kind, after.letter, after.count, after.pitch), ("su", "", 3, "k"))
        assert isinstance(letters, NabcLetters) and isinstance(tironian, NabcLetters)
        self.assertEqual(
            (letters.kind, letters.text, letters.position, letters.pitch), ("ls", "al-m", 4, "p")
        )
        self.assertEqual(
            (tironian.kind, tironian.text, tironian.position, tironian.pitch), ("lt", "i", 1, None)
        )
        self.assertEqual(
            (it.glyphs, it.points, it.letters),
            ((pes, clivis), (before, after), (letters, tironian)),
        )
