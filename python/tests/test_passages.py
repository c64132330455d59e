"""Tries words and phrases: nothing stands twice or nowhere, and what they are by hand."""
from __future__ import annotations

import unittest

from support import EXAMPLES, ROOT, scores_of_tables

from gregorio_chant.dump import Bar, Note, Score, ScoreError


class Everywhere(unittest.TestCase):
    def look_at(self, score: Score) -> None:
        words = [it for word in score.words for it in word.syllables]
        self.assertEqual([it.number for it in words], sorted({it.number for it in words}))
        with_text = {it.number for it in score.syllables if any(map(str.isalnum, it.plain))}
        self.assertLessEqual(with_text, {it.number for it in words})
        for phrases in (score.phrases, score.phrases_at("maior", "finalis"), score.verses):
            self.assertEqual(tuple(note for it in phrases for note in it.notes), score.notes)
            numbers = [it.number for phrase in phrases for it in phrase.syllables]
            self.assertEqual(numbers, sorted(set(numbers)))
            self.assertLessEqual(with_text, set(numbers))
            self.assertLessEqual({it.number for it in score.syllables if it.notes}, set(numbers))
        bars = [it for syllable in score.syllables for it in syllable.items if isinstance(it, Bar)]
        ends = [it.bar for it in score.phrases if it.bar]
        self.assertEqual(ends, [it for it in bars if it in ends])
        for phrase in score.phrases:
            self.assertEqual(
                [it for it in phrase.items if isinstance(it, Bar)],
                [phrase.bar] if phrase.bar else [],
            )
            for syllable in phrase.syllables:
                if syllable.notes:
                    self.assertIn(syllable.notes[0], phrase.notes)

    def test_scores(self) -> None:
        tried = 0
        for data in [
            *(it.read_bytes() for it in sorted(ROOT.glob("examples/*.gabc"))),
            *scores_of_tables(),
        ]:
            try:
                score = Score.parse(data)
            except ScoreError:
                continue
            with self.subTest(data):
                self.look_at(score)
                tried += 1
        self.assertGreater(tried, 300)


class ByHand(unittest.TestCase):
    def test_words(self) -> None:
        score = Score.parse(
            "%%\n(c4) <i>Ký</i>(f)ri(gfg)e,(,) *(;) e{l}é(h)i(g)son.(f) <sp>V/</sp>(::)"
        )
        self.assertEqual([it.text for it in score.words], ["Kýrie,", "eléison."])
        first = score.words[0]
        self.assertEqual(
            (
                len(first.syllables),
                "".join(it.pitch for it in first.notes),
                [it.kind for it in first.glyphs],
            ),
            (3, "fgfg", ["punctum", "porrectus"]),
        )
        self.assertEqual((str(first.source), first.source.spelling), ("2:6", "<i>Ký</i>(f)"))

    def test_phrases(self) -> None:
        score = Score.parse("%%\n(c4) a(f) b(g,h) *(,) c(`i) (;) (;) d(j) (::) e()")
        found = [
            (it.text, "".join(note.pitch for note in it.notes), it.bar.name if it.bar else None)
            for it in score.phrases
        ]
        self.assertEqual(
            found,
            [
                ("a b", "fg", "minima"),
                ("*", "h", "minima"),
                ("c", "i", "minor"),
                ("d", "j", "finalis"),
                ("e", "", None),
            ],
        )
        self.assertEqual([it.text for it in score.phrases_at("minor")], ["a b * c", "d e"])
        self.assertEqual(
            [[word.text for word in it.words] for it in score.verses], [["a", "b", "c", "d"], ["e"]]
        )
        self.assertEqual(
            [str(it.source) for it in score.phrases], ["2:1", "2:18", "2:23", "2:37", "2:47"]
        )

    def test_verses(self) -> None:
        verses = Score.parse((EXAMPLES / "hymn-verses.gabc").read_bytes()).verses
        self.assertEqual([it.number for it in verses], [None, 2, 3, None])
        self.assertEqual([it.source.line for it in verses], [8, 13, 18, 23])
        self.assertTrue(verses[1].text.startswith("2. Linguam refrénans"))
        self.assertTrue(all(isinstance(it, Note) for verse in verses for it in verse.notes))
