"""Tries the objects of a score: the text at each place is what stands there, and all that they say
is what the dump says."""
from __future__ import annotations

import unittest
from collections.abc import Iterator

from object_dump import dump_of
from support import EXAMPLES, ROOT, has, scores_of_tables

from gregorio_chant import Format, Kind, check, compile
from gregorio_chant.dump import (
    Attribute,
    Bar,
    Clef,
    Custos,
    Glyph,
    Item,
    NabcSnippet,
    Note,
    NoteSnippet,
    Score,
    ScoreError,
    Space,
    interval,
)
from gregorio_chant.objects.score import NO_STEP


def all_items(score: Score) -> Iterator[Item]:
    """Yields all that has a place, from the headers to the notes of glyphs."""
    yield from score.headers
    for syllable in score.syllables:
        yield syllable
        for snippet in syllable.snippets:
            yield snippet
            yield from snippet.items
            for element in snippet.elements if isinstance(snippet, NoteSnippet) else ():
                yield element
                yield from element.items
                for glyph in element.glyphs:
                    yield glyph
                    yield from glyph.notes


class Places(unittest.TestCase):
    def look_at(self, score: bytes) -> int:
        """Compares each item of a score with the text at its place, and all with the dump. Returns
        how many items there are."""
        canonical = compile(score).canonical
        read = Score.parse(score)
        self.assertEqual(read.canonical, canonical)
        starts = [0]
        for line in canonical.split("\n"):
            starts.append(starts[-1] + len(line) + 1)
        number = 0
        for number, it in enumerate(all_items(read), 1):
            at = starts[it.place.line - 1] + it.place.column - 1
            spelled = canonical[at : at + len(it.spelling)]
            self.assertEqual(spelled, it.spelling, f"{it} in {score!r}")
            self.assertEqual(it.place.offset, at)
            self.assertTrue(
                it.spelling or isinstance(it, (NoteSnippet, NabcSnippet)), f"an empty {it}"
            )
        self.assertEqual(dump_of(read), compile(score, Format.DUMP).dump, score)
        self.look_at_notes(read)
        return number

    def look_at_notes(self, score: Score) -> None:
        """Compares what is asked of all notes at once with what each syllable and note says."""
        notes = [note for it in score.syllables for note in it.notes]
        self.assertEqual(list(score.notes), notes)
        for heights, values in (
            (score.pitches, [it.height for it in notes]),
            (score.steps, [NO_STEP if it.step is None else it.step for it in notes]),
            (score.semitones, [NO_STEP if it.semitones is None else it.semitones for it in notes]),
        ):
            self.assertEqual(list(heights), values)
        glyphs = [glyph for it in score.syllables for glyph in it.glyphs]
        self.assertEqual([it.notes[0] for it in glyphs], [it for it in notes if it.begins_neume])
        for it in score.syllables:
            items = [item for item in it.items if isinstance(item, (Note, Bar))]
            self.assertEqual(list(it.notes_and_bars), items)

    def test_scores_of_the_repository(self) -> None:
        for file in sorted(ROOT.glob("*/*.gabc")):
            with self.subTest(file.name):
                self.assertGreater(self.look_at(file.read_bytes()), 5)

    def test_scores_of_the_tables(self) -> None:
        read = 0
        for score in scores_of_tables():
            with self.subTest(score):
                try:
                    self.look_at(score)
                    read += 1
                except ScoreError as error:
                    self.assertEqual(error.message.code[0], "F")
                    self.assertEqual(compile(score).output, "")
        self.assertGreater(read, 300)

    @unittest.skipUnless(has("hypothesis"), "there is no hypothesis")
    def test_made_scores(self) -> None:
        from hypothesis import HealthCheck, given, settings
        from made import SCORES

        @settings(
            max_examples=400,
            deadline=None,
            derandomize=True,
            suppress_health_check=list(HealthCheck),
        )
        @given(SCORES)
        def look(data: bytes) -> None:
            try:
                self.look_at(data)
            except ScoreError:
                self.assertEqual(compile(data).output, "")

        look()

    def test_values(self) -> None:
        score = Score.parse((EXAMPLES / "introit.gabc").read_bytes())
        self.assertTrue(score.is_whole)
        self.assertEqual(score.header("nabc-lines"), "1")
        self.assertIsNone(score.header("none"))
        flat = Score.parse("%%\n(cb3) a(ixi/[1]g+  z0[x:1] ,) (::)")
        note = flat.notes[0]
        self.assertEqual(
            (note.pitch, note.degree, note.alteration, note.shape), ("i", "re", "flat", "punctum")
        )
        items = flat.syllables[1].items
        self.assertEqual(
            [it.spelling for it in items], ["ix", "i", "/[1]", "g+", "  ", "z0", "[x:1]", " ", ","]
        )
        kinds = {type(it): it for it in items}
        attribute, custos = kinds[Attribute], kinds[Custos]
        assert isinstance(attribute, Attribute) and isinstance(custos, Custos)
        self.assertEqual((attribute.raw, str(attribute.source)), ("x:1", "2:22"))
        self.assertIsNone(custos.pitch)
        spaces = [it for it in items if isinstance(it, Space)]
        self.assertEqual([it.is_blank for it in spaces], [False, True, True])

    def test_plain_text(self) -> None:
        score = Score.parse(
            "%%\n<i>m{a</i>}<sp>'ae</sp>$(<v>\\x</v><alt>y</alt>r<sp>+</sp>[my](c4f)"
        )
        self.assertEqual(score.syllables[0].plain, "maǽ(r†")
        self.assertEqual(score.syllables[0].translation, "my")

    def test_score_that_is_not_whole(self) -> None:
        score = Score.parse("%%\n(c4) a(f) b(g")
        self.assertFalse(score.is_whole)
        self.assertEqual([it.plain for it in score.syllables], ["", "a"])


class Ways(unittest.TestCase):
    """From an object to what it stands in, and to the same one again."""

    def setUp(self) -> None:
        self.score = Score.parse("%%\n(c4) Ky(f)ri(gf & g)e(ixhi) * (,) e(f)le(h)")

    def test_syllables_and_words(self) -> None:
        for syllable in self.score.syllables:
            self.assertIs(syllable.score, self.score)
            for it in (*syllable.items, *syllable.glyphs, *syllable.notes):
                self.assertEqual(it.syllable, syllable)
        words = [None if it.word is None else it.word.text for it in self.score.syllables]
        self.assertEqual(words, [None, "Kyrie", "Kyrie", "Kyrie", None, "ele", "ele"])
        for word in self.score.words:
            for it in word.syllables:
                self.assertEqual(it.word, word)

    def test_equal_ones(self) -> None:
        """The same thing is equal each time that it is asked for, and no other is."""
        first, again = list(all_items(self.score)), list(all_items(self.score))
        self.assertEqual(first, again)
        self.assertEqual(len(set(first)), len({(type(it), it.source) for it in first}))
        other = Score.parse(self.score.text)
        self.assertFalse(set(first) & set(all_items(other)))
        joined = [
            it for it in Score.parse("%%\n(c4@f3)").syllables[0].items if isinstance(it, Clef)
        ]
        self.assertEqual(len({joined[0], joined[0].second}), 2)
        note, glyph = self.score.notes[0], self.score.syllables[1].glyphs[0]
        self.assertTrue(isinstance(glyph, Glyph) and isinstance(note, Note) and glyph != note)

    def test_kinds_of_messages(self) -> None:
        self.assertEqual([it.kind == "error" for it in self.score.messages], [False, True])
        self.assertEqual(Kind.ERROR, "error")
        self.assertEqual([it.kind.value for it in check("%%\n(").messages][-1], "fatal")


class Arrays(unittest.TestCase):
    def test_heights(self) -> None:
        """The arrays of a score say what its notes say."""
        for file in sorted(EXAMPLES.glob("*.gabc")):
            score = Score.parse(file.read_bytes())
            notes = score.notes
            with self.subTest(file.name):
                self.assertEqual([it.height for it in notes], list(score.pitches))
                for asked, found in (("step", score.steps), ("semitones", score.semitones)):
                    wanted = [getattr(it, asked) for it in notes]
                    self.assertEqual([NO_STEP if it is None else it for it in wanted], list(found))
                between = map(interval, notes, notes[1:])
                steps = [NO_STEP if it is None else it.steps for it in between]
                self.assertEqual(steps, list(score.intervals))

    def test_before_any_clef(self) -> None:
        score = Score.parse("%%\na(g) (c4) b(gh)")
        self.assertEqual(list(score.pitches), [6, 6, 7])
        self.assertEqual(list(score.steps), [NO_STEP, 4, 5])
        self.assertEqual(list(score.semitones), [NO_STEP, 7, 9])
        self.assertEqual(list(score.intervals), [NO_STEP, 1])
        self.assertEqual(score.steps.typecode, "b")
        self.assertEqual(list(Score.parse("%%\n(::)").intervals), [])


class Refusals(unittest.TestCase):
    def test_headers_that_are_not_whole(self) -> None:
        with self.assertRaises(ScoreError) as caught:
            Score.parse("name: a;\n")
        self.assertEqual(str(caught.exception), "2:1: F2: no %% line")

    def test_no_score(self) -> None:
        with self.assertRaises(TypeError):
            Score.parse(5)  # type: ignore[arg-type]


if __name__ == "__main__":
    unittest.main()
