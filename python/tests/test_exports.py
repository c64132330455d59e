"""Tries `export --to volpiano`, `musicxml` and `mei`: each file is read back by a small reader of
the test, and has the notes, syllables and neumes of the score."""
from __future__ import annotations

import re
import unittest
from collections.abc import Iterator
from functools import cache
from xml.etree import ElementTree

from support import FAULTY, SCORE, InFolder, command, files_of_scores, scores_of_tables

from gregorio_chant.dump import Note, Score, ScoreError
from gregorio_chant.export import NoHeight
from gregorio_chant.export.losses import losses
from gregorio_chant.export.mei import WAY, mei_of
from gregorio_chant.export.musicxml import musicxml_of
from gregorio_chant.export.volpiano import OutOfRange, volpiano_of

_MEI = "{http://www.music-encoding.org/ns/mei}"
_SEMITONES = {"C": 0, "D": 2, "E": 4, "F": 5, "G": 7, "A": 9, "B": 11}
_VOLPIANO = "89abcdefghjklmnopqrs"
_LIQUESCENT = "()ABCDEFGHJKLMNOPQRS"


@cache
def scores() -> tuple[Score, ...]:
    """Returns the scores of the examples, of the folders that GREGORIO_FOLDER names, and of the
    tables that have a height for each note."""
    return tuple(_scores())


def _scores() -> Iterator[Score]:
    texts = [it.read_bytes() for it in files_of_scores()] + scores_of_tables()
    for text in texts:
        try:
            score = Score.parse(text)
        except ScoreError:
            continue
        if all(note.step is not None for note in score.notes):
            yield score


def sung(score: Score) -> list[Note]:
    """Returns the notes as often as they sound."""
    return [note for note in score.notes for _ in range(note.times)]


class Volpiano(unittest.TestCase):
    def test_a_score(self) -> None:
        score = Score.parse(
            "name: a;\n%%\n(c4) Ky(c)ri(gixi)e,(iyi/ji) (,) e(h~)lé(fss)i(f)son(g) (::)"
        )
        self.assertEqual(volpiano_of(score.syllables), "1---c--g-ij--Ij-kj---3---H--ff--f--g---4")

    def test_flats(self) -> None:
        """A sign holds up to the end of its word, and a clef with a flat gives one to each word."""
        score = Score.parse("name: a;\n%%\n(cb4) a(ii)b(i) c(i) d(iyi)")
        self.assertEqual(volpiano_of(score.syllables), "1---ij-j--j---ij---j")

    def test_no_letter(self) -> None:
        for text in ("(c4) a(g#g)", "(c4) a(gxg)", "(f4) a(a)"):
            with self.subTest(text), self.assertRaises(OutOfRange):
                volpiano_of(Score.parse(f"name: a;\n%%\n{text}").syllables)

    def test_scores(self) -> None:
        """The letters are the notes in order, and words and syllables with notes are parted as the
        score parts them."""
        count = 0
        for score in scores():
            try:
                text = volpiano_of(score.syllables)
            except OutOfRange:
                continue
            letters = re.sub(r"[1346-7iIwWxXyYzZ-]", "", text)
            awaited = "".join(
                (_LIQUESCENT if it.liquescence else _VOLPIANO)[(it.step or 0) + 4]
                for it in sung(score)
            )
            self.assertEqual(letters, awaited)
            syllables = sum(1 for it in score.syllables if it.notes)
            self.assertGreaterEqual(len(re.findall(r"--+(?=[^-34])", text)), syllables)
            count += bool(letters)
        self.assertGreater(count, 100)


class MusicXml(unittest.TestCase):
    def notes(self, data: bytes) -> list[tuple[int, str, str]]:
        """Returns the key of each note of a file, as in MIDI, and its lyric with how it stands in
        its word."""
        found = []
        for note in ElementTree.fromstring(data).iter("note"):
            key = (
                12 * (int(note.findtext("pitch/octave", "")) + 1)
                + _SEMITONES[note.findtext("pitch/step", "")]
                + int(note.findtext("pitch/alter", "0"))
            )
            found.append(
                (key, note.findtext("lyric/text", ""), note.findtext("lyric/syllabic", ""))
            )
        return found

    def test_a_score(self) -> None:
        notes = self.notes(musicxml_of(Score.parse("name: a;\n%%\n(c4) Ky(c)ri(gixi)e(j) (::)")))
        self.assertEqual(
            notes, [(48, "Ky", "begin"), (55, "ri", "middle"), (58, "", ""), (60, "e", "end")]
        )

    def test_slurs_and_bars(self) -> None:
        data = musicxml_of(Score.parse("name: a & b;\n%%\n(c4) a(fg/h.) (;) b(f) (::)")).decode()
        self.assertEqual(re.findall(r'slur type="(\w+)"', data), ["start", "stop"])
        self.assertEqual(re.findall(r"<bar-style>(.*?)<", data), ["dashed", "light-light"])
        self.assertEqual(re.findall(r"<duration>(\d)<", data), ["1", "1", "2", "1"])
        self.assertIn("<work-title>a &amp; b</work-title>", data)

    def test_scores(self) -> None:
        count = 0
        for score in scores():
            notes = self.notes(musicxml_of(score))
            self.assertEqual(
                [key for key, _, _ in notes], [48 + (it.semitones or 0) for it in sung(score)]
            )
            self.assertEqual(
                [text for _, text, _ in notes if text],
                [it.plain.strip() for it in score.syllables if it.notes and it.plain.strip()],
            )
            count += bool(notes)
        self.assertGreater(count, 100)


class Mei(unittest.TestCase):
    def test_a_score(self) -> None:
        root = ElementTree.fromstring(
            mei_of(Score.parse("name: a;\n%%\n(c3) Ky(fv)ri(gwh~)e(hGF_') (;) (z) a(ixi) (::)"))
        )
        self.assertEqual(
            [it.get("tilt") for it in root.iter(f"{_MEI}nc")],
            ["s", None, None, None, "se", "se", None],
        )
        self.assertEqual(
            [it.tag[len(_MEI) :] for nc in root.iter(f"{_MEI}nc") for it in nc],
            ["quilisma", "liquescent", "episema", "episema"],
        )
        self.assertEqual(
            [it.get("form") for it in root.iter(f"{_MEI}divLine")], ["maior", "finalis"]
        )
        self.assertEqual(
            [(it.get("shape"), it.get("line")) for it in root.iter(f"{_MEI}clef")], [("C", "3")]
        )
        self.assertEqual(
            [(it.get("accid"), it.get("ploc")) for it in root.iter(f"{_MEI}accid")], [("f", "d")]
        )
        self.assertEqual(len([*root.iter(f"{_MEI}sb")]), 1)

    def test_scores(self) -> None:
        count = 0
        for score in scores():
            root = ElementTree.fromstring(mei_of(score))
            steps = [
                7 * (int(it.get("oct", "")) - 3) + "cdefgab".index(it.get("pname", ""))
                for it in root.iter(f"{_MEI}nc")
            ]
            self.assertEqual(steps, [it.step for it in sung(score)])
            texts = [it.findtext(f"{_MEI}syl") or "" for it in root.iter(f"{_MEI}syllable")]
            self.assertEqual(
                texts, [it.plain.strip() for it in score.syllables if it.notes or it.plain.strip()]
            )
            neumes = [
                (it.get("type"), len([*it.iter(f"{_MEI}nc")])) for it in root.iter(f"{_MEI}neume")
            ]
            self.assertEqual(
                neumes,
                [
                    (glyph.kind, sum(note.times for note in glyph.notes))
                    for it in score.syllables
                    for glyph in it.glyphs
                ],
            )
            count += bool(steps)
        self.assertGreater(count, 100)


class Command(InFolder):
    def test_files(self) -> None:
        path = self.put("a.gabc", SCORE)
        for name in ("volpiano", "musicxml", "mei"):
            ran = command("export", "--to", name, path)
            self.assertEqual(ran.returncode, 0, ran.stderr)
            self.assertEqual(
                path.with_suffix(f".{name}").read_bytes(),
                command("export", "--to", name, "--quiet", "-", data=SCORE.encode()).stdout,
            )

    def test_what_is_not_said(self) -> None:
        """Each kind is told once, where it first stands, over all files."""
        for name in ("a", "b"):
            self.put(f"{name}.gabc", "name: a;\nnabc-lines: 1;\n%%\n(c4) <i>a</i>(f.|vi) b(g.)")
        ran = command("export", "--to", "mei", "a.gabc", "b.gabc")
        self.assertEqual(
            ran.stderr.decode().splitlines(),
            [
                "gregorio-chant: a.gabc:4:6: mei says nothing of styles of the text",
                "gregorio-chant: a.gabc:4:15: mei says nothing of morae",
                "gregorio-chant: a.gabc:4:18: mei says nothing of NABC",
                "gregorio-chant: 2 files written",
            ],
        )

    def test_nothing_is_lost_unsaid(self) -> None:
        """What MEI has no element for is among what it says nothing of."""
        score = Score.parse("name: a;\nnabc-lines: 1;\n%%\n(c4) <i>a</i>[b](f.[c]|vi)")
        self.assertEqual({*losses(score, WAY.lost)}, WAY.lost)

    def test_refused(self) -> None:
        self.put("a.gabc", "name: a;\n%%\na(f)")
        self.put("b.gabc", FAULTY.replace("(c4)", "(c4"))
        for name in ("volpiano", "musicxml", "mei"):
            ran = command("export", "--to", name, "a.gabc")
            self.assertEqual(
                (ran.returncode, "a note before any clef has no height" in ran.stderr.decode()),
                (1, True),
            )
        with self.assertRaises(NoHeight):
            mei_of(Score.parse("%%\na(f)"))
