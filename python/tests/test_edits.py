"""Tries changes of a score: what is not changed stays character for character, and the compiler
reads the rest as it is meant."""
from __future__ import annotations

import os
import unittest
from collections import Counter
from collections.abc import Callable, Iterator
from pathlib import Path

from support import ROOT, has, scores_of_tables

from gregorio_chant import Format, compile
from gregorio_chant.dump import (
    Clef,
    Edited,
    EditError,
    Item,
    NabcSnippet,
    Note,
    Score,
    ScoreError,
    Syllable,
)

SCORE = (
    "\ufeffname:Kyrie ; % the first\r\nmode: 1;\r\n%% c\r\n(c4) Ky(f.&)ri( gf%x\r\ng)e,(-e.) %"
    " (fgh)\r\n <b>e</b>(ixi) (::)"
)


def files() -> Iterator[bytes]:
    """Yields the example scores, and those of the folder that GREGORIO_FOLDER names."""
    folders = [ROOT / "examples", *map(Path, filter(None, [os.environ.get("GREGORIO_FOLDER")]))]
    for folder in folders:
        for file in sorted(folder.glob("*.gabc")):
            yield file.read_bytes()


def objects(score: Score) -> Iterator[Item]:
    """Yields the headers, the syllables, and the items of all notes."""
    yield from score.headers
    for it in score.syllables:
        yield it
        for snippet in it.snippets:
            yield from snippet.items


def edited_canonical(score: Score, item: Item, text: str) -> str:
    begin, end = item.place.offset, item.place.offset + len(item.spelling)
    return score.canonical[:begin] + text + score.canonical[end:]


class Everywhere(unittest.TestCase):
    def look_at(
        self,
        score: Score,
        item: Item,
        change: Callable[[Edited], Edited],
        text: str,
        canonical: str,
    ) -> str | None:
        """Makes a change. The file has to be `text` then, and its dump that of `canonical`. Returns
        the reason where it is refused."""
        try:
            made = change(score.edited()).text()
        except EditError as error:
            return error.reason
        self.assertEqual(made, text, item)
        self.assertEqual(
            compile(made, Format.DUMP).output, compile(canonical, Format.DUMP).output, item
        )
        return None

    def test_each_object(self) -> None:
        """Each object is written again, removed, and doubled before and after itself."""
        told: Counter[str] = Counter()
        for data in files():
            score = Score.parse(data)
            if not score.is_whole:
                continue
            for it in objects(score):
                for what, reason in self.edits(score, it):
                    told[what if reason is None else f"{what}, refused"] += 1
        self.assertGreater(told["replace"], 100 * told["replace, refused"], told)
        for what in ("remove", "before", "after"):
            self.assertGreater(told[what], 3 * told[f"{what}, refused"], told)
            self.assertGreater(told[what], 500)

    def edits(self, score: Score, it: Item) -> Iterator[tuple[str, str | None]]:
        """Makes each edit of an object, and yields what it is and why it is refused, if it is."""
        at, end, same = it.source.place.offset, it.source.end, it.spelling
        before, after = score.text[:at], score.text[end:]
        new = before + same + after
        found = self.look_at(score, it, lambda to: to.replace(it, same), new, score.canonical)
        yield "replace", found
        if it not in score.headers:
            less = edited_canonical(score, it, "")
            found = self.look_at(score, it, lambda to: to.remove(it), before + after, less)
            yield "remove", found
            more = score.text[:end] + same + after
            twice = edited_canonical(score, it, same + same)
            found = self.look_at(score, it, lambda to: to.insert(it, same, after=True), more, twice)
            yield "after", found
        twice = edited_canonical(score, it, same + same)
        more = before + same + score.text[at:]
        yield "before", self.look_at(score, it, lambda to: to.insert(it, same), more, twice)

    def test_up_and_down(self) -> None:
        """A score that was moved up and down again is what it was, or a note has no room."""
        moved = 0
        for data in [*files(), *scores_of_tables()[::3]]:
            try:
                score = Score.parse(data)
                if not score.is_whole:
                    continue
                up = score.edited().transpose(1).text()
            except ScoreError:
                continue
            except EditError as error:
                self.assertRegex(error.reason, "^there is no room for .*[pP]")
                self.assertIn(error.source.spelling.lstrip("-")[0].lower(), "p")
                continue
            self.assertEqual(Score.parse(up).edited().transpose(-1).text().encode(), data)
            moved += 1
        self.assertGreater(moved, 60)

    @unittest.skipUnless(has("hypothesis"), "there is no hypothesis")
    def test_made_scores(self) -> None:
        """In made scores a change is refused, or does what it says; that nothing else comes out is
        what is tried."""
        from hypothesis import HealthCheck, given, settings
        from hypothesis import strategies as st
        from made import SCORES

        @settings(
            max_examples=150,
            deadline=None,
            derandomize=True,
            suppress_health_check=list(HealthCheck),
        )
        @given(
            SCORES,
            st.integers(0, 1000),
            st.sampled_from(
                ("", "f", "g h", "[x]", "-", "f-", "x", "[", "&", "a(f)", "|", "pe", "@[", " ")
            ),
        )
        def look(data: bytes, number: int, text: str) -> None:
            try:
                score = Score.parse(data)
            except ScoreError:
                return
            there = [it for it in objects(score) if not isinstance(it, Syllable)][
                len(score.headers) :
            ]
            if not score.is_whole or not there:
                return
            it = there[number % len(there)]
            at, end = it.source.place.offset, it.source.end
            self.look_at(
                score,
                it,
                lambda to: to.replace(it, text),
                score.text[:at] + text + score.text[end:],
                edited_canonical(score, it, text),
            )

        look()


class ByHand(unittest.TestCase):
    def setUp(self) -> None:
        self.score = Score.parse(SCORE)

    def refused(self, text: str, change: Callable[[Score], object]) -> str:
        with self.assertRaises(EditError) as caught:
            change(Score.parse(text))
        return str(caught.exception)

    def test_layout_stays(self) -> None:
        """Comments, line ends, a mark and what is left out stay."""
        made = (
            self.score.edited()
            .transpose(1)
            .set_header("mode", "2")
            .set_header("book", "a\nb")
            .text()
        )
        self.assertEqual(
            made,
            SCORE.replace("mode: 1", "mode: 2")
            .replace("%% c", "book:\r\n a\r\nb;;\r\n%% c")
            .replace("f.&", "g.&")
            .replace(" gf%x", " hg%x")
            .replace("\r\ng)", "\r\nh)")
            .replace("-e.", "-f.")
            .replace("ixi", "jxj"),
        )

    def test_headers(self) -> None:
        edited = (
            self.score.edited()
            .set_header("name", None)
            .set_header("mode", None)
            .set_header("none", None)
        )
        self.assertEqual(
            edited.text(), SCORE.replace("name:Kyrie ;", "").replace("mode: 1;\r\n", "")
        )
        twice = (
            Score.parse("name: a;\nannotation: b;\nannotation: c;\n%%\n(c4) a(f)")
            .edited()
            .set_header("annotation", "d")
            .text()
        )
        self.assertIn("annotation: b;\nannotation: d;", twice)
        self.assertEqual(
            Score.parse("%%\n").edited().set_header("name", "a").set_header("mode", "1").text(),
            "name: a;\nmode: 1;\n%%\n",
        )
        self.assertEqual(
            self.refused(
                "name: a;\nname: b;\n%%\n", lambda it: it.edited().set_header("name", None).text()
            ),
            "2:1: with it the compiler reads something otherwise",
        )
        self.assertIn(
            "F3",
            self.refused("name: a;\n%%\n", lambda it: it.edited().set_header("x", "a\n%%").text()),
        )
        self.assertIn(
            "otherwise",
            self.refused(
                "%%\na(f|pe)", lambda it: it.edited().set_header("nabc-lines", "1").text()
            ),
        )

    def test_syllables(self) -> None:
        second = self.score.syllables[1]
        self.assertEqual(
            self.score.edited().insert(second, "new(h) ").remove(self.score.syllables[4]).text(),
            SCORE.replace("Ky(", "new(h) Ky(").replace("<b>e</b>(ixi)", ""),
        )
        self.assertEqual(
            self.score.edited().replace(second, "Ký(fg)").insert(second, "x(h)", after=True).text(),
            SCORE.replace("Ky(f.&)", "Ký(fg)x(h)"),
        )

    def test_overlaps(self) -> None:
        glyph = self.score.syllables[2].glyphs[0]
        changes: tuple[Callable[[Edited], Edited], ...] = (
            lambda it: it.replace(glyph, "h").remove(glyph.notes[0]),
            lambda it: it.remove(glyph.notes[1]).replace(glyph, "h"),
            lambda it: it.replace(glyph, "h").insert(glyph.notes[1], "i"),
            lambda it: it.remove(glyph).remove(glyph),
            lambda it: it.transpose(1).remove(glyph.notes[0]),
        )
        for change in changes:
            with self.assertRaisesRegex(EditError, "it is changed already, at 4:"):
                change(self.score.edited())
        self.assertIn(
            "ri( iih%x",
            self.score.edited()
            .insert(glyph, "i")
            .replace(glyph.notes[0], "i")
            .replace(glyph.notes[1], "h")
            .text(),
        )

    def test_texts_that_end_what_they_stand_in(self) -> None:
        for text in ("h)", "h%", "h|", "h[a]%"):
            self.assertRegex(
                self.refused("%%\na(f)", lambda it: it.edited().replace(it.notes[0], text)),
                r"^2:3: a [)%|] would end",
            )
        score = Score.parse("%%\na(f)")
        self.assertEqual(
            score.edited().replace(score.notes[0], "f[x:)%|]").text(), "%%\na(f[x:)%|])"
        )

    def test_objects_of_other_scores(self) -> None:
        with self.assertRaisesRegex(ValueError, "one of another score"):
            self.score.edited().remove(Score.parse(SCORE).notes[0])

    def test_what_is_read_otherwise(self) -> None:
        first: Callable[[Score], Note] = lambda it: it.notes[0]
        self.assertEqual(
            self.refused("%%\na(fg)", lambda it: it.edited().replace(first(it), "h-").text()),
            "2:4: g would be read otherwise",
        )
        self.assertEqual(
            self.refused("%%\na(fx g)", lambda it: it.edited().replace(first(it), "h&").text())[
                :49
            ],
            "2:6: with it something would be left out, at 2:7 ",
        )
        self.assertIn(
            "F6", self.refused("%%\na(fg)", lambda it: it.edited().replace(first(it), "h[").text())
        )
        self.assertIn(
            "would be read otherwise",
            self.refused(
                "%%\na(f) b(g[x])", lambda it: it.edited().replace(first(it), "h[").text()
            ),
        )
        for wrong in ("a(f) %", "a(f", "a[", "<v>", "a"):
            self.assertRegex(
                self.refused(
                    "%%\na(f)b(g) c(h)",
                    lambda it: it.edited().replace(it.syllables[0], wrong).text(),
                ),
                "^2:[15]: .*(otherwise|F6|left out)",
            )
        self.assertEqual(
            self.refused("%%\na(f) b(g", lambda it: it.edited()),
            (
                "2:7: the score is not whole: F6: input ends inside notes, a tag, a raw part or a"
                " translation"
            ),
        )

    def test_nabc(self) -> None:
        text = "nabc-lines: 1;\n%%\n(c4) a(fg|pe|h|vi) b(h|vi)"
        self.assertEqual(
            self.refused(text, lambda it: it.edited().remove(it.notes[0]).text()),
            "3:11: pe would stand over a note that goes",
        )
        score = Score.parse(text)
        nabc = next(
            it
            for snippet in score.syllables[1].snippets
            if isinstance(snippet, NabcSnippet)
            for it in snippet.items
        )
        self.assertEqual(
            score.edited().remove(score.notes[0]).replace(nabc, "vi").text(),
            text.replace("fg|pe", "g|vi"),
        )
        self.assertEqual(
            score.edited().replace(score.notes[0], "gh").text(), text.replace("fg|pe", "ghg|pe")
        )
        self.assertEqual(
            score.edited().remove(score.syllables[1]).text(), text.replace("a(fg|pe|h|vi)", "")
        )

    def test_room(self) -> None:
        self.assertEqual(
            self.refused("%%\n(c4) a(fg) b(p)", lambda it: it.edited().transpose(1)),
            "2:14: there is no room for p",
        )
        self.assertEqual(
            self.refused("%%\n(c4) a(-ag) b(h)", lambda it: it.edited().transpose(-1)),
            "2:8: there is no room for -a",
        )
        self.assertEqual(self.score.edited().transpose(0).text(), SCORE)

    def test_clef(self) -> None:
        """A clef is changed, and the degrees change as they should."""
        clef = next(it for it in self.score.syllables[0].items if isinstance(it, Clef))
        made = Score.parse(self.score.edited().replace(clef, "f3").text())
        self.assertEqual((made.notes[0].degree, made.text), ("re", SCORE.replace("c4", "f3")))

    def test_large(self) -> None:
        """A score of many notes takes no time that grows with their square."""
        text = "%%\n(c4) " + "a(fghgf)e(gh) " * 2_000
        self.assertEqual(
            Score.parse(text).edited().transpose(1).text(),
            text.replace("fghgf", "ghihg").replace("(gh)", "(hi)"),
        )
