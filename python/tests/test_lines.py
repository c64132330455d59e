"""Tries where rows of a picture are broken, how they are spread, and the initial before the first
one."""
from __future__ import annotations

import unittest
from collections.abc import Sequence
from xml.etree import ElementTree as Xml

from drawn import SVG, picture, rows_of, rows_with, signs_of, texts_in

from gregorio_chant.pictures.alone import MARGIN, drawn_picture
from gregorio_chant.pictures.look import Look
from gregorio_chant.pictures.outlines import Outlines
from gregorio_chant.pictures.sheet import TEXT_SIZE, Row, boxes, sheet_of

_CUSTOS = 900


def counts(rows: Sequence[Row]) -> list[int]:
    """Returns how many syllables with notes or texts stand in each row."""
    return [sum(bool(it.content) for it in row.groups) for row in rows]


def right_of(row: Row) -> int:
    """Returns how far the syllables of a row go to the right."""
    outlines = Outlines()
    return max(group.x + it.right for group in row.groups for it in boxes(group.content, outlines))


def texts_of(score: str, look: Look = Look()) -> dict[str, str]:
    """Returns the size of each text of a picture."""
    texts = Xml.fromstring(picture(score, look)).iter(f"{SVG}text")
    return {it.text or "": it.get("font-size", "") for it in texts}


class Breaks(unittest.TestCase):
    def test_no_syllable_alone(self) -> None:
        """Before an end that is asked for no syllable stands alone, whatever the length of what
        comes before it."""
        for count in range(10, 60):
            for end in ("(z)", "(::z)", "(Z)", "(::)"):
                rows = rows_with("la(f) " * count + end + " mi(g) fa(g) sol(g)", 344.0)
                texts = [sum("<text" in it.content for it in row.groups) for row in rows]
                self.assertGreater(min(texts), 2, (count, end, texts))

    def test_rows_are_spread(self) -> None:
        """Each row but the last one of a stretch goes up to the custos."""
        rows = rows_with("Ky(f)ri(gfg)e(e.) le(gh)i(f)son(e) " * 16, 400.0)
        self.assertGreater(len(rows), 4)
        end = 40_000 - 2 * MARGIN - _CUSTOS
        for row in rows[:-1]:
            self.assertAlmostEqual(right_of(row), end, delta=60)
        self.assertLess(right_of(rows[-1]), end)

    def test_ragged_end(self) -> None:
        """`Z` leaves its row as it is, and `z` spreads it if not too much of it is empty."""
        ragged, justified = (
            rows_with("la(f) " * 17 + f"({end}) " + "la(f) " * 13, 424.0)[0] for end in "Zz"
        )
        self.assertLess(right_of(ragged), 38_000)
        self.assertAlmostEqual(right_of(justified), 40_000 - _CUSTOS, delta=60)

    def test_at_bars(self) -> None:
        """A row ends rather at a bar."""
        rows = rows_with("la(f) la(f) la(f) la(f) la(f) la(f) la(f) la(f) (,) " * 6, 344.0)
        at_bar = ["<text" not in row.groups[-1].content for row in rows]
        self.assertGreater(sum(at_bar), len(rows) / 2)

    def test_many_syllables(self) -> None:
        """What is longer than is looked at together is whole and in order."""
        rows = rows_with("la(f) " * 2500, 524.0)
        begins = [it.begin for row in rows for it in row.groups if it.end]
        self.assertEqual((len(begins), begins), (2501, sorted(begins)))
        self.assertLess(max(counts(rows)) - min(counts(rows[:-1])), 6)

    def test_translation_is_not_cut(self) -> None:
        """A translation ends within its row, and its end, `[/]`, is drawn as nothing."""
        for row in rows_with(
            "la[For he hath regarded](f) le(g) li[the lowliness](f) lo(g) lu[/](h) " * 3, 354.0
        ):
            for group in row.groups:
                for x, _, width, letters in texts_in(group.content):
                    self.assertLessEqual(group.x + x + width, 35_400 - 2 * MARGIN)
                    self.assertNotEqual(letters, "/")

    def test_custos(self) -> None:
        """At a row's end stands the custos of the next note, and at its beginning the clef in
        force."""
        rows = rows_of("name: x;\n%%\n(c4) a(f) b(g) (z) c(j) (z-) d(e) (f3) e(f) (Z+) g(g)\n")
        signs = [[it for it in signs_of(row.signs) if it.name] for row in rows]
        self.assertEqual(
            [[(it.name, it.y) for it in row if it.name.startswith("custos")] for row in signs],
            [[("custos-down", -3000)], [], [("custos-up", -1500)], []],
        )
        self.assertEqual(
            [[it.name for it in row if it.name.endswith("clef")] for row in signs],
            [[], ["c-clef"], ["c-clef"], ["f-clef"]],
        )

    def test_custos_over_a_row(self) -> None:
        """The next note need not stand in the next row."""
        rows = rows_of("name: x;\n%%\n(c4) a(f) (z) b() (z) c(g)\n")
        signs = [[it.name for it in signs_of(row.signs)] for row in rows]
        self.assertEqual([row.count("custos-up") for row in signs], [1, 1, 0])

    def test_spans(self) -> None:
        """What is in `<nlba>` stays in one row, where there is room."""
        text = "la(f) " * 14 + "<nlba>" + "lu(g) " * 8 + "x</nlba>(g)" + " la(f)" * 14
        rows = rows_with(text, 344.0)
        self.assertGreater(len(rows), 2)
        self.assertEqual(sum(">lu<" in "".join(it.content for it in row.groups) for row in rows), 1)


class Initials(unittest.TestCase):
    SCORE = "name: x;\nannotation: Ant.;\nannotation: VII;\n{}%%\n(c4) KY(f)ri(gfg)e(e.) (::)\n"

    def test_letter(self) -> None:
        """The first letter stands before the staff, with the annotations over it, and the next one
        stays a capital."""
        texts = texts_of(self.SCORE.format(""))
        self.assertEqual(
            [texts[it] for it in ("K", "Ant.", "VII", "Y")], ["4600", "1200", "1200", "1600"]
        )
        (row,) = rows_of(self.SCORE.format(""))
        begin = Xml.fromstring(f"<g>{row.signs}</g>").findall("rect[@class='staff']")[0].get("x")
        self.assertGreater(int(begin or 0), 3000)

    def test_no_overlap(self) -> None:
        """No annotation touches the letter or another one."""
        for style in ("", "initial-style: 2;\n"):
            (row, *_) = rows_of(self.SCORE.format(style) + "la(f) " * 40, 400.0)
            found = [it for it in boxes(row.signs, Outlines()) if it.size and it.size != TEXT_SIZE]
            bands = sorted((it.top, it.bottom) for it in found)
            for (_, end), (begin, _) in zip(bands, bands[1:]):
                self.assertLess(end, begin)

    def test_styles(self) -> None:
        """`initial-style` says before how many rows it stands, and `--no-initial` takes it away:
        then the annotations stand over the score."""
        for style, size in (("0", None), ("1", "4600"), ("2", "9200"), ("x", "4600")):
            texts = texts_of(self.SCORE.format(f"initial-style: {style};\n"))
            self.assertEqual(texts.get("K"), size, style)
        without = texts_of(self.SCORE.format(""), Look(has_initial=False))
        self.assertIn("KY", without)
        self.assertTrue({"Ant. VII", "Ant.", "VII"} & set(without))
        kept = picture(self.SCORE.format("initial-style: 2;\n"), Look(has_initial=False))
        self.assertNotIn('font-size="9200"', kept)

    def test_without_it_places_stay(self) -> None:
        """Without the initial each syllable has the bytes that it has with it."""
        score = self.SCORE.format("")
        places = [
            [
                (it.get("id"), it.get("data-begin"), it.get("data-end"))
                for it in Xml.fromstring(picture(score, Look(has_initial=has))).iter(f"{SVG}g")
                if it.get("class") == "syllable"
            ]
            for has in (True, False)
        ]
        self.assertEqual(places[0], places[1])
        self.assertEqual(len(places[0]), 5)

    def test_what_is_no_letter(self) -> None:
        for text in ("1.", "<sp>V/</sp>.", "*"):
            texts = texts_of(self.SCORE.format("").replace("KY", text))
            self.assertNotIn("4600", texts.values(), text)

    def test_mode(self) -> None:
        """Without annotations the mode stands there (GregorioRef, Mode Headers)."""
        for headers, wanted in (
            ("mode: 6;", "VI"),
            ("mode: 4A;", "IVA"),
            ("mode: 8;\nmode-modifier: -t.;\nmode-differentia: G*;", "VIII-t.\u2009G*"),
            ("mode: t. irregularis;", "t. irregularis"),
        ):
            svg = drawn_picture(f"name: x;\n{headers}\n%%\n(c4) Ky(f)ri(g)\n", 400.0)
            (row,) = sheet_of(svg.encode()).rows
            letters = "".join(it[3] for it in texts_in(row.signs) if it[3] not in ("-", "K"))
            self.assertEqual(letters, wanted)
        self.assertNotIn("I", texts_of("name: x;\nmode: 1;\nannotation: ;\n%%\n(c4) Ky(f)ri(g)\n"))


if __name__ == "__main__":
    unittest.main()
