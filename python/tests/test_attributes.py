"""Tries what attributes of notes ask a picture for."""
from __future__ import annotations

import re
import unittest
from xml.etree import ElementTree as Xml

from drawn import SVG, height_of, picture, rows_with, signs_of, texts_in

from gregorio_chant.pictures.sheet import Row

_MM = 365
_CURVE = re.compile(r'<path class="curve" d="M(-?\d+),(-?\d+)q(-?\d+),(-?\d+) (-?\d+),(-?\d+)"')


def row_of(notes: str, width: float = 700.0) -> Row:
    return rows_with(notes, width)[0]


def curves_of(notes: str) -> list[tuple[int, ...]]:
    """Returns the pieces of curves: where each begins, how it bends, and to where it goes."""
    return [tuple(map(int, it)) for it in _CURVE.findall(row_of(notes).signs)]


class Curves(unittest.TestCase):
    def test_sizes(self) -> None:
        """A curve is as wide and as high as it is told, over the notes or under them."""
        for notes, over, width in (
            ("a(f[oslur:0;5mm,2mm]g)", True, 5),
            ("a(f[uslur:0;1cm,2mm]g)", False, 10),
            ("a(f[ob:1;6mm]g)", True, 6),
            ("a(f[ub:0;8mm]g)", False, 8),
        ):
            ((_, y, _, bend, long, _),) = curves_of(notes)
            self.assertAlmostEqual(long, width * _MM, delta=5)
            self.assertTrue(y < height_of("f") and bend < 0 if over else y > -1000 and bend > 0)
        ((*_, bend, _, _),) = curves_of("a(f[oslur:0;5mm,2mm]g)")
        self.assertAlmostEqual(-bend, 2 * 2 * _MM, delta=5)
        for notes in ("a(f[ocb:1;4mm]g)", "a(f[ocba:1;4mm]g)"):
            pieces = curves_of(notes)
            self.assertGreater(len(pieces), 2)
            self.assertAlmostEqual(pieces[3][0] + pieces[3][4] - pieces[0][0], 4 * _MM, delta=60)

    def test_beginnings(self) -> None:
        """A slur begins at the right of its note, or a punctum or half of one to the left."""
        right, left, half = (curves_of(f"a(f[oslur:{it};5mm,2mm] g)")[0][0] for it in "012")
        self.assertAlmostEqual(right - left, 526, delta=60)
        self.assertAlmostEqual(right - half, 263, delta=30)

    def test_two_ends(self) -> None:
        """A curve goes from where it is opened to where it is closed, on one row; one that stays
        open is left out."""
        self.assertEqual(len(curves_of("a(f[oslur:0{]g) b(h) c(j[oslur:0}]k)")), 1)
        for notes in ("a(f[oslur:0{]g)", "a(f[oslur:0}]g)", "a(f[oslur:0{]g) b(h[uslur:0}])"):
            self.assertEqual(curves_of(notes), [], notes)

    def test_within_the_row(self) -> None:
        ((x, _, _, _, long, _),) = curves_of("a(f[oslur:0;900mm,2mm]g)")
        self.assertLessEqual(x + long, 70_000 - 2 * 1200)

    def test_drawn(self) -> None:
        svg = picture("name: x;\n%%\n(c4) a(f[oslur:0;5mm,2mm]g) b(h[ub:1;99999999999mm])\n")
        paths = Xml.fromstring(svg).iter(f"{SVG}path")
        self.assertEqual(len([it for it in paths if it.get("class") == "curve"]), 2)


class Others(unittest.TestCase):
    def test_ledger_lines(self) -> None:
        for notes, y in (("a(j[oll:1mm;2mm]i)", -4000), ("a(e[ull:1;2mm]f)", 1000)):
            found = signs_of(row_of(notes).groups[1].content)
            self.assertEqual([it.y + 35 for it in found if it.height == 70], [y], notes)

    def test_texts(self) -> None:
        """A choral sign stands over its note, and a text over the staff in the row of such
        texts."""
        texts = {it[3]: it[1] for it in texts_in(row_of("a(f[cs:t]g[alt:rit.])").groups[1].content)}
        self.assertLess(texts["t"], height_of("f"))
        self.assertLess(texts["rit."], -3000)

    def test_no_custos(self) -> None:
        for notes, custodes in (
            ("a(f) (z) b(g)", 1),
            ("a(f[nocustos]) (z) b(g)", 0),
            ("a(f[nocustos] z) b(g)", 0),
            ("a(f[nocustos]g z) b(g)", 0),
        ):
            found = [it for it in signs_of(row_of(notes).signs) if it.name.startswith("custos")]
            self.assertEqual(len(found), custodes, notes)


if __name__ == "__main__":
    unittest.main()
