"""Tries the faces and hands of pictures: those that come with the package, and `show --font` with a
font of a few rectangles, and with Greciliae where it is there, by the variable GREGORIO_FONT or
from Debian's texlive-music."""
from __future__ import annotations

import os
import re
import unittest
from pathlib import Path
from typing import Any
from xml.etree import ElementTree as Xml

from drawn import KINDS, SVG, groups_of, picture
from support import EXAMPLES, SCORE, InFolder, command, has, without

import gregorio_chant.pictures
from gregorio_chant.pictures.drawing import draw
from gregorio_chant.pictures.glyphs import glyph_of
from gregorio_chant.pictures.look import Look
from gregorio_chant.pictures.outlines import SQUARE, Face, Outlines, table
from gregorio_chant.pictures.plain import PlainFace

GRECILIAE = Path(
    os.environ.get("GREGORIO_FONT")
    or "/usr/share/texlive/texmf-dist/fonts/truetype/public/gregoriotex/greciliae.ttf"
)
SYMBOLS = Path(gregorio_chant.pictures.__file__).with_name("symbols")
# The glyphs of the small font: how far each goes down and up, and its width. A step has 100 units,
# and the middle of a first note is at 50.
_GLYPHS = {
    "Punctum": (0, 100, 120),
    "PesOneNothing": (0, 200, 120),
    "PesTwoNothing": (0, 300, 120),
    "PesFiveNothing": (0, 600, 120),
    "CClef": (-100, 300, 120),
    "Virga": (-200, 100, 120),
    "FlexusOneNothing": (-100, 100, 240),
    "Flat": (0, 300, 100),
    "AscendensOriscus": (0, 110, 120),
    "DescendensOriscus": (-10, 100, 120),
}


def make_font(path: str, glyphs: dict[str, tuple[int, int, int]]) -> None:
    """Writes a font of rectangles."""
    from fontTools.fontBuilder import FontBuilder
    from fontTools.pens.ttGlyphPen import TTGlyphPen

    def outline(down: int, up: int, width: int) -> Any:
        pen = TTGlyphPen(None)
        pen.moveTo((0, down))
        for corner in ((0, up), (width, up), (width, down)):
            pen.lineTo(corner)
        pen.closePath()
        return pen.glyph()

    builder = FontBuilder(1000, isTTF=True)
    builder.setupGlyphOrder([".notdef", *glyphs])
    builder.setupCharacterMap({})
    builder.setupGlyf(
        {".notdef": outline(0, 1, 1), **{name: outline(*it) for name, it in glyphs.items()}}
    )
    builder.setupHorizontalMetrics(
        {".notdef": (1, 0), **{name: (it[2], 0) for name, it in glyphs.items()}}
    )
    builder.setupHorizontalHeader()
    builder.setupNameTable(
        {
            "familyName": "Small",
            "styleName": "Regular",
            "fullName": "Small </metadata>",
            "version": "Version 7",
            "licenseDescription": "Free & <open>",
        }
    )
    builder.setupPost()
    builder.save(path)


@unittest.skipUnless(has("fontTools"), "there is no fontTools")
class SmallFont(InFolder):
    def setUp(self) -> None:
        super().setUp()
        make_font("small.ttf", _GLYPHS)

    def face(self) -> Face:
        from gregorio_chant.pictures.font import face_of

        return face_of("small.ttf")

    def test_outlines(self) -> None:
        """What the font has is one outline, in the units of the picture, as wide as the package's
        and each once; what it lacks is the package's."""
        self.put("a.gabc", "name: x;\n%%\n(c4) a(fg) b(gf) c(fv) d(fg) e(fgh) f(fr) g(ix)\n")
        ran = command("show", "--svg", "--font", "small.ttf", "a.gabc")
        self.assertEqual((ran.returncode, ran.stderr), (0, b""))
        root = Xml.fromstring(ran.stdout)
        shapes = {it.get("id"): it.get("d") for it in root.iter(f"{SVG}path") if it.get("id")}
        self.assertEqual(
            set(shapes),
            {"pes-100", "clivis-100", "virga", "scandicus-110", "cavum", "c-clef", "flat"},
        )
        for name, down, up in (("pes-100", "2.5", "-7.5"), ("c-clef", "10", "-10")):
            width = f"{SQUARE.outline(name).width:g}"
            self.assertEqual(shapes[name], f"M0 {down}V{up}H{width}V{down}Z")
        for name in ("scandicus-110", "cavum"):
            self.assertEqual(shapes[name], SQUARE.outline(name).path)
        told = root.findtext(f"{SVG}metadata") or ""
        self.assertTrue(
            told.startswith(
                "Neumes: outlines of the font Small </metadata>\nVersion 7\nFree & <open>\n"
            )
        )
        page = command("show", "--font", "small.ttf", "a.gabc").stdout.decode()
        self.assertEqual(
            (page.count('id="p1-pes-100"'), page.count("Free &amp; &lt;open&gt;")), (1, 2)
        )

    def test_refused(self) -> None:
        """What is no such font is refused before anything is written; one that is damaged ends with
        a line, or draws what it has."""
        self.put("a.gabc", SCORE)
        self.put("text.ttf", "no font")
        make_font("other.ttf", {"A": (0, 100, 100)})
        whole = Path("small.ttf").read_bytes()
        for font, status in (("text.ttf", 3), ("other.ttf", 3), ("no.ttf", 4), (".", 4)):
            ran = command("show", "-o", "page.html", "--font", font, "a.gabc")
            self.assertEqual(
                (ran.returncode, ran.stderr.count(b"\n"), Path("page.html").exists()),
                (status, 1, False),
                font,
            )
        for at in range(0, len(whole), 97):
            self.put("bent.ttf", whole[:at] + bytes([whole[at] ^ 0x5A]) + whole[at + 1 :])
            ran = command("show", "--svg", "--font", "bent.ttf", "a.gabc")
            self.assertIn(ran.returncode, (0, 3), at)
            self.assertLessEqual(ran.stderr.count(b"\n"), 1)

    def test_missing(self) -> None:
        self.put("a.gabc", SCORE)
        ran = command(
            "show", "--font", "small.ttf", "a.gabc", environment=without(self.room, "fontTools")
        )
        told = (
            b"gregorio-chant: show --font needs the package fonttools: apt install"
            b" python3-fonttools in Debian, else pip install fonttools\n"
        )
        self.assertEqual((ran.returncode, ran.stdout, ran.stderr), (3, b"", told))


class Square(unittest.TestCase):
    """The face that comes with the package."""

    face: Face = SQUARE

    def test_all_outlines(self) -> None:
        """Each outline is an element by its name, and is as wide in each face."""
        for name in {*table("square"), *table("own")}:
            root = Xml.fromstring(self.face.element(name, "x"))
            self.assertEqual(root.get("id"), "x")
            paths = [it for it in root.iter() if it.tag == "path"]
            self.assertGreater(len(paths), 0)
            self.assertAlmostEqual(
                self.face.outline(name).width, SQUARE.outline(name).width, 2, name
            )

    def test_licence(self) -> None:
        svg = draw((EXAMPLES / "kyrie.gabc").read_bytes(), look=Look(face=self.face)).svg
        self.assertRegex(svg, "(?s)<metadata>.*(SIL Open Font License|MIT).*</metadata>")
        ids = re.findall(r' id="([^"]*)"', svg)
        self.assertEqual(len(ids), len(set(ids)))

    def test_kinds(self) -> None:
        """Each kind of neume is drawn, in outlines that the picture has."""
        notes = " ".join(KINDS.values()).replace("wg", "fwg")
        root = Xml.fromstring(picture(f"name: x;\n%%\n(c4) a({notes})\n", Look(face=self.face)))
        held = {it.get("id") for it in root.iter() if it.get("id")}
        used = {it.get("href", "")[1:] for it in root.iter(f"{SVG}use")}
        self.assertLessEqual(used, held)
        self.assertGreater(len(used), 40)


class Plain(Square):
    """The project's own shapes."""

    face = PlainFace()

    def test_put_together(self) -> None:
        """A neume has a head for each note, and what joins them."""
        for name, count, lines in (
            ("pes-100", 2, 0),
            ("pes-200", 2, 1),
            ("clivis-100", 2, 2),
            ("torculus-110", 3, 2),
            ("porrectus-110", 4, 1),
            ("virga", 1, 1),
            ("linea-punctum", 1, 2),
            ("punctum-ascendens", 2, 0),
        ):
            root = Xml.fromstring(self.face.element(name, "x"))
            found = len(root.findall("path")), len(root.findall("rect"))
            self.assertEqual(found, (count, lines), name)


@unittest.skipUnless(
    has("fontTools") and GRECILIAE.exists(), "there is no fontTools, or no Greciliae"
)
class Greciliae(Square):
    """The font of which it was made."""

    @classmethod
    def setUpClass(cls) -> None:
        from gregorio_chant.pictures.font import face_of

        cls.face = face_of(str(GRECILIAE))

    def test_same_outlines(self) -> None:
        """What the package has of the font is as the font has it, within a hundredth of a unit."""
        for name in ("pes-100", "inclinatum", "c-clef", "porrectus-210"):
            ours, theirs = SQUARE.outline(name), self.face.outline(name)
            for here, there in zip(ours[1:], theirs[1:]):
                self.assertAlmostEqual(float(here), float(there), 1)
            self.assertEqual(_ends(ours.path), _ends(theirs.path), name)


def _ends(path: str) -> list[tuple[int, int]]:
    """Returns where the commands of a path end, in tenths of a unit."""
    x = y = 0.0
    begin = (0.0, 0.0)
    ends: list[tuple[int, int]] = []
    for letter, words in re.findall("([A-Za-z])([^A-Za-z]*)", path):
        numbers = [float(it) for it in re.findall(r"-?(?:[0-9]+\.?[0-9]*|\.[0-9]+)", words)]
        takes = {"M": 2, "L": 2, "H": 1, "V": 1, "Q": 4, "Z": 0}[letter.upper()]
        for at in range(0, len(numbers), takes or 1):
            last = numbers[at : at + takes]
            from_here = letter.islower()
            if letter.upper() in "HV":
                x, y = (
                    (last[0] + x * from_here, y)
                    if letter.upper() == "H"
                    else (x, last[0] + y * from_here)
                )
            else:
                x, y = last[-2] + x * from_here, last[-1] + y * from_here
            begin = (x, y) if letter.upper() == "M" and not at else begin
            ends.append((round(x * 10 + 0.01), round(y * 10 + 0.01)))
        if letter.upper() == "Z":
            x, y = begin
    return ends


class Tables(unittest.TestCase):
    def test_tables(self) -> None:
        """Each table says where it is from, and each of its paths is whole and within its
        bounds."""
        for name in ("square", "stgall", "modern", "laon"):
            symbols = table(name)
            self.assertIn("SIL Open Font License", symbols.origin)
            names = [
                it.split("\t")[0]
                for it in (SYMBOLS / f"{name}.tsv").read_text().split("\n")
                if "\t" in it
            ]
            self.assertGreater(len(names), 200)
            self.assertEqual(len(names), len(set(names)))
            for it in names:
                shape = symbols.outline(it)
                assert shape is not None
                self.assertRegex(shape.path, r"^m[-0-9. mlhvqcz]+z$", it)
                ys = [y / 10 for _, y in _ends(shape.path)]
                self.assertTrue(
                    -shape.up - 0.2 <= min(ys) and max(ys) <= shape.down + 0.2, (name, it)
                )
        self.assertIn("SIL OPEN FONT LICENSE", (SYMBOLS / "OFL.txt").read_text())
        self.assertIsNone(table("square").outline("none"))
        self.assertTrue(all(glyph_of(it) for it in table("square")))


class Hands(unittest.TestCase):
    def neumes(self, nabc: str, hand: str = "auto") -> tuple[list[str], list[str]]:
        """Returns the outlines and the texts over the staff of a syllable with this NABC."""
        score = f"name: x;\nnabc-lines: 1;\n%%\n(c4) a(f) b(fg|{nabc})\n"
        svg = draw(score.encode(), (), look=Look(hand=hand)).svg
        group = groups_of(Xml.fromstring(svg))[2]
        texts = [it.text or "" for it in group.iter(f"{SVG}text") if it.get("font-size") != "1600"]
        uses = [it for it in group.iter(f"{SVG}use") if it.get("class") == "nabc"]
        return [(it.get("href") or "")[1:] for it in uses], texts

    def test_outlines(self) -> None:
        """A descriptor is drawn in the hand of St. Gall; what that lacks is its text."""
        for nabc, drawn in (
            ("vi", ["stgall-vi"]),
            ("cl-", ["stgall-clN"]),
            ("pe>", ["stgall-peB"]),
            ("vi/cl", ["stgall-vi", "stgall-cl"]),
        ):
            self.assertEqual(self.neumes(nabc), (drawn, []), nabc)
        self.assertEqual(self.neumes("sa>1"), ([], ["sa>1"]))

    def test_hands(self) -> None:
        """Another hand is drawn if it is asked for, as far as it has outlines; as text NABC stands
        as it is spelled."""
        self.assertEqual(self.neumes("un"), (["laon-un"], []))
        self.assertEqual(self.neumes("vi", "laon"), (["laon-vi"], []))
        self.assertEqual(self.neumes("vi", "modern"), (["modern-vi"], []))
        self.assertEqual(self.neumes("un", "stgall")[0], ["laon-un"])
        self.assertEqual(self.neumes("vi/cl>", "text"), ([], ["vi/cl>"]))
        self.assertEqual(self.neumes("vi/sa>1", "text"), ([], ["vi/sa>1"]))

    def test_spelled_side_by_side(self) -> None:
        """As text the NABC of a row stands on one line, and none reaches over the next one."""
        score = b"name: x;\nnabc-lines: 1;\n%%\n(c4) a(f|talsi8lsc2) b(g|vihn) c(h|pe) d(i|ta)\n"
        svg = draw(score, (), look=Look(hand="text")).svg
        groups = groups_of(Xml.fromstring(svg))[1:]
        texts = [
            it for group in groups for it in group.iter(f"{SVG}text") if it.get("y", "")[0] == "-"
        ]
        self.assertEqual([it.text for it in texts], ["talsi8lsc2", "vihn", "pe", "ta"])
        self.assertEqual(len({it.get("y") for it in texts}), 1)
        begins = [
            int(re.findall(r"-?\d+", it.get("transform", ""))[0]) + int(text.get("x", ""))
            for it, text in zip(groups, texts)
        ]
        room = begins[1] - begins[0]
        self.assertLess(int(texts[0].get("textLength", "")), room)
        self.assertEqual([it.get("textLength") for it in texts[2:]], [None, None])

    def test_titles(self) -> None:
        """NABC has its spelling and its names as a title."""
        svg = draw(b"name: x;\nnabc-lines: 1;\n%%\n(c4) b(fg|vi)\n").svg
        (nabc,) = [it for it in Xml.fromstring(svg).iter(f"{SVG}g") if it.get("class") == "nabc"]
        self.assertEqual(nabc.findtext(f"{SVG}title"), "vi: virga")

    def test_names(self) -> None:
        self.assertEqual(Outlines(hand="laon").named("stgall-vi"), "laon-vi")
        self.assertEqual(Outlines(hand="laon").named("punctum"), "punctum")
        self.assertIn("gregall", Outlines().origins(["stgall-vi"]))


if __name__ == "__main__":
    unittest.main()
