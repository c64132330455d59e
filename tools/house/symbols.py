"""Makes the tables of outlines of the Python package from gregorio's fonts: symbols.py FONTS
FOLDER. `tools/make_symbols` calls it."""

from __future__ import annotations

import re
import sys
from collections.abc import Callable, Iterator
from pathlib import Path
from typing import Any

from fontTools.pens.boundsPen import BoundsPen
from fontTools.pens.svgPathPen import SVGPathPen
from fontTools.pens.transformPen import TransformPen
from fontTools.ttLib import TTFont

from gregorio_chant.pictures.font import Outlines
from gregorio_chant.pictures.glyphs import glyph_of, joined_of, names
from gregorio_chant.pictures.outlines import Outline

# The glyphs of square notes that scores use: of neumes of two notes all, of longer ones those with
# small steps. What is left out is put together of others.
_STEPS, _SMALL_STEPS = "(?:One|Two|Three|Four|Five)", "(?:One|Two|Three)"
_SQUARE = re.compile(
    "(?:Pes|QuilismaPes|PesQuassus|PesQuadratum|QuilismaPesQuadratum|Flexus|FlexusOriscus)"
    f"{_STEPS}(?:InitioDebilis)?(?:Nothing|Deminutus|Ascendens|Descendens)?"
    "|(?:Torculus|TorculusQuilisma|Porrectus|Scandicus|Salicus)"
    f"(?:{_SMALL_STEPS}{{2}}(?:Deminutus|Ascendens|Descendens)|{_STEPS}{{2}}Nothing)"
    f"|Torculus{_SMALL_STEPS}{{2}}InitioDebilis(?:Deminutus|Descendens)?"
    f"|(?:TorculusResupinus|TorculusResupinusQuilisma|PorrectusFlexus){_SMALL_STEPS}{{3}}Nothing"
    "|(?:TorculusResupinus|PorrectusFlexus)(?:One|Two){3}Deminutus"
)
# The glyphs of neumes: a glyph with its modifiers, one with points at one side, points and letters
# by themselves, and two joined glyphs.
_CODE = "[a-z]{2}[SGMNBT]*[0-9]?"
_POINTS = "(?:su|pp)[a-z]?[0-9]"
_ALONE = f"{_CODE}|(?:{_POINTS})+|l[st][a-z]+N?"
_NEUMES = re.compile(f"{_ALONE}|{_CODE}(?:{_POINTS}){{1,2}}|{_CODE}(?:E{_CODE}){{1,3}}")
# The modern hand, which one has to ask for, has no glyphs of several parts but joined ones.
_FEW_NEUMES = re.compile(f"{_ALONE}|{_CODE}(?:E{_CODE}){{1,3}}")
_NO_NEUMES = frozenset(("la", "ld", "sr"))
# How many numbers a letter of a path takes.
_TAKES = {"M": 2, "L": 2, "H": 1, "V": 1, "Q": 4, "C": 6, "Z": 0}
# How large a neume is: the units of a layout to an em.
_EM = 13.0
# Spellings that the manual has for one neume: each is drawn as the other one, in the hand of St.
# Gall.
_SAME = (
    "ciT clB peT taB vsT taB pfT poB scT peB2 saT peB2 clT viB prT vsB pfG sfM visu2 ci viNsu2 ciN"
    " visu3 ci1 clSsu2 ciG1 visut2 ciS1 vipp2 sc vippt2 scS clpp2 sf clNppt2 sfN clBpp2 sfB"
    " toppt1 sfG clppt2 sfS clppt1 toG viNppt2 scN vipp3 sc1"
)
_LICENSED = (
    "The tables of outlines in this folder stand under this licence.\n"
    "The tables are changed versions of the fonts named in their first lines, and no fonts. They do"
    " not have the reserved names Caeciliae and Greciliae."
)
_HANDS = (
    ("stgall", "Neumes of St. Gall", "gregall"),
    ("modern", "Neumes of St. Gall", "gresgmodern"),
    ("laon", "Neumes of Laon", "grelaon"),
)


class _Path:
    """Writes a path anew, as short as it can be: with places from the point before, rounded to
    `digits` digits, and no letter twice."""

    def __init__(self, digits: int) -> None:
        self._digits, self._scale = digits, 10**digits
        self._written: list[str] = []
        self._at, self._begin, self._last = (0, 0), (0, 0), ""

    def _number(self, value: int) -> str:
        whole, part = divmod(abs(value), self._scale)
        digits = f"{part:0{self._digits}d}".rstrip("0")
        sign = "-" if value < 0 else ""
        before = str(whole) if whole or not digits else ""
        return sign + before + (f".{digits}" if digits else "")

    def _put(self, letter: str, numbers: list[int]) -> None:
        text = "" if letter == self._last and letter not in "mz" else letter
        for value in numbers:
            word = self._number(value)
            is_first = not text and not self._written
            text += word if text[-1:].isalpha() or word[0] == "-" or is_first else f" {word}"
        self._written.append(text)
        self._last = letter

    def of(self, path: str) -> str:
        """Returns a path of the commands M, L, H, V, Q, C and Z; a letter that stands before more
        numbers than it takes goes on for them, and M as L."""
        for letter, words in re.findall("([A-Z])([^A-Z]*)", path):
            numbers = [round(float(it) * self._scale) for it in re.findall("-?[0-9.]+", words)]
            count = _TAKES[letter]
            if letter == "Z":
                self._put("z", [])
                self._at = self._begin
            for at in range(0, len(numbers), count or 1):
                self._go("L" if letter == "M" and at else letter, numbers[at : at + count])
        return "".join(self._written)

    def _go(self, letter: str, numbers: list[int]) -> None:
        x, y = self._at
        if letter in "HV":
            self._put(letter.lower(), [numbers[0] - (x if letter == "H" else y)])
            self._at = (numbers[0], y) if letter == "H" else (x, numbers[0])
            return
        self._put(letter.lower(), [it - (x, y)[at % 2] for at, it in enumerate(numbers)])
        self._at = numbers[-2], numbers[-1]
        self._begin = self._at if letter == "M" else self._begin


def _neume(glyphs: Any, name: str) -> Outline | None:
    """Returns a glyph of a font of neumes, whose ink begins at x 0 and whose line is that of the
    font."""
    bounds, path = BoundsPen(glyphs), SVGPathPen(glyphs, lambda it: f"{it:.3f}")
    glyphs[name].draw(bounds)
    if bounds.bounds is None:
        return None
    left, low, right, high = (float(it) * _EM / 1000 for it in bounds.bounds)
    unit = _EM / 1000
    glyphs[name].draw(TransformPen(path, (unit, 0, 0, -unit, -left, 0)))
    return Outline(path.getCommands(), right - left, high, -low)


def _rows(
    names: Iterator[str], outline_of: Callable[[str], Outline | None], digits: int
) -> Iterator[str]:
    for name in names:
        outline = outline_of(name)
        if outline is not None:
            sizes = (f"{it:.2f}" for it in (outline.width, outline.up, outline.down))
            yield "\t".join((name, *sizes, _Path(digits).of(outline.path)))


def _origin(what: str, font: Any) -> Iterator[str]:
    """Yields what a table says of where its outlines come from: whose they are, and their
    licence."""
    told = str(font["name"].getDebugName(0)).partition("SIL OPEN FONT LICENSE")[0]
    version = str(font["name"].getDebugName(5)).strip()
    head = f"{what}: outlines of a font of gregorio, {version}, of which some are left out."
    lines = [head, *told.split("\n")]
    yield from (f"# {it.strip()}" for it in lines if it.strip() and not re.search("http:|FAQ", it))


def _licence(fonts: Path) -> str:
    """Returns the licence of the outlines, as a font has it, with the names that must not be
    used."""
    told = str(TTFont(fonts / "grelaon.ttf")["name"].getDebugName(0))
    licence = told[told.index("SIL OPEN FONT LICENSE") :].strip()
    return f"{_LICENSED}\n\n{licence}\n"


def main(fonts: Path, folder: Path) -> None:
    """Writes each table into the folder, and the licence beside them."""
    (folder / "OFL.txt").write_text(_licence(fonts), encoding="utf-8")
    square = TTFont(fonts / "greciliae.ttf")
    outlines = Outlines(square)
    chosen = (it for it in names() if joined_of(it) is None or _SQUARE.fullmatch(glyph_of(it)))
    rows = _rows(chosen, lambda it: outlines.outline(glyph_of(it)), 2)
    _write(folder / "square.tsv", [*_origin("Square notes", square), *rows])
    for table, what, file in _HANDS:
        font = TTFont(fonts / f"{file}.ttf")
        _write(folder / f"{table}.tsv", [*_origin(what, font), *_neume_rows(table, font)])


def _neume_rows(table: str, font: Any) -> list[str]:
    """Returns the rows of a hand of neumes."""
    glyphs = font.getGlyphSet()
    chosen = _FEW_NEUMES if table == "modern" else _NEUMES
    found = (it for it in sorted(font.getGlyphOrder()) if chosen.fullmatch(it))
    wanted = (it for it in found if it not in _NO_NEUMES)
    rows = list(_rows(wanted, lambda it: _neume(glyphs, it), 1))
    known = {it.partition("\t")[0] for it in rows}
    pairs = zip(_SAME.split()[::2], _SAME.split()[1::2]) if table != "laon" else ()
    same = (f"{name}\t{it}" for name, it in pairs if it in known and name not in known)
    return [*rows, *same]


def _write(path: Path, lines: list[str]) -> None:
    path.write_text("\n".join(lines) + "\n", encoding="utf-8")


if __name__ == "__main__":
    main(Path(sys.argv[1]), Path(sys.argv[2]))
