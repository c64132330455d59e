"""Compares the picture of the library with places that are kept in `drawings.txt`: those of heads,
signs, stems, bars and texts of the examples at three widths, as the package drew them by itself
when it still did.

Left out is what differed on purpose. NABC was drawn in another way; a barred letter is one
character in the library's picture; a row that ended with an empty syllable, as `(z)`, was short,
and the syllables of `<eu>` and `<nlba>` counted as one where a row was looked at that has few. So
NABC, these ends and tags are taken out of the scores."""
from __future__ import annotations

import re
import unittest
from collections.abc import Iterable, Iterator
from pathlib import Path
from typing import NamedTuple
from xml.etree import ElementTree

from support import EXAMPLES

from gregorio_chant._native.drawings import UNITS, drawn
from gregorio_chant.pictures.glyphs import SIGNS

KEPT = Path(__file__).with_name("drawings.txt")
# How far two places may lie apart, in pixels: a hundredth of a space of the staff, and what a
# rounding makes of it; along a row what the roundings of its gaps add up to.
APART, APART_IN_ROW = 0.11, 0.25
_ON_PURPOSE = re.compile(rb"\s*\([zZ][0+-]?\)|<sp>[RV]/</sp>|</?(?:eu|nlba)>")
_NABC_LINES = re.compile(rb"nabc-lines: *([1-4]);")
_NOTES = re.compile(rb"\(([^)]*)\)")
_SVG = "{http://www.w3.org/2000/svg}"
_MOVED = re.compile(r"translate\((-?[0-9.]+),(-?[0-9.]+)\)")


class Thing(NamedTuple):
    """A thing of a picture: its name, where it stands, its size if it is a rectangle, that of its
    type and its letters if it is a text."""

    name: str
    x: float
    y: float
    width: float = 0.0
    height: float = 0.0
    letters: str = ""

    def is_near(self, other: Thing) -> bool:
        """Returns whether another thing is the same at the same place. Of a text this one may be
        the beginning: the library parts some texts in two."""
        pairs = zip(self[2:5], other[2:5])
        return (
            self.name == other.name
            and other.letters.startswith(self.letters)
            and abs(self.x - other.x) <= APART_IN_ROW
            and all(abs(one - two) <= APART for one, two in pairs)
        )


def looked_at(score: bytes) -> bytes:
    """Returns a score without what is left out of the comparison."""
    found = _NABC_LINES.search(score)
    if found:
        of_notes = slice(None, None, int(found[1]) + 1)
        head, mark, body = score.partition(b"%%\n")
        notes = _NOTES.sub(lambda it: b"(%s)" % b"".join(it[1].split(b"|")[of_notes]), body)
        score = head + mark + notes
    return _ON_PURPOSE.sub(b"", score)


def _here(element: ElementTree.Element, x: float, y: float) -> Iterator[Thing]:
    """Yields the thing that an element is, in a group at this place."""

    def number(name: str) -> float:
        return float(element.get(name, "0")) / UNITS

    x, y = x + number("x"), y + number("y")
    if element.tag == f"{_SVG}use":
        name = element.get("href", "").lstrip("#")
        yield Thing(name if name in SIGNS else "head", x, y)
    elif element.tag == f"{_SVG}rect" and not element.get("class"):
        yield Thing("rect", x, y, number("width"), number("height"))
    elif element.tag == f"{_SVG}text" and (element.text or "").strip():
        yield Thing("text", x, y, 0.0, number("font-size"), "".join((element.text or "").split()))


def things_of(element: ElementTree.Element, x: float = 0.0, y: float = 0.0) -> Iterator[Thing]:
    """Yields the heads, signs, rectangles and texts of a picture, in pixels; not those over all
    rows."""
    found = _MOVED.match(element.get("transform", ""))
    if found:
        x, y = x + float(found[1]) / UNITS, y + float(found[2]) / UNITS
        for it in element:
            yield from _here(it, x, y)
    for it in element:
        if it.tag == f"{_SVG}g":
            yield from things_of(it, x, y)


def kept_things() -> dict[str, list[Thing]]:
    """Returns the things that are kept, by the name of the example and the width."""
    kept: dict[str, list[Thing]] = {}
    things: list[Thing] = []
    for line in KEPT.read_text(encoding="utf-8").splitlines():
        name, *words = line.split(" ")
        if name == "score":
            things = kept.setdefault(" ".join(words), [])
        else:
            x, y, width, height = (*(float(it) for it in words[:4]), 0.0, 0.0)[:4]
            things.append(Thing(name, x, y, width, height, "".join(words[4:])))
    return kept


def _lonely(wanted: list[Thing], made: list[Thing]) -> tuple[list[Thing], list[Thing]]:
    """Returns the things that are wanted and not made at their places, and those that are made
    beside them; of texts only those that begin no wanted one."""
    left: dict[tuple[str, int], list[Thing]] = {}
    for it in made:
        left.setdefault((it.name, round(it.y)), []).append(it)
    lacking = []
    for thing in wanted:
        rows = [left.get((thing.name, round(thing.y) + it), []) for it in (0, -1, 1)]
        near = next(((row, it) for row in rows for it in row if it.is_near(thing)), None)
        if near is None:
            lacking.append(thing)
        else:
            near[0].remove(near[1])
    return lacking, [it for row in left.values() for it in row if it.name != "text"]


def _letters(things: Iterable[Thing]) -> str:
    """Returns the letters of all texts but hyphens, in any order."""
    return "".join(sorted("".join(it.letters for it in things if it.letters != "-")))


class Drawings(unittest.TestCase):
    def test_places(self) -> None:
        """The picture of each example has all things at the places that are kept, and no other
        ones."""
        kept = kept_things()
        self.assertEqual(len({it.rpartition(" ")[0] for it in kept}), 10)
        for what, wanted in kept.items():
            name, _, width = what.rpartition(" ")
            with self.subTest(score=name, width=width):
                score = looked_at((EXAMPLES / f"{name}.gabc").read_bytes())
                root = ElementTree.fromstring(drawn(score, float(width)))
                made = list(things_of(root))
                self.assertGreater(len(wanted), 15)
                self.assertEqual(_lonely(wanted, made), ([], []))
                self.assertEqual(_letters(made), _letters(wanted))


if __name__ == "__main__":
    unittest.main()
