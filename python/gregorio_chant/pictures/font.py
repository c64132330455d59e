"""The outlines of a font with GregorioTeX's glyph names, as Greciliae, for the neumes and signs of
a picture. It stands on the package `fontTools`. What the font lacks is drawn in the outlines of the
package."""
from __future__ import annotations

from typing import Any

from fontTools.pens.boundsPen import BoundsPen
from fontTools.pens.svgPathPen import SVGPathPen
from fontTools.pens.transformPen import TransformPen
from fontTools.ttLib import TTFont

from gregorio_chant.errors import GregorioError
from gregorio_chant.pictures.glyphs import CLEFS, glyph_of
from gregorio_chant.pictures.outlines import SQUARE, Face, Outline

# A step of the staff, in the units of outlines.
_STEP = 5.0
# Two widths are the same if they differ by less, since tables round them.
_SAME = 0.01
_MOST_ORIGIN = 2000


class NoFace(GregorioError, ValueError):
    """A file that is no font with GregorioTeX's glyph names."""


class Outlines:
    """The outlines of a font, in tenths of a staff space."""

    def __init__(self, font: Any) -> None:
        self._glyphs = font.getGlyphSet()
        low, high = self.bounds("Punctum")
        self._middle = (low + high) / 2
        self._step = (self.bounds("PesFiveNothing")[1] - self.bounds("PesTwoNothing")[1]) / 3
        self._clef = sum(self.bounds("CClef")) / 2
        if not (self._step > 0 and high > low):
            raise ValueError("no heights")

    def bounds(self, name: str) -> tuple[float, float]:
        """Returns how far a glyph goes down and up."""
        pen = BoundsPen(self._glyphs)
        self._glyphs[name].draw(pen)
        return float(pen.bounds[1]), float(pen.bounds[3])

    def outline(self, name: str, width: float | None = None) -> Outline | None:
        """Returns a glyph as an outline, whose origin is at the middle of its first note, as wide
        as it is told; nothing if the font has none, or a damaged one."""
        if name not in self._glyphs:
            return None
        try:
            return self._read(name, width)
        # A damaged glyph ends fontTools in any way.
        except Exception:
            return None

    def _read(self, name: str, width: float | None) -> Outline:
        unit, middle = _STEP / self._step, self._clef if name in CLEFS else self._middle
        pen = SVGPathPen(self._glyphs, lambda it: f"{it:.2f}".rstrip("0").rstrip("."))
        own = self._glyphs[name].width * unit
        is_other = width is not None and own > 0 and abs(own - width) > _SAME
        stretch = unit * width / own if width is not None and is_other else unit
        self._glyphs[name].draw(TransformPen(pen, (stretch, 0, 0, -unit, 0, middle * unit)))
        low, high = self.bounds(name)
        return Outline(
            pen.getCommands(),
            own if width is None else width,
            (high - middle) * unit + 0.1,
            (middle - low) * unit + 0.1,
        )


class FontFace(Face):
    """The outlines of a font, each as wide as the library takes it to be."""

    def __init__(self, outlines: Outlines, origin: str) -> None:
        self._outlines, self._origin = outlines, origin
        self._read: dict[str, Outline] = {}

    def outline(self, name: str) -> Outline:
        if name not in self._read:
            own, glyph = SQUARE.outline(name), glyph_of(name)
            found = self._outlines.outline(glyph, own.width) if glyph else None
            self._read[name] = found or own
        return self._read[name]

    @property
    def origin(self) -> str:
        return f"{self._origin}\n{super().origin}"


def _origin_of(font: Any) -> str:
    """Returns what a font says of itself: its name and version, whose it is, and its licence."""
    told = [str(font["name"].getDebugName(it) or "").strip() for it in (4, 5, 0, 13, 14)]
    name, *others = told
    return "\n".join([f"Neumes: outlines of the font {name}", *(it for it in others if it)])[
        :_MOST_ORIGIN
    ]


def face_of(path: str) -> Face:
    """Reads a font. Raises `OSError` where the file cannot be read, and `NoFace` where it is no
    font with GregorioTeX's glyph names."""
    with open(path, "rb") as file:
        try:
            font = TTFont(file, lazy=False)
            return FontFace(Outlines(font), _origin_of(font))
        except OSError:
            raise
        # A damaged font ends fontTools in any way.
        except Exception:
            raise NoFace from None
