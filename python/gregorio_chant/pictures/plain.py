"""Square notes in the project's own plain shapes: a neume is put together of heads, stems and
joins, as wide as the library takes its outline to be."""
from __future__ import annotations

import itertools
from collections.abc import Iterator

from gregorio_chant._native.drawings import UNITS
from gregorio_chant.pictures.glyphs import joined_of
from gregorio_chant.pictures.outlines import SQUARE, Face, path_of, table
from gregorio_chant.pictures.sheet import STEP, Head, heads_of

_STEM = 80
# How long the stem of a virga is, and that at the left of a note that falls, with each step.
_VIRGA, _LEFT, _MORE = 1300, 900, 300
# How far the lines beside a note go up and down.
_LINE = 460
# The shape of one note, if it is another one than a punctum: its number and its shape.
_SPECIAL = {
    "pes-quassus": (0, "oriscus-up"),
    "quilisma-pes": (0, "quilisma"),
    "quilisma-pes-quadratum": (0, "quilisma"),
    "clivis-oriscus": (0, "oriscus-down"),
    "torculus-quilisma": (0, "quilisma"),
    "torculus-resupinus-quilisma": (0, "quilisma"),
    "salicus": (1, "oriscus-up"),
}
_TAILS = {"ascendens": "tail-up", "descendens": "tail-down"}
# The shape of outlines of one note that have none of their own.
_SAME = {
    "inclinatum-auctus": "inclinatum",
    "stropha-aucta": "stropha",
    "oriscus-deminutus": "oriscus-down",
    "oriscus-up-scapus": "oriscus-up",
    "oriscus-down-scapus": "oriscus-down",
}


def _rect(x: int, y: int, width: int, height: int) -> str:
    return f'<rect x="{x}" y="{y}" width="{width}" height="{height}"/>'


def _shape(name: str, x: int, y: int, width: int | None = None) -> str:
    """Returns a shape of the project at this place, as wide as it is told."""
    own = table("own").outline(name)
    if own is None:
        raise KeyError(name)
    stretch = UNITS if width is None else round(width / own.width, 1)
    return (
        f'<path transform="translate({x},{y}) scale({stretch:g},{UNITS})" fill-rule="evenodd"'
        f' d="{own.path}"/>'
    )


class PlainFace(Face):
    """The project's own shapes."""

    def element(self, name: str, identifier: str) -> str:
        own = table("own").outline(name)
        if own is not None and own == self.outline(name):
            return path_of(own, f'id="{identifier}"')
        parts = self._joined(name) if joined_of(name) else self._single(name)
        return f'<g id="{identifier}">{"".join(parts)}</g>'

    @property
    def origin(self) -> str:
        return table("own").origin

    def _width(self, name: str) -> int:
        return round(UNITS * SQUARE.outline(name).width)

    def _single(self, name: str) -> Iterator[str]:
        """Yields what an outline of one note, or of a broad stroke, is put together of."""
        width = self._width(name)
        shape = _SAME.get(name, name if table("own").outline(name) else "punctum")
        yield _shape(shape, 0, 0, width)
        if name == "virga":
            yield _rect(width - _STEM, 0, _STEM, _VIRGA)
        elif name.startswith("virga-reversa") or name.endswith("scapus"):
            yield _rect(0, 0, _STEM, _VIRGA)
        elif name == "linea-punctum":
            yield from (_rect(it, -_LINE, _STEM, 2 * _LINE) for it in (0, width - _STEM))
        tail = _TAILS.get(name.rpartition("-")[2])
        if tail is not None:
            yield _shape(tail, width, 0)

    def _joined(self, name: str) -> Iterator[str]:
        """Yields what an outline of several notes is put together of."""
        joined = joined_of(name)
        if joined is None:
            return
        notes = list(heads_of(name, 0, 0, self))
        shapes = ["punctum"] * len(notes)
        if joined.is_debilis:
            shapes[0] = "punctum-deminutus"
        if joined.ending == "deminutus":
            shapes[-1] = "punctum-deminutus"
        at, other = _SPECIAL.get(joined.family, (0, shapes[0]))
        shapes[at] = other
        for head, shape in zip(notes, shapes):
            yield _shape(shape, head.x, head.y, head.width)
        for before, head in itertools.pairwise(notes):
            yield from _between(before, head)
        if joined.rises[0] < 0:
            yield _rect(0, 0, _STEM, _LEFT + _MORE * (notes[1].y // STEP))
        tail = _TAILS.get(joined.ending)
        if tail is not None:
            yield _shape(tail, notes[-1].x + notes[-1].width, notes[-1].y)


def _between(before: Head, head: Head) -> Iterator[str]:
    """Yields what joins a head with the one before it: a line, or a broad stroke if that is
    far."""
    high, low = sorted((before.y, head.y))
    right = head.x + head.width
    if head.x > before.x + before.width + _STEM:
        yield _shape(f"stroke-{(low - high) // STEP}", before.x, before.y, right - before.x)
    elif low - high > STEP or head.x > before.x:
        yield _rect(right - _STEM if head.x <= before.x else head.x, high, _STEM, low - high)
