"""A picture that stands alone: what the library draws, with the outlines that it names."""
from __future__ import annotations

import re
from collections.abc import Collection
from html import escape

from gregorio_chant._native.drawings import UNITS, drawn
from gregorio_chant._native.results import ShownMessages
from gregorio_chant.objects.score import Score
from gregorio_chant.pictures.outlines import Outlines

USUAL_WIDTH = 720.0
# What stands at each side of a picture, in units of the library.
MARGIN = 1200
FACES = "'Linux Libertine O', 'Libertinus Serif', 'Times New Roman', serif"
# The style of pictures: a file of its own holds it, a page has it once.
STYLE = (
    f".chant{{color:#000;fill:currentColor;font-family:{FACES}}}.chant .paper{{fill:#fff}}"
    ".chant .staff{fill:#a43}.chant .red{fill:#b00}"
    ".chant .curve{fill:none;stroke:currentColor;stroke-width:90}"
    ".chant .mark{fill:#c00;fill-opacity:.09;stroke:#c00;stroke-width:70}"
    ".chant .mark.w{fill:#960;stroke:#960;stroke-dasharray:300 200}"
    ".chant .code{fill:#a00;font:bold 900px sans-serif}"
)
# The beginning of a picture of the library. No text of a score holds a `<`.
ROOT = re.compile(r'<svg ([^>]*viewBox="0 0 (\d+) (\d+)"[^>]*)>(?:<title>([^<]*)</title>)?')
USE = re.compile('<use href="#([A-Za-z0-9-]+)"')


# A barred letter at the beginning of a text: few faces have it.
_BARRED = re.compile(r'<text x="(-?\d+)" y="(-?\d+)" font-size="(\d+)"([^>]*)>([\u211f\u2123])')
_LETTERS = {"\u211f": "R", "\u2123": "V"}


def _letter_with_bar(found: re.Match[str]) -> str:
    """Returns the beginning of a text with a letter that is barred by a path."""
    x, y, size = (int(it) for it in found.groups()[:3])
    rise, height, thick = 2 * size // 5, 15 * size // 16, size // 16
    bar = f"M{x + size // 10},{y + size // 8}l{rise},-{height}h{thick}l-{rise},{height}z"
    place = f'x="{x}" y="{y}" font-size="{size}"'
    return f'<path d="{bar}"/><text {place}{found[4]}>{_LETTERS[found[5]]}'


# A text over the rows, and how far two places may lie apart that are the same.
_OVER = re.compile(r'<text x="(-?\d+)"(?= y="-?\d+" font-size="\d+" textLength="(\d+)")')
_CLOSE = 2
_ROW = '<g class="row"'


def with_bars(row: str) -> str:
    """Returns what stands in a row in letters that faces have: barred ones are barred by paths."""
    return _BARRED.sub(_letter_with_bar, row)


def anchored(over: str, width: int) -> str:
    """Returns what stands over the rows, in a picture `width` units wide, with each text that ends
    at the margin or stands in the middle held there: it stays there in another face too, in
    programs that do not set lengths."""

    def anchor(found: re.Match[str]) -> str:
        x, length = int(found[1]), int(found[2])
        if abs(x + length - (width - MARGIN)) <= _CLOSE:
            return f'<text text-anchor="end" x="{width - MARGIN}"'
        if abs(2 * x + length - width) <= _CLOSE:
            return f'<text text-anchor="middle" x="{width // 2}"'
        return found[0]

    return _OVER.sub(anchor, over)


def drawn_picture(
    score: str | bytes | bytearray | memoryview,
    width: float,
    messages: ShownMessages = ShownMessages.NONE,
) -> str:
    """Returns the picture of the library, in letters that faces have, and with the texts over its
    rows in their places in each face. Raises what `drawn` does."""
    over, row, rest = str(drawn(score, width, messages), "utf-8").partition(_ROW)
    return anchored(over, round(UNITS * width)) + row + with_bars(rest)


def pixels(units: int) -> str:
    """Returns units of the library in pixels, as short as can be."""
    return f"{units / UNITS:.2f}".rstrip("0").rstrip(".")


def beginning(
    names: Collection[str], outlines: Outlines, prefix: str = "", *, has_style: bool = True
) -> str:
    """Returns what a picture with outlines of these names has before its rows; their ids begin
    with `prefix`."""
    style = f"<style>{STYLE}</style>" if has_style else ""
    return (
        f"<metadata>{escape(outlines.origins(names))}</metadata>{style}"
        f"<defs>{outlines.elements(names, prefix)}</defs>"
        '<rect class="paper" width="100%" height="100%"/>'
    )


def picture(
    score: str | bytes | bytearray | memoryview | Score,
    *,
    width: float = USUAL_WIDTH,
    messages: str | ShownMessages = ShownMessages.NONE,
) -> str:
    """Returns the picture of a score, `width` pixels wide, as SVG that is a file of its own.

    `messages` says which messages stand in it: `"none"`, `"errors"` or `"all"`. Raises `TypeError`
    if the score is none, `ValueError` for other messages and for a width out of range, and
    `MemoryError`.

    >>> svg = picture("name: Kyrie;\\n%%\\n(c4) Ky(f)ri(gfg)e(e.) (::)")
    >>> svg.startswith("<svg "), svg.count('<g class="syllable"')
    (True, 5)
    """
    source = score.tree.source if isinstance(score, Score) else score
    svg = drawn_picture(source, width, ShownMessages(messages))
    root = ROOT.match(svg)
    if root is None:
        raise ValueError("no picture")
    sizes = f'width="{pixels(int(root[2]))}" height="{pixels(int(root[3]))}"'
    before = root[0].replace("<svg ", f"<svg {sizes} ", 1)
    return before + beginning(set(USE.findall(svg)), Outlines()) + svg[root.end() :] + "\n"
