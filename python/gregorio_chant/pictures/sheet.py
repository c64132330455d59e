"""The picture of the library, taken apart: its rows, the groups of syllables in them, and what
stands in a group. All numbers are in units of the library."""
from __future__ import annotations

import itertools
import re
from collections.abc import Iterator
from dataclasses import dataclass
from typing import NamedTuple

from gregorio_chant._native.drawings import UNITS
from gregorio_chant.pictures.alone import ROOT, anchored, with_bars
from gregorio_chant.pictures.glyphs import SIGNS, fall_of, joined_of
from gregorio_chant.pictures.outlines import Face, Outlines

# A step of the staff.
STEP = 500
# The size of the type of a score's text, and what a capital has of the size of its type.
TEXT_SIZE = 1600
_CAPITAL = 0.75
_ROW = re.compile(rb'<g class="row" transform="translate\((-?\d+),(-?\d+)\)">')
_GROUP = re.compile(
    r'<g class="syllable" data-begin="(\d+)" data-end="(\d+)" transform="translate\((-?\d+),0\)">'
)
_PLACE = r'x="(-?\d+)" y="(-?\d+)"'
_USE = re.compile(rf'<use href="#([A-Za-z0-9-]+)" {_PLACE}( class="nabc")?/>')
_RECT = re.compile(rf'<rect {_PLACE} width="(-?\d+)" height="(-?\d+)"/>')
_TEXT = re.compile(rf'<text {_PLACE} font-size="(\d+)" textLength="(\d+)"[^>]*>')
_END = "</g>"
# How the notes of a family follow each other: o stands over the note before, each other one right
# of it; s begins a broad stroke, which ends at the next note.
_PLANS = {
    "pes": "no",
    "pes-quassus": "no",
    "quilisma-pes": "no",
    "porrectus": "sno",
    "scandicus": "nno",
    "salicus": "nno",
    "torculus-resupinus": "nsno",
    "torculus-resupinus-quilisma": "nsno",
    "porrectus-flexus": "snnn",
}


class Head(NamedTuple):
    """The head of a note: where it begins, its height, and its width."""

    x: int
    y: int
    width: int


class Box(NamedTuple):
    """What a part of a picture takes; `size` is that of its type if it is a text."""

    left: int
    top: int
    right: int
    bottom: int
    size: int = 0


@dataclass(frozen=True)
class Group:
    """What stands of a syllable in a row: the bytes of the syllable, both 0 if it is none, where
    the group stands, and its elements."""

    begin: int
    end: int
    x: int
    content: str


@dataclass(frozen=True)
class Row:
    """A staff: where it stands, what belongs to no syllable in it, and its groups."""

    x: int
    y: int
    signs: str
    groups: tuple[Group, ...]


@dataclass(frozen=True)
class Sheet:
    """A picture: its sizes, what stands over its rows, and its rows, which are made when they are
    taken, and can be taken once."""

    width: int
    height: int
    over: str
    rows: Iterator[Row]


def sheet_of(svg: bytes | memoryview) -> Sheet:
    """Returns the parts of a picture of the library, in letters that faces have. No text in it
    holds a `<`."""
    begins = _ROW.finditer(svg)
    first = next(begins, None)
    end = len(svg) - len("</svg>")
    head = str(svg[: end if first is None else first.start()], "utf-8")
    root = ROOT.match(head)
    if root is None:
        raise ValueError("no picture")
    width, height = int(root[2]), int(root[3])
    rows = iter(()) if first is None else _rows(svg, first, begins, end)
    return Sheet(width, height, anchored(head[root.end() :], width), rows)


def _rows(
    svg: bytes | memoryview, first: re.Match[bytes], others: Iterator[re.Match[bytes]], end: int
) -> Iterator[Row]:
    """Yields the rows of a picture, of which the last one ends at the byte `end`."""
    begin = first
    for after in (*others, None):
        content = str(svg[begin.end() : end if after is None else after.start()], "utf-8")
        yield _row(int(begin[1]), int(begin[2]), with_bars(content))
        begin = after or begin


def _row(x: int, y: int, content: str) -> Row:
    signs, *pieces = _GROUP.split(content.removesuffix(_END))
    groups = zip(*(pieces[at::4] for at in range(4)))
    return Row(
        x,
        y,
        signs,
        tuple(
            Group(int(begin), int(end), int(left), it.removesuffix(_END))
            for begin, end, left, it in groups
        ),
    )


def boxes(content: str, outlines: Outlines) -> Iterator[Box]:
    """Yields what the elements of a group or of a row take, but lines of staves."""
    for name, x, y, _ in _USE.findall(content):
        it = outlines.outline(name)
        left, line = int(x), int(y)
        up, down = round(UNITS * it.up), round(UNITS * it.down)
        yield Box(left, line - up, left + round(UNITS * it.width), line + down)
    for numbers in _RECT.findall(content):
        left, top, width, height = map(int, numbers)
        yield Box(left, top, left + width, top + height)
    for numbers in _TEXT.findall(content):
        left, line, size, width = map(int, numbers)
        yield Box(left, line - round(_CAPITAL * size), left + width, line, size)


def _columns(plan: str, width: int, head: int) -> list[int]:
    """Returns where the heads stand in one outline of this width: side by side from both ends up
    to a broad stroke, and evenly if there is none."""
    numbers = list(itertools.accumulate((it != "o" for it in plan), initial=-1))[1:]
    last, stroke = numbers[-1], plan.find("s")
    if stroke < 0:
        return [it * (width - head) // max(last, 1) for it in numbers]
    return [
        it * head if it <= numbers[stroke] else width - (last - it + 1) * head for it in numbers
    ]


def heads_of(name: str, x: int, y: int, outlines: Outlines | Face) -> Iterator[Head]:
    """Yields the heads of the outline `name` at this place."""
    punctum = round(UNITS * outlines.outline("punctum").width)
    width = round(UNITS * outlines.outline(name).width)
    joined, fall = joined_of(name), fall_of(name)
    if joined:
        plan = _PLANS.get(joined.family, "n" * (len(joined.steps) + 1))
        rises = itertools.accumulate(joined.rises, initial=0)
        for column, up in zip(_columns(plan, width, punctum), rises):
            yield Head(x + column, y - STEP * up, punctum)
    elif fall:
        yield Head(x, y, punctum)
        yield Head(x + width - punctum, y + STEP * fall, punctum)
    else:
        yield Head(x, y, width)


def heads(content: str, outlines: Outlines) -> Iterator[Head]:
    """Yields the heads of a group, in their order: one for each time that a note sounds."""
    for name, x, y, nabc in _USE.findall(content):
        if not nabc and name not in SIGNS:
            yield from heads_of(name, int(x), int(y), outlines)
