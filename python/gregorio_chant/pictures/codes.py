"""The messages of a row: a field around what each is about, and over the row its code, none over
another one."""
from __future__ import annotations

import bisect
from collections.abc import Iterable, Iterator, Sequence
from typing import NamedTuple

from gregorio_chant._native.results import Kind
from gregorio_chant.pictures.marks import Mark
from gregorio_chant.pictures.outlines import Outlines
from gregorio_chant.pictures.sheet import boxes
from gregorio_chant.pictures.syllable_parts import Notes, Part

CODE_ROW, OVER_ROW = 1050, 250
# How broad a letter of a code is, at most, and what stands between two codes.
_LETTER, _BETWEEN = 650, 300
_MOST_ROWS = 8
# How far a field goes beyond what it is around, its least width, and how far it goes below the
# text.
_AROUND, _LEAST_FIELD, _BELOW_TEXT = 150, 600, 500


class Code(NamedTuple):
    """The code of a message from x on, in a row from 0 up."""

    mark: Mark
    x: int
    row: int
    text: str


class Field(NamedTuple):
    """From where to where the thing goes that a message is about, in its row."""

    mark: Mark
    left: int
    right: int


class _Fields:
    """What the things take that messages of a part of a syllable are about. Each is measured
    once."""

    def __init__(self, part: Part, notes: Notes, outlines: Outlines) -> None:
        self._part, self._notes, self._outlines = part, notes, outlines
        # By the number of a neume, from 1; by 0 that of the text, and by -1 of all notes.
        self._known: dict[int, tuple[int, int]] = {}

    def of(self, mark: Mark) -> Field:
        """Returns the field of a mark: that of a neume, or the text with what stands over it."""
        at, x = bisect.bisect_right(self._notes.begins, mark.byte) - 1, self._part.group.x
        if at < 0:
            left, right = self._field(0 if mark.byte < self._notes.begin else -1)
        else:
            left, right = self._field(bisect.bisect_right(self._notes.neumes, at))
        return Field(mark, left + x, right + x)

    def _field(self, number: int) -> tuple[int, int]:
        if number not in self._known:
            found = self._neume(number) if number > 0 else self._whole(is_text=number == 0)
            self._known[number] = found
        return self._known[number]

    def _neume(self, number: int) -> tuple[int, int]:
        """Returns what the neume with this number, from 1, takes of the part."""
        bounds = self._notes.neumes[number - 1 : number + 1]
        begin, end = (max(it - self._part.first, 0) for it in bounds)
        here = self._part.heads[begin:end]
        return min(it.x for it in here), max(it.x + it.width for it in here)

    def _whole(self, *, is_text: bool) -> tuple[int, int]:
        """Returns what the text of the part takes, with what stands right of it; or its notes, if
        it has any."""
        taken = list(boxes(self._part.group.content, self._outlines))
        wanted = [it for it in taken if bool(it.size) == is_text] or taken
        left = min((it.left for it in wanted), default=0)
        return left, max((it.right for it in (taken if is_text else wanted)), default=left)


def fields_of(part: Part, marks: Sequence[Mark], outlines: Outlines) -> Iterator[Field]:
    """Yields the fields of those marks of a syllable, in their order, that stand in this part of
    it: at its notes, and if it is the first part at the text."""
    notes = part.notes
    if notes is None or part.number and not part.heads:
        return
    begins, past = notes.begins, part.first + len(part.heads)
    low = bisect.bisect_left(marks, begins[part.first], key=_byte) if part.number else 0
    high = bisect.bisect_left(marks, begins[past], key=_byte) if past < len(begins) else len(marks)
    fields = _Fields(part, notes, outlines)
    yield from map(fields.of, marks[low:high])


def _byte(mark: Mark) -> int:
    return mark.byte


def field_around(fields: Sequence[Field], x: int, top: int, text: int) -> str:
    """Returns the field around all these, in a group at `x`, from `top` down to below the line of
    the text."""
    left = min(it.left for it in fields) - _AROUND
    width = max(max(it.right for it in fields) + _AROUND - left, _LEAST_FIELD)
    is_mild = all(it.mark.message.kind is Kind.WARNING for it in fields)
    return (
        f'<rect class="{"mark w" if is_mild else "mark"}" x="{left - x}" y="{top}" width="{width}"'
        f' height="{text + _BELOW_TEXT - top}"/>'
    )


def codes_of(fields: Iterable[Field], width: int) -> list[Code]:
    """Returns the codes over a row of this width. If there are more than rows, the last code says
    how many are not shown there."""
    ends: list[int] = []
    codes: list[Code] = []
    left_out = 0
    for field in fields:
        taken = _LETTER * len(field.mark.message.code)
        x = max(min(field.left, width - taken), 0)
        row = next((at for at, end in enumerate(ends) if end <= x), len(ends))
        if row == _MOST_ROWS:
            left_out += 1
            continue
        ends[row:] = [x + taken + _BETWEEN, *ends[row + 1 :]]
        codes.append(Code(field.mark, x, row, field.mark.message.code))
    if left_out:
        codes[-1] = codes[-1]._replace(text=f"{codes[-1].text} +{left_out}")
    return codes
