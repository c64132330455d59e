"""The text of a score as it stands in an editor, between the editor's counting and the compiler's.

An editor counts lines from 0, and columns in units of UTF-16 from 0. The compiler takes CR and LF
for one line end, and counts no U+FEFF.
"""
from __future__ import annotations

import bisect
import re
from functools import cached_property

from gregorio_chant.server.protocol import Position, Range
from gregorio_chant.text.source import raw_offsets, text_of, utf16_length

_HALF = re.compile("[\ud800-\udfff]")
_LINE_END = re.compile("\r\n|\n|\r")


class Text:
    """A text with its places."""

    def __init__(self, raw: str) -> None:
        self.raw = raw
        self._ends = [it.span() for it in _LINE_END.finditer(raw)]

    @cached_property
    def data(self) -> bytes:
        """The bytes that the compiler reads."""
        return self.raw.encode("utf-8", "surrogatepass")

    @cached_property
    def plain(self) -> str:
        """The text as the compiler counts it. Half a character of UTF-16, which is no text, is one
        character."""
        return text_of(_HALF.sub("\ufffd", self.raw).encode("utf-8"))

    @cached_property
    def _raw_offsets(self) -> list[int]:
        return raw_offsets(self.raw)

    @property
    def line_end(self) -> str:
        """How the first line ends."""
        return self.raw[slice(*self._ends[0])] if self._ends else "\n"

    def lines(self) -> list[str]:
        """Returns the lines, each with its end."""
        ends = [0, *(it[1] for it in self._ends), len(self.raw)]
        return [self.raw[begin:end] for begin, end in zip(ends, ends[1:]) if begin < end]

    def end(self) -> Position:
        """Returns the position after the last character."""
        return self._position(len(self.raw))

    def _line(self, number: int) -> tuple[int, int]:
        """Returns where a line begins, and where its text ends."""
        begin = self._ends[number - 1][1] if number else 0
        return begin, self._ends[number][0] if number < len(self._ends) else len(self.raw)

    def _position(self, at: int) -> Position:
        number = bisect.bisect_right(self._ends, at, key=lambda it: it[1])
        return Position(number, utf16_length(self.raw[self._line(number)[0] : at]))

    def _raw_at(self, position: Position) -> int:
        """Returns the offset of a position; of one after the end of its line or of the text, that
        end."""
        if position.line > len(self._ends):
            return len(self.raw)
        begin, end = self._line(position.line)
        text = self.raw[begin:end]
        if text.isascii():
            return begin + min(position.character, len(text))
        units = 0
        for at, it in enumerate(text, begin):
            units += 2 if it > "\uffff" else 1
            if units > position.character:
                return at
        return end

    def changed(self, where: Range | None, new: str) -> Text:
        """Returns the text with `new` in the place of a part, or of all."""
        if where is None:
            return Text(new)
        begin, end = sorted((self._raw_at(where.start), self._raw_at(where.end)))
        return Text(self.raw[:begin] + new + self.raw[end:])

    def position(self, offset: int) -> Position:
        """Returns the position of the character after `offset` others, as the compiler counts
        them."""
        return self._position(self._raw_offsets[min(offset, len(self._raw_offsets) - 1)])

    def range(self, begin: int, end: int) -> Range:
        """Returns the range of the characters from `begin` up to `end`, as the compiler counts
        them."""
        return Range(self.position(begin), self.position(end))

    def raw_range(self, begin: int, end: int) -> Range:
        """Returns the range of the characters from `begin` up to `end`, all counted."""
        return Range(self._position(begin), self._position(end))

    def character(self, offset: int) -> Range:
        """Returns the range of one character; an empty one at the end of a line or of the text."""
        at = self._raw_offsets[min(offset, len(self._raw_offsets) - 1)]
        width = 0 if self.raw[at : at + 1] in ("", "\r", "\n") else 1
        return Range(self._position(at), self._position(at + width))

    def offset(self, position: Position) -> int:
        """Returns how many characters stand before a position, as the compiler counts them."""
        return bisect.bisect_left(self._raw_offsets, self._raw_at(position))
