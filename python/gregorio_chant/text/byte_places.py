"""Where the bytes of a score stand: in characters, and in lines and columns as messages count
them."""
from __future__ import annotations

import bisect
import re

from gregorio_chant.text.source import Place

# The bytes that begin no character, in UTF-8.
_NO_BEGINNINGS = bytes(range(0x80, 0xC0))
_LINE_END = re.compile(rb"\r|(?<!\r)\n")
# What takes no column: the LF directly after a CR, and U+FEFF.
_SILENT = re.compile(rb"(?<=\r)\n|\xef\xbb\xbf")
# How many bytes are counted at once.
_STEP = 512


def _beginnings(part: bytes) -> int:
    """Returns how many characters begin in `part`."""
    return len(part.translate(None, _NO_BEGINNINGS))


class BytePlaces:
    """The places of the bytes of a score. It counts once, by steps of 512 bytes, and then less than
    a step for each place."""

    __slots__ = ("_is_plain", "_lines", "_silent", "_source", "_steps")

    def __init__(self, source: bytes) -> None:
        self._source = source
        self._lines = [0, *(it.end() for it in _LINE_END.finditer(source))]
        self._silent = [it.start() for it in _SILENT.finditer(source)]
        # Whether each byte is a character that takes a column.
        self._is_plain = source.isascii() and not self._silent
        self._steps = [0]
        for at in range(0, 0 if self._is_plain else len(source), _STEP):
            self._steps.append(self._steps[-1] + _beginnings(source[at : at + _STEP]))

    def characters(self, offset: int) -> int:
        """Returns how many characters begin before the byte `offset`."""
        if self._is_plain:
            return offset
        step = offset // _STEP
        return self._steps[step] + _beginnings(self._source[step * _STEP : offset])

    def counted(self, offset: int) -> int:
        """Returns how many characters of the text as the compiler counts it, without what takes no
        column, begin before the byte `offset`."""
        return self.characters(offset) - bisect.bisect_left(self._silent, offset)

    def byte(self, counted: int) -> int:
        """Returns the byte at which the character begins that has `counted` others before it in the
        text as the compiler counts it; the number of bytes if there is none."""
        if self._is_plain:
            return min(counted, len(self._source))
        every = range(len(self._source) + 1)
        return bisect.bisect_right(every, counted, key=self.counted) - 1

    def at(self, line: int, column: int) -> int:
        """Returns the byte at this place, from 1; the number of bytes if there is none."""
        if line > len(self._lines):
            return len(self._source)
        return self.byte(self.counted(self._lines[line - 1]) + column - 1)

    def place(self, offset: int) -> Place:
        """Returns the place of the character at the byte `offset`: how many characters stand before
        it, its line and its column."""
        line = bisect.bisect_right(self._lines, offset)
        begin = self._lines[line - 1]
        before = self.characters(offset)
        silent = bisect.bisect_left(self._silent, offset) - bisect.bisect_left(self._silent, begin)
        return Place(before, line, before - self.characters(begin) - silent + 1)
