"""The text of a score as the compiler counts it, and how editors count it."""
from __future__ import annotations

import bisect
import re
from dataclasses import dataclass
from typing import NamedTuple

_MARK = "\ufeff"
_COUNTED = re.compile(f"\r\n|[^{_MARK}]", re.DOTALL)


class Place(NamedTuple):
    """Where something stands in a text: `line` and `column` count from 1, `offset` counts the
    characters before it."""

    offset: int
    line: int
    column: int


@dataclass(frozen=True, slots=True)
class Source:
    """A part of a file that was read: it stands at `place`, and is spelled `spelling` there. The
    line and the column are as in messages; the offset counts the characters of the file's text,
    with each CR and U+FEFF. As text it is `LINE:COLUMN`."""

    place: Place
    spelling: str

    @property
    def line(self) -> int:
        return self.place.line

    @property
    def column(self) -> int:
        return self.place.column

    @property
    def end(self) -> int:
        """The offset after it."""
        return self.place.offset + len(self.spelling)

    def __str__(self) -> str:
        return f"{self.line}:{self.column}"


def text_of(score: bytes) -> str:
    """Returns the text of `score`: each line end is one LF, and a U+FEFF is nothing. Bytes that are
    no UTF-8 come out as U+FFFD."""
    text = score.decode("utf-8", "replace")
    return text.replace("\r\n", "\n").replace("\r", "\n").replace(_MARK, "")


def raw_offsets(score: str) -> list[int]:
    """Returns where each character of the text of `score` stands in `score` itself, and last where
    that ends."""
    return [it.start() for it in _COUNTED.finditer(score)] + [len(score)]


class Lines:
    """The lines of a text, and the places of its characters."""

    def __init__(self, text: str) -> None:
        self.text = text
        self._starts = [0]
        at = text.find("\n")
        while at >= 0:
            self._starts.append(at + 1)
            at = text.find("\n", at + 1)

    def line(self, number: int) -> str:
        """Returns the line `number`, from 1, without its LF; an empty one where there is none."""
        if not 1 <= number <= len(self._starts):
            return ""
        end = self._starts[number] - 1 if number < len(self._starts) else len(self.text)
        return self.text[self._starts[number - 1] : end]

    def column_after(self, line: int, column: int) -> int:
        """Returns the column after the character at this place; the same column where no character
        stands there."""
        return column + 1 if column <= len(self.line(line)) else column

    def offset(self, line: int, column: int) -> int:
        """Returns how many characters stand before this place."""
        if line > len(self._starts):
            return len(self.text)
        return min(self._starts[max(line, 1) - 1] + max(column, 1) - 1, len(self.text))

    def place(self, offset: int) -> Place:
        """Returns the place of the character after `offset` others."""
        line = bisect.bisect_right(self._starts, offset)
        return Place(offset, line, offset - self._starts[line - 1] + 1)


def utf16_length(text: str) -> int:
    """Returns how many units of UTF-16 `text` has."""
    return len(text.encode("utf-16-le", "surrogatepass")) // 2
