"""Compares the places of a text in an editor with those that its bytes in UTF-16 say."""
from __future__ import annotations

import random
import re
import unittest

from gregorio_chant.server.protocol import Position, Range
from gregorio_chant.server.text import Text
from gregorio_chant.text.source import Lines

PARTS = ("a", "(", "\u00e9", "\U0001d11e", "\ufeff", "\r\n", "\n", "\r", "\u2028", "\t")


def units_before(text: str, position: Position) -> int:
    """Returns how many units of UTF-16 stand before a position that the text has, or before the
    nearest end."""
    at, lines = 0, re.split("(\r\n|\n|\r)", text)
    for number in range(0, len(lines), 2):
        length = len(lines[number].encode("utf-16-le")) // 2
        if number // 2 == position.line:
            return at + min(position.character, length)
        at += length + len("".join(lines[number + 1 : number + 2]))
    return at


class Places(unittest.TestCase):
    def setUp(self) -> None:
        self.random = random.Random(67)

    def text(self) -> str:
        return "".join(self.random.choices(PARTS, k=self.random.randrange(12)))

    def position(self) -> Position:
        return Position(self.random.randrange(5), self.random.randrange(7))

    def test_changes(self) -> None:
        number = 0
        while number < 2_000:
            text, new, start, end = self.text(), self.text(), self.position(), self.position()
            units = text.encode("utf-16-le")
            first, last = sorted(2 * units_before(text, it) for it in (start, end))
            try:
                wanted = (units[:first] + new.encode("utf-16-le") + units[last:]).decode(
                    "utf-16-le"
                )
                units[first:].decode("utf-16-le")
            except UnicodeDecodeError:
                continue
            number += 1
            self.assertEqual(
                Text(text).changed(Range(start, end), new).raw, wanted, (text, start, end)
            )

    def test_offsets(self) -> None:
        """Each character that the compiler counts has a position, and that leads back to it."""
        for _ in range(500):
            text = Text(self.text())
            lines = Lines(text.plain)
            for offset in range(len(text.plain) + 1):
                position = text.position(offset)
                self.assertEqual(text.offset(position), offset, (text.raw, offset))
                self.assertEqual(position.line, lines.place(offset).line - 1)

    def test_lines(self) -> None:
        for _ in range(200):
            text = Text(self.text())
            self.assertEqual("".join(text.lines()), text.raw)
            self.assertEqual(
                units_before(text.raw, text.end()), len(text.raw.encode("utf-16-le")) // 2
            )


if __name__ == "__main__":
    unittest.main()
