"""Tries modules over texts that hypothesis makes, with all line ends, marks, half characters and
what a terminal obeys."""
from __future__ import annotations

import io
import os
import tempfile
import unittest
from pathlib import Path

from hypothesis import HealthCheck, given, settings
from hypothesis import strategies as st

from gregorio_chant.format.formatting import difference
from gregorio_chant.report.terminal import window
from gregorio_chant.server.text import Text
from gregorio_chant.server.wire import Unreadable, Wire
from gregorio_chant.text.source import Lines, text_of
from gregorio_chant.work.files import Content, Reader, read, replace, write
from gregorio_chant.work.settings import NAME, Finder, SettingsError
from gregorio_chant.work.streams import printable, printable_lines

# How long hypothesis takes to make a text says how busy the machine is.
_CASES = settings(
    max_examples=10_000 if os.environ.get("GREGORIO_LONG") else 150,
    deadline=None,
    suppress_health_check=[HealthCheck.too_slow],
)
_PARTS = st.sampled_from(
    (
        "a",
        "(",
        "\r",
        "\r\n",
        "\n",
        "\u0085",
        "\u2028",
        "\0",
        "\ufeff",
        "\U0001d11e",
        "a\u0301",
        "\x1b[31m",
        "\u202e",
        "\t",
        "\udcff",
        "\ud834",
        "\u00a0",
        "%% ",
        "name: a;",
    )
)
_TEXTS = st.one_of(st.lists(_PARTS, max_size=12).map("".join), st.text(max_size=20))
_BYTES = _TEXTS.map(lambda it: it.encode("utf-8", "surrogatepass"))
_TOML = st.lists(
    st.sampled_from(
        (
            "select",
            "exclude",
            "[",
            "]",
            "=",
            '"',
            "'",
            "a",
            ".",
            "\n",
            "W3",
            ",",
            "{",
            "}",
            "#",
            "\\",
            '"""',
            "format",
            "wrap",
            "1",
            " ",
        )
    ),
    max_size=20,
).map("".join)


class Streams(unittest.TestCase):
    @_CASES
    @given(_TEXTS)
    def test_printable(self, text: str) -> None:
        shown = printable(text)
        self.assertTrue(shown.isprintable(), text)
        self.assertEqual(printable(shown), shown)
        lines = printable_lines(text)
        self.assertTrue(lines.replace("\n", "").replace("\t", "").isprintable(), text)
        self.assertEqual(lines.count("\n"), text.count("\n"))

    @_CASES
    @given(_TEXTS, st.integers(1, 30), st.integers(20, 40))
    def test_window(self, line: str, column: int, width: int) -> None:
        shown, before = window(line.replace("\n", ""), column, width)
        self.assertTrue(shown.isprintable())
        self.assertTrue(0 <= before <= width)

    @_CASES
    @given(_TEXTS, _TEXTS)
    def test_difference(self, before: str, after: str) -> None:
        lines = difference("a\n", "b\x1b", before, after).split("\n")
        if lines != [""]:
            self.assertEqual(lines[:2], ["--- a\\n", "+++ b\\x1b"])
            old = [it[1:] for it in lines[3:-1] if it[:1] in (" ", "-")]
            self.assertLessEqual(set(old), set(before.split("\n")))


class Places(unittest.TestCase):
    @_CASES
    @given(_TEXTS)
    def test_lines(self, text: str) -> None:
        plain = text_of(text.encode("utf-8", "replace"))
        lines = Lines(plain)
        for offset in range(len(plain) + 1):
            place = lines.place(offset)
            self.assertEqual(lines.offset(place.line, place.column), offset)

    @_CASES
    @given(_TEXTS)
    def test_editors(self, raw: str) -> None:
        """Each character has a position of its own, by which it is found again."""
        text = Text(raw)
        positions = [text.position(it) for it in range(len(text.plain) + 1)]
        self.assertEqual(positions, sorted(set(positions)))
        self.assertEqual([text.offset(it) for it in positions], list(range(len(text.plain) + 1)))


class Ends(unittest.TestCase):
    @_CASES
    @given(
        st.lists(
            st.one_of(
                _BYTES,
                st.sampled_from(
                    (
                        b"Content-Length: 2\r\n\r\n{}",
                        b"Content-Length: 9\r\n\r\n",
                        b"\r\n",
                        b"Content-Type: a\r\n",
                    )
                ),
            ),
            max_size=8,
        )
    )
    def test_wire(self, pieces: list[bytes]) -> None:
        """Whatever comes, what follows is read."""
        came = list(
            Wire(
                io.BytesIO(b"".join(pieces) + b"\n" * 12 + b"Content-Length: 4\r\n\r\ntrue"),
                io.BytesIO(),
            ).messages()
        )
        self.assertTrue(came[-1] is True or isinstance(came[-1], Unreadable), came)

    @_CASES
    @given(_BYTES, _BYTES)
    def test_files(self, old: bytes, new: bytes) -> None:
        with tempfile.TemporaryDirectory() as room:
            path = Path(room) / "a.gabc"
            write(str(path), (old,))
            self.assertEqual(Reader.of([room]).read(str(path)).data, old)
            replace(str(path), read(str(path)), new)
            self.assertEqual((path.read_bytes(), os.listdir(room)), (new, ["a.gabc"]))
            with self.assertRaises(OSError):
                replace(str(path), Content(new), old)

    @_CASES
    @given(st.one_of(_TOML.map(str.encode), _BYTES))
    def test_settings(self, text: bytes) -> None:
        """Any file is settings or is refused by one line."""
        with tempfile.TemporaryDirectory() as room:
            Path(room, NAME).write_bytes(text)
            try:
                Finder(("W3",)).of(f"{room}/a.gabc").excludes(f"{room}/a.gabc")
            except SettingsError as error:
                self.assertTrue(str(error).isprintable(), text)


if __name__ == "__main__":
    unittest.main()
