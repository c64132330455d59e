"""Tries that each line that a command writes is printable, whatever stands in a name, a setting or
a score, and that one module alone writes lines."""
from __future__ import annotations

import json
import os
import re
import unittest
from pathlib import Path

from support import SCORE, InFolder, command, has, in_terminal

import gregorio_chant
from gregorio_chant.work.settings import NAME
from gregorio_chant.work.streams import printable, printable_lines

PACKAGE = Path(gregorio_chant.__file__).parent
# Characters that a terminal obeys, and one that is no UTF-8.
ODD = "x\x1b[31m\n\x7f\u009b\u202e\u2028\udcff"
# What else writes: the protocol of the server, and the printing into memory that is sent by
# `streams`.
_OTHERS = {
    "server/serving.py": r"sys\.stdout\.buffer",
    "report/terminal.py": r"Console\(|self\._console\.print",
}
_WRITES = re.compile(
    r"\bprint\(|sys\.(?:__)?(?:stdout|stderr)|os\.write\(|Console\(|\.print\(|logging|warnings\."
)


class Lines(InFolder):
    def setUp(self) -> None:
        super().setUp()
        self.name = f"{ODD}.gabc"
        self.put(
            os.fsencode(f"s/{self.name}"),
            "name: \x1b[31m\x7f;\nmode: \u009b1;\n%%\n(c4) Ky\x1b]0;(g5)\u202eri(g&)\n",
        )
        os.symlink("../nowhere", os.fsencode(f"s/b{ODD}.gabc"))
        os.symlink(os.fsencode(f"../{ODD}"), os.fsencode(f"s/c{ODD}.gabc"))
        self.put(os.fsencode(ODD), SCORE)

    def words(self) -> list[tuple[str, ...]]:
        missing = os.fsencode(f"gone{ODD}")
        named = os.fsdecode(missing)
        return [
            ("check", "--output-format", "lines", "s", named),
            ("check", "--output-format", "github", "s", named),
            ("check", "--output-format", "json", "s"),
            ("check", "--output-format", "sarif", "s"),
            ("check", "--fix", "--unsafe-fixes", "s", named),
            ("check", "--select", named, "s"),
            ("format", "--check", "s", named),
            ("index", "s", named),
            ("index", "--output-format", "json", "s"),
            ("find", "--text", "ky*", "s"),
            ("find", "--neume", ODD[:-1], "s"),
            ("explain", ODD[:-1]),
            ("show", "-o", f"{ODD}/page.html", "s"),
            ("check", f"--{ODD}"),
            ("check", "--exclude", "!" + "*a" * 20 + ODD, "s"),
            *([("check", "s", named)] if has("rich") else []),
            *([("export", "--to", "midi", "s", named)] if has("mido") else []),
        ]

    def check_printable(self, written: bytes, words: object) -> None:
        text = written.decode("utf-8")
        self.assertEqual(
            [it for it in text.split("\n") if not it.replace("\t", "").isprintable()], [], words
        )

    def test_commands(self) -> None:
        for words in self.words():
            ran = command(*map(os.fsencode, words))
            self.assertTrue(ran.stdout + ran.stderr, words)
            self.check_printable(ran.stdout, words)
            self.check_printable(ran.stderr, words)
            for line in ran.stderr.decode().removesuffix("\n").split("\n"):
                self.assertTrue(line.startswith("gregorio-chant: "), (words, line))
            if words[-2:] == ("--output-format", "json"):
                json.loads(ran.stdout)

    def test_settings(self) -> None:
        for text in (
            'select = ["E\\u001b[31m"]',
            '"\\u001b[31m" = 1',
            'exclude = ["\\u001b*******************"]',
            '[per-file-ignores]\n"\\u001b" = ["\\u001b"]',
        ):
            self.put(NAME, text)
            ran = command("check", "--output-format", "lines", os.fsencode(f"s/{self.name}"))
            self.assertEqual((ran.returncode, ran.stderr.count(b"\n")), (3, 1))
            self.check_printable(ran.stderr, text)

    def test_data(self) -> None:
        """Data goes into a file as it is, and printable to a terminal."""
        score = SCORE.replace("Ky(", "Ky\x1b(").replace(": ", ":")
        self.put("a.gabc", score)
        self.assertIn(b"Ky\x1b(", command("format", "--diff", "a.gabc").stdout)
        _, shown = in_terminal("format", "--diff", "a.gabc")
        self.assertIn("Ky\\x1b(", shown)
        self.assertNotIn("\x1b", shown)

    @unittest.skipUnless(has("rich"), "there is no rich")
    def test_colours(self) -> None:
        """The colours of a terminal are the command's own."""
        os.chdir("s")
        _, shown = in_terminal("check", ".")
        self.assertIn("\x1b[1", shown)
        self.check_printable(re.sub(r"\x1b\[[0-9;]*m", "", shown.replace("\r", "")).encode(), shown)
        self.assertIn("x\\x1b[31m\\n\\x7f", re.sub(r"\x1b\[[0-9;]*m", "", shown))


class OnePlace(unittest.TestCase):
    def test_what_writes(self) -> None:
        found = []
        for file in sorted(PACKAGE.rglob("*.py")):
            name = file.relative_to(PACKAGE).as_posix()
            # What stands in docstrings is for readers.
            code = re.sub(r'"""(?:\\.|[^\\])*?"""', "", file.read_text(encoding="utf-8"))
            for line in code.split("\n"):
                known = _OTHERS.get(name)
                if (
                    _WRITES.search(line)
                    and name != "work/streams.py"
                    and not (known and re.search(known, line))
                ):
                    found.append(f"{name}: {line.strip()}")
        self.assertEqual(found, [])

    def test_printable(self) -> None:
        self.assertEqual(printable(ODD), "x\\x1b[31m\\n\\x7f\\x9b\\u202e\\u2028\\xff")
        self.assertEqual(printable("\ud800"), "\\ud800")
        self.assertEqual(printable_lines("a\tb\n\x1b\r\n"), "a\tb\n\\x1b\\r\n")
        for text in ("", "\n", "a\n\nb", "\u00e9\U0001d11e\n"):
            self.assertEqual(printable_lines(text), text)


if __name__ == "__main__":
    unittest.main()
