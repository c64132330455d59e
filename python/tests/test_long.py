"""Tries scores that are too long for their tree: what takes any length goes on, and the rest says
why it does not."""
from __future__ import annotations

import unittest

from support import InFolder, command

from gregorio_chant import compile, lint
from gregorio_chant.objects.compiled import MOST_BYTES, TooLong

_HEAD = "name: Long;\n%%\n(c4)\n"
_WORD = "Ky(f)ri(gfg)e(e.)\n"


class Long(InFolder):
    def setUp(self) -> None:
        super().setUp()
        words = MOST_BYTES // len(_WORD) + 1
        self.score = _HEAD + words * _WORD
        self.file = self.put("long.gabc", self.score)

    def test_what_takes_any_length(self) -> None:
        self.assertEqual(command("check", self.file).returncode, 0)
        for words in (("format", "--canonical"), ("format", "--check")):
            ran = command(*words, self.file)
            self.assertEqual((ran.returncode, self.file.read_text()), (0, self.score), ran.stderr)
        faulty = self.put("faulty.gabc", self.score + "a(h5)\n")
        ran = command("check", "--output-format", "lines", faulty)
        self.assertEqual(ran.returncode, 1)
        self.assertIn(b": E1: ", ran.stdout)

    def test_what_does_not(self) -> None:
        """Each command names the file, its length and the limit, and writes nothing."""
        spread = self.put("spread.gabc", self.score.replace("Ky(f)", "<i></i>Ky(f)", 1))
        told = f"it has {len(spread.read_bytes()):,} bytes, and the limit for this is 8,000,000"
        for words in (
            ("check", "--rules"),
            ("format",),
            ("format", "--canonical"),
            ("find", "--text", "Ky*"),
            ("index",),
            ("export", "--to", "mei"),
            ("show", "-o", "page.html"),
        ):
            before = spread.read_bytes()
            ran = command(*words, spread)
            self.assertEqual(ran.returncode, 4, words)
            self.assertIn(f"spread.gabc: {told}", ran.stderr.decode(), words)
            self.assertEqual(spread.read_bytes(), before)

    def test_calls(self) -> None:
        self.assertEqual(lint(self.score), [])
        self.assertEqual(compile(self.score).canonical, self.score)
        with self.assertRaises(TooLong):
            lint(self.score.replace("%%\n", "%% % gregorio: ignore W1\n", 1) + "a(h5)")


if __name__ == "__main__":
    unittest.main()
