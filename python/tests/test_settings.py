"""Tries the settings of a project: each key on good and bad input, where they are found, and that
the words of the command win."""
from __future__ import annotations

import os
import unittest
from pathlib import Path

from support import InFolder, command

from gregorio_chant.work.settings import NAME

FOUND = "name: a;\n%%\n(c4) <it>a</it>(n&) b(g) *() c(h)\n"
LOOSE = "name:a;\n%%\n(c4)  a(f) b(g) c(h)\n"
# Settings that are refused, with what is said of them after the name of the file.
WRONG = [
    ('select = ["W99"]', ":1: select: W99 is no code: did you mean W9?"),
    ('\nignore = "W3"', ':2: ignore: expected a list of texts, such as ["W3"]'),
    ("rules = 1", ":1: rules: expected true or false"),
    (
        "# a\n\nselct = []",
        (
            ":3: selct: unknown key; the keys are select, ignore, fail-on, rules, exclude,"
            " per-file-ignores, format"
        ),
    ),
    ("format = 3", ":1: format: expected a table"),
    ("[format]\nwrap = 0", ":2: wrap: expected a number from 1"),
    ("[format]\nwrap = true", ":2: wrap: expected a number from 1"),
    (
        "[format]\nwrap = 60\ncanonical = true",
        ":2: wrap: the canonical form has a word on each line",
    ),
    ("[format]\nwarp = 60", ":2: warp: unknown key; the keys are wrap, canonical"),
    (
        '[per-file-ignores]\n"a/*.gabc" = ["X"]',
        ":2: a/*.gabc: X is no code: gregorio-chant explain --all lists them",
    ),
    ("exclude = [1]", ':1: exclude: expected a list of texts, such as ["W3"]'),
    ("select = [", ": Invalid value (at end of document)"),
    ("x" * 70_000, ": it is longer than 65,536 bytes"),
]


class Settings(InFolder):
    def codes(self, *words: str) -> list[tuple[str, str]]:
        """Returns the file and the code of each message."""
        ran = command("check", "--output-format", "lines", "--quiet", *words)
        self.assertEqual(ran.stderr, b"")
        return [
            (line.split(":")[0], line.split(": ")[2])
            for line in ran.stdout.decode().split("\n")[:-1]
        ]

    def told(self, *words: str) -> list[str]:
        return [code for _, code in self.codes(*words)]

    def test_codes(self) -> None:
        self.put("s/a.gabc", FOUND)
        everything = ["W6", "W6", "E1"]
        for text, wanted in (
            ("", everything),
            ('select = ["W"]', ["W6", "W6"]),
            ('ignore = ["W6"]', ["E1"]),
            ("rules = true", [*everything[:2], "outside-staff", "E1"]),
            ('rules = true\nignore = ["rules", "E"]', ["W6", "W6"]),
            ('[per-file-ignores]\n"s/*" = ["W6"]\n"b.gabc" = ["E1"]', ["E1"]),
            ('ignore = ["E1"]\n[per-file-ignores]\n"a.gabc" = ["W6"]', []),
        ):
            self.put(NAME, text)
            self.assertEqual(self.told("s"), wanted, text)
            self.assertEqual(self.told("--no-config", "s"), everything)
        self.assertEqual(self.told("--ignore", "W6", "s"), ["E1"])
        self.put(NAME, '[per-file-ignores]\n"a.gabc" = ["W6"]\n')
        self.assertEqual(self.told("--ignore", "W1", "s"), ["E1"])
        self.put(NAME, 'select = ["W6"]\nignore = ["E1"]\n')
        self.assertEqual(self.told("--select", "E1,W6", "s"), ["W6", "W6"])
        self.assertEqual(self.told("--select", "E1", "--ignore", "W1", "s"), ["E1"])

    def test_fail_on(self) -> None:
        self.put("a.gabc", "name: a;\n%%\n(c4) <it>a</it>(g)\n")
        self.put(NAME, 'fail-on = ["W6"]\n')
        self.assertEqual(command("check", "a.gabc").returncode, 1)
        self.assertEqual(command("check", "--fail-on", "W3", "a.gabc").returncode, 0)

    def test_where_they_are_found(self) -> None:
        self.put("a.gabc", FOUND)
        self.put("s/t/b.gabc", FOUND)
        self.put("s/u/c.gabc", FOUND)
        self.put(NAME, 'select = ["E1"]')
        self.put("elsewhere/settings", 'select = ["W6"]')
        os.symlink("../../elsewhere/settings", "s/t/" + NAME)
        self.assertEqual(
            self.codes("."),
            [
                ("./a.gabc", "E1"),
                ("./s/t/b.gabc", "W6"),
                ("./s/t/b.gabc", "W6"),
                ("./s/u/c.gabc", "E1"),
            ],
        )
        os.chdir("s/u")
        self.assertEqual(self.codes("c.gabc"), [("c.gabc", "E1")])
        ran = command("check", "--output-format", "lines", "--quiet", "-", data=FOUND.encode())
        self.assertEqual(ran.stdout, b"<stdin>:3:18: error: E1: character left out of the notes\n")

    def test_exclude(self) -> None:
        for name in ("a.gabc", "old/b.gabc", "s/old/c.gabc", "s/d.gabc"):
            self.put(name, FOUND)
        self.put(NAME, 'exclude = ["old/", "s/d.gabc"]')
        self.assertEqual(sorted({name for name, _ in self.codes(".")}), ["./a.gabc"])
        self.assertEqual(sorted({name for name, _ in self.codes("s/d.gabc", "s")}), ["s/d.gabc"])
        self.put("old/b.gabc", LOOSE)
        self.assertEqual(command("format", "--quiet", ".").returncode, 0)
        self.assertEqual(Path("old/b.gabc").read_text(), LOOSE)

    def test_format(self) -> None:
        self.put(NAME, "[format]\nwrap = 10\n")
        for words, text in (
            ((), "(c4) a(f)\nb(g) c(h)\n"),
            (("--wrap", "6"), "(c4)\na(f)\nb(g)\nc(h)\n"),
            (("--no-config",), "(c4) a(f) b(g) c(h)\n"),
            (("--canonical",), "(c4)\na(f)\nb(g)\nc(h)\n"),
        ):
            ran = command("format", "--quiet", *words, "-", data=LOOSE.encode())
            self.assertEqual(
                (ran.returncode, ran.stdout.decode()), (0, f"name: a;\n%%\n{text}"), words
            )
        self.put(NAME, "[format]\ncanonical = true\n")
        file = self.put("a.gabc", LOOSE)
        self.assertEqual(command("format", "--wrap", "80", "--quiet", "a.gabc").returncode, 0)
        self.assertEqual(file.read_text(), "name: a;\n%%\n(c4) a(f) b(g) c(h)\n")
        self.assertEqual(command("format", "--quiet", "a.gabc").returncode, 0)
        self.assertEqual(file.read_text(), "name: a;\n%%\n(c4)\na(f)\nb(g)\nc(h)\n")

    def test_what_is_wrong(self) -> None:
        self.put("a.gabc", FOUND)
        for text, wanted in WRONG:
            self.put(NAME, text)
            for words in (
                ("check", "--output-format", "lines"),
                ("format", "--check"),
                ("check", "--fix"),
            ):
                ran = command(*words, "a.gabc")
                self.assertEqual((ran.returncode, ran.stdout), (3, b""), text[:100])
                self.assertEqual(
                    ran.stderr.decode(), f"gregorio-chant: {self.room / NAME}{wanted}\n"
                )
        self.assertEqual(Path("a.gabc").read_text(), FOUND)
        os.unlink(NAME)
        os.mkfifo(NAME)
        self.assertIn(b"it is no plain file", command("check", "a.gabc").stderr)
        os.unlink(NAME)
        os.symlink("nowhere", NAME)
        self.assertIn(b"No such file or directory", command("check", "a.gabc").stderr)


if __name__ == "__main__":
    unittest.main()
