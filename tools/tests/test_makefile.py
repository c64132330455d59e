"""What the targets of the Makefile are, and that they call scripts and options that are there."""

from __future__ import annotations

import os
import re
import shutil
import subprocess
import unittest

ROOT = os.path.dirname(os.path.dirname(os.path.dirname(os.path.realpath(__file__))))
SCRIPT = re.compile(r"(?:tools|bin|\.ci)/\w+")
WANTED = ["check", "quick", "test", "lint", "fmt", "docs", "release"]


def read(path: str) -> str:
    with open(os.path.join(ROOT, path), encoding="utf-8") as file:
        return file.read()


def text_of(script: str) -> str:
    """Returns the text of a script, and of the module of `tools/house` that it starts, if so."""
    text = read(script)
    module = re.search(r'"house\.(\w+)"', text)
    return text + read(f"tools/house/{module[1]}.py") if module else text


class MakefileTest(unittest.TestCase):
    def setUp(self) -> None:
        self.makefile = read("Makefile")
        found: list[tuple[str, str, str]] = re.findall(
            r"(?m)^([a-z]+): ## (.+)\n\t(.+)\n(?!\t)", self.makefile
        )
        self.words = {target: words for target, words, _ in found}
        self.lines = {target: line for target, _, line in found}

    def test_targets_are_those_that_are_wanted(self) -> None:
        self.assertEqual(list(self.lines), WANTED)

    def test_no_target_is_a_file(self) -> None:
        phony = re.search(r"(?m)^\.PHONY: (.+)$", self.makefile)
        self.assertIsNotNone(phony)
        self.assertEqual(phony and phony[1].split(), ["help", *WANTED])

    def test_contributing_lists_them_with_the_same_words_before_all_other_commands(self) -> None:
        commands = read("CONTRIBUTING.md").split("\n## Commands\n")[1]
        first = next(it for it in commands.split("\n\n") if it.startswith("    "))
        listed = re.findall(r"(?m)^    make ([a-z]+) +(.+)$", first)
        self.assertEqual(listed, list(self.words.items()))

    def test_scripts_and_their_options_are_there(self) -> None:
        for target, line in self.lines.items():
            found = [(it, SCRIPT.search(it)) for it in line.split("&&")]
            scripts = [(command, script[0]) for command, script in found if script]
            self.assertTrue(scripts or target == "check", target)
            for command, script in scripts:
                self.assertTrue(os.access(os.path.join(ROOT, script), os.X_OK), command)
                for option in re.findall(r" (--[a-z-]+)", command):
                    self.assertIn(option, text_of(script), command)

    @unittest.skipUnless(shutil.which("make"), "there is no make")
    def test_make_alone_prints_them(self) -> None:
        # Any other target would run for hours.
        self.assertIn("\n.DEFAULT_GOAL := help\n", self.makefile)
        ran = subprocess.run(["make", "-s"], cwd=ROOT, capture_output=True, text=True, check=True)
        printed = [tuple(it.split(maxsplit=2)[1:]) for it in ran.stdout.splitlines()]
        self.assertEqual(printed, list(self.words.items()))


if __name__ == "__main__":
    unittest.main()
