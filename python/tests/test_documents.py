"""Compares what the documents show with what the package does."""
from __future__ import annotations

import contextlib
import io
import os
import re
import subprocess
import sys
import unittest
from dataclasses import fields, is_dataclass
from pathlib import Path

from pages import block
from support import ROOT, SCORE, InFolder, command, has

from gregorio_chant import dump
from gregorio_chant.commands.main import COMMANDS
from gregorio_chant.dump import Item
from gregorio_chant.linting.codes import CODES
from gregorio_chant.linting.rules import RULES
from gregorio_chant.objects.reading import Reading
from gregorio_chant.work.keys import FORMAT, FORMAT_KEYS, KEYS
from gregorio_chant.work.settings import Finder, Settings

PAGE = (ROOT / "docs" / "PYTHON.md").read_text(encoding="utf-8")
OBJECTS = (ROOT / "docs" / "OBJECTS.md").read_text(encoding="utf-8")
README = (ROOT / "README.md").read_text(encoding="utf-8")


# What each object has, and what the package alone asks for.
_INNER = {*dir(Item), "pieces", "repeats", "parse", "signs"}


def public_names(its: type) -> set[str]:
    """Returns the names that a class has for its users, but for those of what all are."""
    names = {it.name for it in fields(its)} if is_dataclass(its) else set()
    for it in its.__mro__:
        if it not in (Reading, object):
            names |= vars(it).keys()
    return {it for it in names if it[0] != "_"}


class Documents(InFolder):
    @unittest.skipUnless(has("rich"), "there is no rich")
    def test_picture(self) -> None:
        """The screen of the README is what the command writes."""
        first, shown = block("README.md", "picture: check").split("\n", 1)
        self.assertTrue(first.startswith("$ gregorio-chant check "), first)
        self.assertLess(shown.count("\n"), 30)
        self.addCleanup(os.chdir, os.getcwd())
        os.chdir(ROOT)
        self.assertEqual(
            command(*first.split()[2:], environment={"COLUMNS": "100"}).stdout.decode(), shown
        )

    def test_picture_of_the_score(self) -> None:
        """The picture of the README is what its command makes of its first example. `gregorio-chant
        show` with these words writes it anew."""
        score = block("README.md", "test: score").encode()
        (words,) = re.findall(r"`gregorio-chant\s(show\s[^`]*?)\sscore\.gabc`", README)
        self.assertEqual(
            command(*words.split(), "-", data=score).stdout,
            (ROOT / "docs" / "kyrie.svg").read_bytes(),
        )

    def test_options(self) -> None:
        """Each option of the command stands in the page, and no other."""
        helps = "".join(
            command(*it, "--help").stdout.decode() for it in ((), *((it,) for it in COMMANDS))
        )
        options = set(re.findall(r"(?<![\w.-])--[a-z][a-z-]+", PAGE + OBJECTS)) - {
            "--no-deps",
            "--help",
        }
        self.assertEqual(set(re.findall(r"--[a-z][a-z-]+", helps)) - {"--help", "--"}, options)

    def test_example(self) -> None:
        with contextlib.redirect_stdout(io.StringIO()) as written:
            exec(block("docs/OBJECTS.md", "test: places"), {})
        self.assertEqual(written.getvalue(), block("docs/OBJECTS.md", "test: places, printed"))

    def test_calls(self) -> None:
        with contextlib.redirect_stdout(io.StringIO()) as written:
            exec(block("docs/PYTHON.md", "test: calls"), {})
        self.assertEqual(written.getvalue(), block("docs/PYTHON.md", "test: calls, printed"))

    def test_edits(self) -> None:
        with contextlib.redirect_stdout(io.StringIO()) as written:
            exec(block("docs/OBJECTS.md", "test: edits"), {})
        self.assertEqual(written.getvalue(), block("docs/OBJECTS.md", "test: edits, printed"))

    def test_formatted(self) -> None:
        made = command("format", "-", data=block("docs/PYTHON.md", "test: format").encode())
        self.assertEqual(
            (made.returncode, made.stdout.decode()), (0, block("docs/PYTHON.md", "test: formatted"))
        )

    def test_picture_of_python(self) -> None:
        """The lines of the page write a picture."""
        self.put("kyrie.gabc", SCORE)
        exec(block("docs/PYTHON.md", "test: picture"), {})
        self.assertRegex(Path("kyrie.svg").read_text(encoding="utf-8"), r"(?s)^<svg .*</svg>\n$")

    def test_settings(self) -> None:
        """The settings of the page are read, and say something for each key; so is the example of
        each key."""
        path = self.room / "gregorio-chant.toml"
        path.write_text(block("docs/SETTINGS.md", "test: settings"))
        settings = Finder({*CODES, *RULES}).of(str(self.room / "a.gabc"))
        self.assertNotIn(None, [getattr(settings, it.name) for it in fields(settings)])
        self.assertTrue(
            settings.excludes(str(self.room / "old" / "b.gabc")) and settings.ignores_of_files
        )
        for table, keys in (("", KEYS), (f"[{FORMAT}]\n", FORMAT_KEYS)):
            for key in keys:
                path.write_text(f"{table}{key.name} = {key.example}\n")
                changed = {
                    it.name
                    for it in fields(Settings)
                    if getattr(Finder({*CODES, *RULES}).of(str(self.room / "a.gabc")), it.name)
                    != getattr(Settings(), it.name)
                }
                self.assertEqual(changed, {"folder", key.field})

    def test_classes(self) -> None:
        """Each field of each class stands in the page, and each name that stands there is one."""
        rows = {
            name: row
            for names, row in re.findall(
                r"^\| (`[A-Z]\w+`(?:, `[A-Z]\w+`)*) \| (.*) \|$", OBJECTS, re.MULTILINE
            )
            for name in re.findall(r"\w+", names)
        }
        told = {it for it in dump.__all__ if isinstance(getattr(dump, it), type)} - {
            "EditError",
            "Edited",
            "ScoreError",
            "Item",
            "Place",
        }
        self.assertEqual(set(rows), told)
        signs = OBJECTS.partition("## Signs\n")[2].partition("\n## ")[0]
        rows["Note"] += " ".join(re.findall(r"^\| (`.*?`) \|", signs, re.MULTILINE))
        for name, row in rows.items():
            its = getattr(dump, name)
            words = set(re.findall(r"`([a-z]\w*)[`(]", row)) - {"z0", "h", "su", "pp", "ls", "lt"}
            self.assertLessEqual(public_names(its) - _INNER, words, name)
            for word in words:
                self.assertTrue(hasattr(its, word) or word in public_names(its), f"{name}.{word}")

    def test_rules(self) -> None:
        """The pages of rules and of settings are what is printed from their tables."""
        ran = subprocess.run(
            [sys.executable, ROOT / "tools" / "print_pages", "--check"],
            capture_output=True,
            text=True,
            check=False,
        )
        self.assertEqual((ran.returncode, ran.stdout, ran.stderr), (0, "", ""))
        self.assertEqual(
            re.findall(
                r"^## (.*)$", (ROOT / "docs" / "RULES.md").read_text(encoding="utf-8"), re.MULTILINE
            ),
            list(RULES),
        )

    def test_each_help_says_what_is_not_proved(self) -> None:
        for words in (
            ["--help"],
            *([it, "--help"] for it in COMMANDS if it not in ("explain", "version")),
        ):
            self.assertRegex(
                command(*words).stdout.decode().replace("\n", " "),
                "outside (that|the) +proof|this command is tested",
                words,
            )


class Examples(InFolder):
    def test_a_run(self) -> None:
        self.put("score.gabc", "name: a;\n%%\n(c4) Ky(f)ri(/./)")
        with contextlib.redirect_stdout(io.StringIO()) as written:
            exec(block("docs/PYTHON.md", "test: run"), {})
        self.assertEqual(
            written.getvalue().split("\n"),
            ["3 15 E1 character left out of the notes", "<Status.ERRORS: 1>", ""],
        )
        self.assertEqual(Path("new.gabc").read_text(), "name: a;\n%%\n(c4)\nKy(f)ri(//)\n")
