"""Tries the words of the command: help, version, and that the man page and the completions have
the same words."""
from __future__ import annotations

import re
import shlex
import shutil
import subprocess
import unittest

from support import FAULTY, ROOT, InFolder, command

from gregorio_chant import __version__
from gregorio_chant.commands.main import parsers
from gregorio_chant.format.losses import REASONS
from gregorio_chant.linting.codes import CODES
from gregorio_chant.linting.rules import RULES

PAGE = ROOT / "docs" / "gregorio-chant.1"
BASH = ROOT / "completions" / "gregorio-chant.bash"
ZSH = ROOT / "completions" / "_gregorio-chant"


def options() -> dict[str, set[str]]:
    """Returns the long options of each sub-command but `--help`."""
    return {
        name: {it for it in parser._option_string_actions if it.startswith("--")} - {"--help"}
        for name, parser in parsers()[1].items()
    }


class Words(InFolder):
    def test_help_is_wrapped(self) -> None:
        for words in ((), *((it,) for it in options())):
            for width in (60, 100):
                shown = (
                    command(*words, "--help", environment={"COLUMNS": str(width)})
                    .stdout.decode()
                    .split("\n")
                )
                examples = [it for it in shown if it.startswith("    gregorio-chant ")]
                self.assertEqual(
                    [it for it in shown if len(it) > width and it not in examples], [], words
                )

    def test_examples_of_help(self) -> None:
        """The help of the command and of the sub-commands with files or codes has three examples
        each, or four, which run."""
        self.put("scores/a.gabc", FAULTY)
        self.put("score.gabc", FAULTY)
        for words in (
            (),
            ("check",),
            ("format",),
            ("show",),
            ("explain",),
            ("find",),
            ("index",),
            ("neumes",),
        ):
            shown = command(*words, "--help").stdout.decode()
            examples = re.findall(r"(?m)^    gregorio-chant (.*)$", shown)
            self.assertIn(len(examples), (3, 4))
            for it in examples:
                ran = command(*shlex.split(it.partition(">")[0]))
                self.assertLessEqual(ran.returncode, 1, (it, ran.stderr))

    def test_version(self) -> None:
        lines = command("version").stdout.decode().split("\n")
        self.assertEqual(lines[:2], [f"gregorio-chant {__version__}", f"library {__version__}"])
        self.assertRegex(
            "\n".join(lines[2:]),
            r"^commit (unknown|[0-9a-f]{40}(, with changes)?)\nkit (unknown|.+)\n$",
        )


class SameWords(unittest.TestCase):
    def test_man_page(self) -> None:
        page = PAGE.read_text(encoding="utf-8").replace("\\-", "-")
        self.assertIn(f'"Zendovyi {__version__}"', page)
        for name, known in options().items():
            (section,) = re.findall(rf"(?ms)^\.SH {name.upper()}\n(.*?)^\.SH ", page)
            self.assertEqual(set(re.findall(r"(?m)^\.BI? (--[a-z-]+)", section)), known, name)

    def test_page(self) -> None:
        """The page has a section for each sub-command, with each option."""
        page = "".join(
            (ROOT / "docs" / it).read_text(encoding="utf-8") for it in ("PYTHON.md", "OBJECTS.md")
        )
        for name, known in options().items():
            heading = {"server": "Messages while you type"}.get(name, name.capitalize())
            (section,) = re.findall(rf"(?ms)^## {heading}\n(.*?)(?:^## |\Z)", page)
            self.assertEqual(
                [
                    it
                    for it in sorted(known)
                    if f"`{it}" not in section and f" {it}`" not in section
                ],
                [],
                name,
            )

    def test_bash(self) -> None:
        ask = (
            f". {shlex.quote(str(BASH))}; for name in {' '.join(options())}; do"
            " _gregorio_chant_options $name; done"
        )
        lines = subprocess.run(
            ["bash", "--norc", "-c", ask], capture_output=True, text=True, check=True
        ).stdout.split("\n")
        self.assertEqual(
            [set(it.split()) - {"--help"} for it in lines[:-1]], list(options().values())
        )
        text = BASH.read_text(encoding="utf-8")
        self.assertEqual(
            re.findall(r"local codes='(.*)'", text),
            [" ".join(["E", *_kind("E"), "W", *_kind("W"), "F", *_kind("F")])],
        )
        self.assertEqual(re.findall(r"local rules='(.*)'", text), [" ".join(RULES)])
        self.assertEqual(
            set(re.findall(r"--allow\) _gregorio_chant_list .* '(.*)'", text)[0].split()), REASONS
        )
        self.assertIn(f"compgen -W '{' '.join(options())}'", text)

    def test_zsh(self) -> None:
        text = ZSH.read_text(encoding="utf-8")
        for name, known in options().items():
            (section,) = re.findall(rf"(?ms)^    {name}\)\n(.*?)^      ;;", text)
            self.assertEqual(set(re.findall(r"--[a-z-]+", section)) - {"--help"}, known, name)
        self.assertEqual(re.findall(r"(?m)^codes=\((.*)\)", text), [" ".join(CODES)])
        self.assertEqual(re.findall(r"(?m)^rules=\((.*)\)", text), [" ".join(RULES)])
        self.assertEqual(set(re.findall(r"_values -s , reason (.*)'", text)[0].split()), REASONS)
        self.assertEqual(re.findall(r"(?m)^  '([a-z]+):", text), list(options()))

    def test_groff(self) -> None:
        if not shutil.which("groff"):
            self.skipTest("there is no groff")
        for page in (PAGE, PAGE.with_name("check_canonical.1")):
            self.assertIn(f'"Zendovyi {__version__}"', page.read_text(encoding="utf-8"))
            ran = subprocess.run(
                ["groff", "-man", "-ww", "-Tutf8", str(page)],
                stdout=subprocess.DEVNULL,
                stderr=subprocess.PIPE,
                check=False,
            )
            self.assertEqual(ran.stderr, b"")


def _kind(letter: str) -> list[str]:
    return [it for it in CODES if it[0] == letter]
