"""Compares the table of codes with the man page, the compiler and LANGUAGE.md, and tries each wrong
line and its right one."""
from __future__ import annotations

import re
import shlex
import unittest

from support import ROOT, command

from gregorio_chant import check
from gregorio_chant.linting.codes import CODES
from gregorio_chant.linting.finding import messages_with_rules
from gregorio_chant.linting.repairs import REPAIRS
from gregorio_chant.linting.rules import RULES
from gregorio_chant.objects.compiled import Compiled


def meanings_of_man_page() -> dict[str, str]:
    """Returns what the man page says of each code, as plain text."""
    found: dict[str, list[str]] = {}
    code, before = None, ""
    for line in (ROOT / "docs" / "gregorio.1").read_text(encoding="utf-8").split("\n"):
        heading = re.fullmatch(r"\.B ([EWF]\d+)", line)
        if heading and before == ".TP":
            code = heading[1]
            found[code] = []
        elif line == ".TP" or line.startswith((".S", ".P")):
            code = None
        elif code is not None:
            found[code].append(_plain(line))
        before = line
    return {code: " ".join(it) for code, it in found.items()}


def _plain(line: str) -> str:
    """Returns a line of the man page as it is shown: a macro of two fonts joins its words."""
    if line.startswith("."):
        macro, *words = shlex.split(line)
        line = ("" if len(macro) == 3 else " ").join(words)
    return line.replace("\\-", "-")


class Table(unittest.TestCase):
    def test_man_page(self) -> None:
        self.assertEqual(meanings_of_man_page(), {name: it.meaning for name, it in CODES.items()})

    def test_language(self) -> None:
        rows = re.findall(
            r"^\| ([EWF]\d+) \| `([^`]*)` \|",
            (ROOT / "docs" / "LANGUAGE.md").read_text(encoding="utf-8"),
            re.MULTILINE,
        )
        self.assertEqual(dict(rows), {name: it.text for name, it in CODES.items()})

    def test_lines(self) -> None:
        for code in CODES.values():
            with self.subTest(code.name):
                if not code.is_tried:
                    self.skipTest(f"{code.name} wants a score of more than 4 GB")
                found = check(code.score_with(code.wrong)).messages
                self.assertIn(
                    (code.name, code.text, code.kind), [(it.code, it.text, it.kind) for it in found]
                )
                self.assertEqual(
                    [it.code for it in check(code.score_with(code.right)).messages],
                    [],
                    code.right[:100],
                )

    def test_lines_of_rules(self) -> None:
        for rule in RULES.values():
            with self.subTest(rule.name):
                self.assertIn(
                    rule.name,
                    [it.code for it in messages_with_rules(Compiled(rule.score_with(rule.wrong)))],
                )
                self.assertEqual(messages_with_rules(Compiled(rule.score_with(rule.right))), ())


class Command(unittest.TestCase):
    def test_page(self) -> None:
        ran = command("explain", "e6")
        self.assertEqual(
            ran.stdout.decode(),
            (
                "E6: error: unfinished end of the notes left out\n\nThe notes of a syllable end too"
                " early, for example with a - and no note after\nit. Finish or remove the"
                " end.\n\nWrong:\n    Ky(fg-)\n\nRight:\n    Ky(f-g)\n"
            ),
        )
        self.assertEqual((ran.returncode, ran.stderr), (0, b""))

    def test_repairs(self) -> None:
        """The page of a code shows each of its repairs, and the page of the package lists them."""
        for repair in REPAIRS.values():
            for code in repair.codes:
                shown = command("explain", code).stdout.decode()
                self.assertIn(f"\n\nRepair {repair.name}, by check --fix", shown)
                for head, lines in (("Before", repair.wrong), ("After", repair.right)):
                    self.assertIn(
                        f"\n{head}:\n" + "".join(f"    {it}\n" for it in lines.split("\n")), shown
                    )
        page = (ROOT / "docs" / "PYTHON.md").read_text(encoding="utf-8")
        rows = re.findall(
            r"^\| `([a-z-]+)` \| (`[\w-]+`(?:, `[\w-]+`)*) \| (yes|no) \| (.*) \|$",
            page,
            re.MULTILINE,
        )
        told = []
        for repair in REPAIRS.values():
            meaning = repair.meaning[0].lower() + repair.meaning[1:].rstrip(".")
            codes = ", ".join(f"`{code}`" for code in sorted(repair.codes))
            cell = (meaning if repair.is_safe else f"{meaning} ({repair.changes})").replace(
                "|", "\\|"
            )
            told.append((repair.name, codes, "yes" if repair.is_safe else "no", cell))
        self.assertEqual(rows, told)

    def test_rule(self) -> None:
        """The page of a rule says why, what is wrong and right, and how to silence it."""
        shown = command("explain", "late-punctuation").stdout.decode()
        self.assertEqual(
            shown,
            (
                "late-punctuation: warning, by check --rules alone\n\nA comma or another sign of"
                " punctuation follows the notes of its word. Write it\nbefore their (.\n\nWrong:\n "
                "   Ky(f)ri(g)e(h), (;)\n\nRight:\n    Ky(f)ri(g)e,(h) (;)\n\nSilence it, on its"
                " line or in the whole score:\n    % gregorio: ignore late-punctuation\n    %"
                " gregorio: ignore-file late-punctuation\n"
            ),
        )
        for rule in RULES.values():
            silenced = rule.score_with(f"{rule.wrong} % gregorio: ignore-file {rule.name}")
            if rule.name != "unused-ignore" and not rule.after.startswith("\n%%"):
                self.assertNotIn(
                    rule.name, [it.code for it in messages_with_rules(Compiled(silenced))]
                )

    def test_all(self) -> None:
        shown = command("explain", "--all").stdout.decode()
        for name in [*CODES, *RULES]:
            self.assertRegex(shown, rf"(?m)^{name}: ")

    def test_unknown(self) -> None:
        for words in (("explain", "E99"), ("explain",)):
            ran = command(*words)
            self.assertEqual((ran.returncode, ran.stdout), (3, b""))
            self.assertIn(b"--all", ran.stderr)
