"""The pages for newcomers: their scores have no message, their commands say what they show, and
their pictures are those of their scores."""
from __future__ import annotations

import re
import runpy
import subprocess
import sys
import unittest
from typing import Any

from pages import block, blocks_of
from support import ROOT, InFolder, command, has

from gregorio_chant import check

TUTORIAL, SHEET = "docs/TUTORIAL.md", "docs/CHEATSHEET.md"
TOOL = ROOT / "tools" / "draw_pages"
LEARN = ROOT / "python" / "gregorio_chant" / "web" / "learn"


def scores_of(page: str) -> dict[str, str]:
    """Returns the scores of a page by their names, those whose mark is `score: NAME`."""
    return {
        it.mark.partition(": ")[2]: it.text
        for it in blocks_of(page)
        if it.mark.startswith("score: ")
    }


class Pages(InFolder):
    def test_show(self) -> None:
        """The first picture is made by the line of the tutorial."""
        self.put("amen.gabc", scores_of(TUTORIAL)["amen"])
        words = block("docs/TUTORIAL.md", "test: show").split()
        self.assertEqual(command(*words[1:]).returncode, 0)
        self.assertIn("<svg ", (self.room / "amen.html").read_text(encoding="utf-8"))

    def test_scores(self) -> None:
        scores = scores_of("docs/TUTORIAL.md")
        self.assertGreater(len(scores), 3)
        for name, score in scores.items():
            self.assertEqual([str(it) for it in check(score).messages], [], name)

    @unittest.skipUnless(has("rich"), "there is no rich")
    def test_mistake(self) -> None:
        """The mistake of the tutorial is told as the page shows it, and mended again it is told no
        more."""
        first, shown = block("docs/TUTORIAL.md", "test: check").split("\n", 1)
        score = scores_of(TUTORIAL)["two lines"]
        self.put("kyrie.gabc", score.replace("e(gf) *(,)", "e(gf *(,)"))
        self.assertEqual(
            command(*first.split()[2:], environment={"COLUMNS": "120"}).stdout.decode(), shown
        )
        self.put("kyrie.gabc", score)
        self.assertEqual(command(*first.split()[2:]).returncode, 0)

    def test_format(self) -> None:
        words = block("docs/TUTORIAL.md", "test: format").split()
        path = self.put(
            "kyrie.gabc", scores_of(TUTORIAL)["two lines"].replace("mode: 1;", "mode:1 ;")
        )
        self.assertEqual(command(*words[1:]).returncode, 0)
        self.assertEqual(path.read_text(encoding="utf-8"), scores_of(TUTORIAL)["two lines"])

    def test_rows(self) -> None:
        """Each row of the cheat sheet is read without an error."""
        tool: dict[str, Any] = runpy.run_path(str(TOOL))
        rows = tool["in_cheat_sheet"]((ROOT / SHEET).read_text(encoding="utf-8"))
        self.assertGreater(len(rows), 35)
        for row in rows:
            self.assertEqual([str(it) for it in check(row.score).messages], [], row.file)

    def test_pictures(self) -> None:
        """The pictures are those of the scores beside them."""
        ran = subprocess.run(
            [sys.executable, TOOL, "--check"], capture_output=True, text=True, check=False
        )
        self.assertEqual((ran.returncode, ran.stdout, ran.stderr), (0, "", ""))

    @unittest.skipUnless(has("markdown"), "there is no markdown")
    def test_html(self) -> None:
        """The pages of HTML are those of the tutorial and of the cheat sheet."""
        ran = subprocess.run(
            [sys.executable, ROOT / "tools" / "print_html", "--check"],
            capture_output=True,
            text=True,
            check=False,
        )
        self.assertEqual((ran.returncode, ran.stdout, ran.stderr), (0, "", ""))

    def test_html_stands_alone(self) -> None:
        """A page of HTML has as many pictures as the page that it is made of, in itself, and asks
        for nothing."""
        for name, file in ((TUTORIAL, "tutorial.html"), (SHEET, "cheatsheet.html")):
            page = (LEARN / file).read_text(encoding="utf-8")
            pictures = re.findall(r'<img alt="(.*?)" src="(.{20})', page)
            self.assertEqual(
                [alt for alt, _ in pictures],
                re.findall(r"!\[(.*?)\]\(pictures/", (ROOT / name).read_text(encoding="utf-8")),
            )
            self.assertEqual({address for _, address in pictures}, {"data:image/svg+xml,%"})
            self.assertEqual(
                {it for it in re.findall(r'(?:href|src)="([^":]*)"', page)},
                {"tutorial.html", "cheatsheet.html"},
            )
            self.assertNotIn("<script", page)

    def test_all_are_shown(self) -> None:
        """Each score of the tutorial has a picture after it."""
        tool: dict[str, Any] = runpy.run_path(str(TOOL))
        page = (ROOT / TUTORIAL).read_text(encoding="utf-8")
        self.assertEqual(
            [it.score for it in tool["in_tutorial"](page)], [*scores_of(TUTORIAL).values()]
        )

    def test_letters(self) -> None:
        """The cheat sheet has each bar and each sign that the table of LANGUAGE.md names for
        notes."""
        codes = "".join(re.findall(r"`+(.*?)`+ \|", (ROOT / SHEET).read_text(encoding="utf-8")))
        self.assertEqual(
            [
                it
                for it in (
                    ",",
                    ";",
                    ":",
                    "::",
                    "z",
                    "x",
                    "y",
                    "_",
                    "'",
                    ".",
                    "~",
                    "w",
                    "o",
                    "s",
                    "v",
                    "+",
                    "/",
                    "-",
                )
                if it not in codes
            ],
            [],
        )
