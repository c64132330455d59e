"""Runs of the recipes of pages, and a folder of scores that could lose something."""

from __future__ import annotations

import os
import shutil
import subprocess
from pathlib import Path

from house.files import ROOT, files_below

from .runs import Ran
from .work import CANONICAL, FAULTY, SCORE, Work

USE, EDITORS = os.path.join("docs", "USE.md"), os.path.join("docs", "EDITORS.md")
# The scores of the folder, by their names without the ending.
SCORES = {
    "whole": CANONICAL,
    "with blanks": SCORE,
    "Kyri\u00e9 \u2013 \u8056\u6b4c": SCORE,
    "-loose": SCORE,
    "faulty": FAULTY,
    "empty": b"",
    "style": b"name: Salve;\n%%\n(c4) <i>Vir(fgf)go</i>(ghg) <c>dul(f)cis</c>(g)\n",
    "comment": b"% set by hand\nname: Kyrie;\n%% the simple tone\n"
    b"(c4) Ky(f)ri(gfg)e(e.) (::) % Mass XVI\n",
    "twice": b"name: Kyrie;\nmode: 1;\nmode: 2;\n%%\n(c4) Ky(f) ri(g)\n",
    "brace": b"name: Kyrie;\n%%\n(c4) {K}y{r}i(f)e[Lord](g)[God](h) (::)\n",
    "translation": b"name: Kyrie;\n%%\n(c4) Ky(f)ri[Lord][God](g) e",
    "mark": b"\xef\xbb\xbfname: Kyrie;\r\n%%\r\n(c4) Ky(f)ri(g)\r\n",
    "carriage": b"name: Kyrie;\r\n%%\r\n\r\n(c4)\tKy(f)ri(g)\r\n",
}
# All files of the two folders.
ALL_FILES = [
    *(f"scores/{it}.gabc" for it in SCORES),
    "scores/with blanks.gabc.new",
    "scores/below/deep.gabc",
    "elsewhere/target.gabc",
]
HOLDERS = ("scores", "elsewhere")


def make_scores(folder: Path) -> None:
    """Makes the folder `scores`, and outside it the score that a link there leads to."""
    for name in ("scores", "scores/below", "elsewhere", "scores/folder.gabc"):
        (folder / name).mkdir()
    for name, held in SCORES.items():
        (folder / f"scores/{name}.gabc").write_bytes(held)
    for name in ("scores/below/deep.gabc", "elsewhere/target.gabc"):
        (folder / name).write_bytes(SCORE)
    (folder / "scores/link.gabc").symlink_to("../elsewhere/target.gabc")
    (folder / "scores/dangling.gabc").symlink_to("nowhere.gabc")
    (folder / "scores/with blanks.gabc.new").write_bytes(b"kept by hand")
    (folder / "scores/with blanks.gabc").chmod(0o640)
    (folder / "elsewhere/target.gabc").chmod(0o604)


def listing(folder: Path) -> dict[str, tuple[int, str]]:
    """Returns the names below the two folders, each with its kind and mode and what it leads to."""
    paths = [it for name in HOLDERS for it in (folder / name, *(folder / name).rglob("*"))]
    return {
        str(it.relative_to(folder)): (
            it.lstat().st_mode,
            os.readlink(it) if it.is_symlink() else "",
        )
        for it in paths
    }


def files_of(folder: Path) -> dict[str, bytes]:
    """Returns the files below `scores`, with what they have: no link leads out of it."""
    paths = [Path(it) for it in files_below(str(folder / "scores"))]
    return {str(it.relative_to(folder)): it.read_bytes() for it in paths if not it.is_symlink()}


class Recipes(Work):
    """An empty folder, in which recipes run with the program and the script on the path. The names
    of those that ran are added to `tried`."""

    def __init__(self, work: Work, surroundings: dict[str, str], tried: set[str]) -> None:
        super().__init__(work.program, work.folder)
        self.surroundings, self.tried = surroundings, tried

    def text(self, name: str, page: str = USE) -> str:
        """Returns the lines of the recipe with this name of a page."""
        script = os.path.join(ROOT, "tools", "recipe.awk")
        words = ["awk", "-v", f"name={name}", "-f", script, os.path.join(ROOT, page)]
        text = subprocess.run(words, capture_output=True, text=True, check=True).stdout
        assert text, f"{page} has no recipe {name}"
        self.tried.add(name)
        return text

    def try_recipe(self, name: str, page: str = USE) -> Ran:
        """Runs the recipe as a script of bash, with no input."""
        return self.command("bash", "-c", self.text(name, page))

    def command(self, *words: str) -> Ran:
        """Runs a command."""
        return self.start(words, env=self.surroundings)

    def make_scores(self) -> None:
        """Makes the scores here, and a copy in the folder `before`."""
        make_scores(self.folder)
        for name in HOLDERS:
            shutil.copytree(self.folder / name, self.folder / "before" / name, symlinks=True)

    def is_unchanged(self) -> bool:
        """Returns whether the scores are byte for byte as they were made."""
        before = self.folder / "before"
        same = listing(self.folder) == listing(before)
        return same and files_of(self.folder) == files_of(before)
