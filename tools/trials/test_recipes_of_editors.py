"""Tries the lines of docs/EDITORS.md in editors: on one message of each kind they list the file,
line and column, and whether it is a warning. Then each recipe has run."""

from __future__ import annotations

import json
import os
import re
import shutil
from collections.abc import Iterator

import pytest
from house.files import ROOT, read

from .recipes import EDITORS, USE, Recipes
from .work import FAULTY

NAME = "Kyrie \u00e8.gabc"
WANTED = [f"{NAME} 1 1 w", f"{NAME} 2 3 e", "empty.gabc 1 1 f"]
VIM_LISTS = (
    'call writefile(map(getqflist(), {_, it -> bufname(it.bufnr) . " " . it.lnum . " " . it.col'
    ' . " " . (it.type == "" ? "f" : it.type)}), "got", "a")'
)
EMACS_LISTS = r"""
(let ((rule (car compilation-error-regexp-alist))
      (told (with-temp-buffer (insert-file-contents "list") (buffer-string))))
  (dolist (line (split-string told "\n" t))
    (string-match (car rule) line)
    (princ (format "%s %s %s %s\n" (match-string 1 line) (match-string 2 line) (match-string 3 line)
      (if (match-string 4 line) "w" (substring (nth 1 (split-string line ": ")) 0 1))))))
"""


@pytest.fixture
def listed(recipes: Recipes) -> Recipes:
    """Returns a folder with two scores, and their messages in the file `list`."""
    recipes.put(NAME, FAULTY)
    recipes.put("empty.gabc", b"")
    words = ["-F", "gabc", "-o", "/dev/null"]
    runs = [recipes.run(*words, *it) for it in (["-W", NAME], ["empty.gabc"])]
    recipes.put("list", b"".join(it.messages for it in runs))
    return recipes


def editor_words(name: str) -> list[str]:
    """Returns how an editor of vim's kind is started. Skips the test if there is none."""
    if not shutil.which(name):
        pytest.skip(f"there is no {name}")
    flags = {"vim": ["-N", "-es"], "nvim": ["--headless"]}[name]
    return [name, *flags, "-u", "vim.vim", "-i", "NONE"]


def put_recipe(recipes: Recipes, name: str, file: str) -> None:
    """Writes a recipe into a file."""
    recipes.put(file, recipes.text(name, EDITORS).encode())


@pytest.mark.parametrize("editor", ["vim", "nvim"])
def test_what_make_lists(listed: Recipes, editor: str) -> None:
    put_recipe(listed, "vim", "vim.vim")
    for name in (NAME, "empty.gabc"):
        commands = ["-c", "silent! make!", "-c", VIM_LISTS, "-c", "qa!"]
        listed.command(*editor_words(editor), name, *commands)
    assert listed.held("got").decode().splitlines() == WANTED


@pytest.mark.parametrize("editor", ["vim", "nvim"])
def test_other_files_are_left_alone(listed: Recipes, editor: str) -> None:
    put_recipe(listed, "vim", "vim.vim")
    commands = ["-c", 'call writefile([&makeprg], "got")', "-c", "qa!"]
    listed.command(*editor_words(editor), "other.c", *commands)
    assert listed.held("got") == b"make\n"


def lines_of_task(recipes: Recipes) -> Iterator[str]:
    """Yields what the task for VS Code lists of the two scores."""
    task = json.loads(recipes.text("vscode", EDITORS))["tasks"][0]
    matcher = task["problemMatcher"]
    pattern = matcher["pattern"]
    for name in (NAME, "empty.gabc"):
        words = [it.replace("${file}", name) for it in task["args"]]
        for line in recipes.command(task["command"], *words).messages.decode().splitlines():
            found = re.fullmatch(pattern["regexp"], line)
            assert found, line
            severity = found[pattern["severity"]] or matcher["severity"]
            kind = "f" if found[pattern["code"]][0] == "F" else severity[0]
            place = (found[pattern[it]] for it in ("file", "line", "column"))
            yield " ".join([*place, kind])


def test_the_task_for_vs_code(listed: Recipes) -> None:
    assert [*lines_of_task(listed)] == WANTED


def test_the_pattern_for_emacs(listed: Recipes) -> None:
    put_recipe(listed, "emacs", "emacs.el")
    if not shutil.which("emacs"):
        pytest.skip("there is no emacs")
    ran = listed.command("emacs", "-Q", "--batch", "--load", "emacs.el", "--eval", EMACS_LISTS)
    assert ran.output.decode().splitlines() == WANTED


def test_each_recipe_is_tried(tried: set[str]) -> None:
    """All recipes of the two pages ran in this session."""
    texts = [read(os.path.join(ROOT, page)) for page in (USE, EDITORS)]
    names = [it for text in texts for it in re.findall(r"(?m)^<!-- recipe: (.*) -->$", text)]
    assert names and {*names} <= tried
