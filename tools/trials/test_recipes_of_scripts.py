"""Runs the recipes of docs/USE.md that read statuses, messages and dumps in scripts."""

from __future__ import annotations

import json
import shutil

import pytest

from .recipes import SCORES, Recipes
from .runs import Ran
from .work import FAULTY, SCORE

# What `scores/link.gabc` leads to is a score too.
LINKED = {**SCORES, "link": SCORE}
NAMES = ["status", "messages", "json", "annotations", "pitches", "difference"]
ANNOTATIONS = b"""\
::warning file=score.gabc,line=1,col=1::W1: no name header
::error file=score.gabc,line=2,col=3::E1: character left out of the notes
"""
NO_LINE = b"::error file=score.gabc,line=1,col=1::F2: no %25%25 line\n"
OBJECTS = [
    ["score.gabc", 1, 1, "warning", "W1", "no name header"],
    ["score.gabc", 2, 3, "error", "E1", "character left out of the notes"],
]


@pytest.mark.parametrize("score", LINKED)
@pytest.mark.parametrize("name", NAMES)
def test_recipe_leaves_a_score_as_it_is(recipes: Recipes, name: str, score: str) -> None:
    text = recipes.text(name)
    if "jq" in text and not shutil.which("jq"):
        pytest.skip("there is no jq")
    recipes.put("score.gabc", LINKED[score])
    recipes.try_recipe(name)
    assert recipes.held("score.gabc") == LINKED[score]


def test_messages_in_a_script(recipes: Recipes) -> None:
    recipes.put("score.gabc", FAULTY)
    ran = recipes.try_recipe("messages")
    assert ran.output == b"line 2: character left out of the notes\n"


@pytest.mark.skipif(not shutil.which("jq"), reason="there is no jq")
def test_messages_as_json(recipes: Recipes) -> None:
    recipes.put("score.gabc", FAULTY)
    output = recipes.try_recipe("json").output.decode()
    found = json.loads("[" + output.replace("}\n{", "},{") + "]")
    keys = ("file", "line", "column", "kind", "code", "text")
    assert [[it[key] for key in keys] for it in found] == OBJECTS


@pytest.mark.parametrize("score, output", [(FAULTY, ANNOTATIONS), (b"", NO_LINE)])
def test_messages_as_annotations(recipes: Recipes, score: bytes, output: bytes) -> None:
    recipes.put("score.gabc", score)
    assert recipes.try_recipe("annotations") == Ran(0, output, b"")


@pytest.mark.parametrize(
    "score, output",
    [
        (SCORE, b"no error\n"),
        (FAULTY, b"written, with something left out\n"),
        (b"", b"read up to a fatal fault\n"),
    ],
)
def test_statuses_in_a_script(recipes: Recipes, score: bytes, output: bytes) -> None:
    recipes.put("score.gabc", score)
    assert recipes.try_recipe("status").output == output


def test_statuses_in_a_script_with_no_file(recipes: Recipes) -> None:
    assert recipes.try_recipe("status").output == b"not run, or broken off\n"


def test_pitches_of_a_dump(recipes: Recipes) -> None:
    recipes.put("score.gabc", SCORE)
    assert recipes.try_recipe("pitches") == Ran(0, b"Ky: f\nri: g f g\ne: e\n", b"")
