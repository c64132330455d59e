"""Runs the recipes of docs/USE.md for folders of scores and before a commit, on scores that could
lose something, the program's line of the README, and the links of docs/INSTALL.md."""

from __future__ import annotations

import os
import shutil
from collections.abc import Callable

import pytest
from house.files import ROOT

from .recipes import ALL_FILES, SCORES, Recipes, files_of, listing
from .runs import Ran
from .work import CANNOT_OPEN, CANONICAL, SCORE

WHOLE = {"scores/carriage.gabc": b"name: Kyrie;\n%%\n(c4)\nKy(f)ri(g)\n"}
WHOLE |= {
    f"scores/{it}.gabc": CANONICAL
    for it in ("with blanks", "Kyri\u00e9 \u2013 \u8056\u6b4c", "-loose", "link")
}


def test_links(recipes: Recipes) -> None:
    """No program `gregorio` is hidden."""
    project, home = recipes.folder / "project", recipes.folder / "home"
    home.mkdir()
    ends = {"gregorio-canonical": "bin/gregorio", "check_canonical": "tools/check_canonical"}
    for it in ends.values():
        (project / it).parent.mkdir(parents=True)
        (project / it).symlink_to(os.path.join(ROOT, it))
    line = ["bash", "-c", recipes.text("links", "docs/INSTALL.md")]
    recipes.start(line, cwd=project, env={**recipes.surroundings, "HOME": str(home)})
    made = home / ".local" / "bin"
    found = {it.name: os.path.realpath(it) for it in made.iterdir()}
    assert found == {name: os.path.join(ROOT, it) for name, it in ends.items()}


def test_the_line_of_the_readme(recipes: Recipes) -> None:
    recipes.put("score.gabc", SCORE)
    assert recipes.try_recipe("write", "README.md") == Ran(0, b"", b"")
    assert (recipes.held("new.gabc"), recipes.held("score.gabc")) == (CANONICAL, SCORE)


# ---- a folder of scores


@pytest.fixture(scope="module")
def tidied(make_recipes: Callable[[], Recipes]) -> tuple[Recipes, Ran]:
    """Returns a folder after the recipe, and what it wrote. The file `same` is another name of a
    score that was canonical."""
    made = make_recipes()
    made.make_scores()
    os.link(made.folder / "scores/whole.gabc", made.folder / "same")
    return made, made.try_recipe("folder")


def test_folder_is_gone_through(tidied: tuple[Recipes, Ran]) -> None:
    _, ran = tidied
    assert (ran.status, ran.output) == (0, b"")


def test_folder_says_what_stays_and_why(tidied: tuple[Recipes, Ran]) -> None:
    unread, more = "it was not read without an error", "more than its blanks would change"
    stay = {"empty": unread, "faulty": unread}
    stay |= {it: more for it in ("brace", "comment", "mark", "style", "translation", "twice")}
    _, ran = tidied
    said = [it for it in ran.messages.decode().splitlines() if "stays" in it]
    assert said == [f"scores/{it}.gabc stays as it is: {stay[it]}" for it in sorted(stay)]


def test_folder_says_why_a_style_would_go(tidied: tuple[Recipes, Ran]) -> None:
    _, ran = tidied
    assert b"\nscores/style.gabc:3:12: warning: W3" in b"\n" + ran.messages


def test_folder_keeps_names_kinds_modes_and_links(tidied: tuple[Recipes, Ran]) -> None:
    recipes, _ = tidied
    assert listing(recipes.folder) == listing(recipes.folder / "before")


@pytest.mark.parametrize("name", ALL_FILES)
def test_folder_loses_nothing_but_blanks(tidied: tuple[Recipes, Ran], name: str) -> None:
    recipes, _ = tidied
    now, before = (b"".join(recipes.held(it).split()) for it in (name, f"before/{name}"))
    assert now == before


@pytest.mark.parametrize("name", WHOLE)
def test_folder_has_what_is_canonical(tidied: tuple[Recipes, Ran], name: str) -> None:
    recipes, _ = tidied
    assert recipes.held(name) == WHOLE[name]


def test_folder_does_not_touch_a_canonical_score(tidied: tuple[Recipes, Ran]) -> None:
    recipes, _ = tidied
    assert os.path.samefile(recipes.folder / "same", recipes.folder / "scores/whole.gabc")


def test_folder_is_the_same_a_second_time(tidied: tuple[Recipes, Ran]) -> None:
    recipes, _ = tidied
    before = listing(recipes.folder), files_of(recipes.folder)
    recipes.try_recipe("folder")
    assert (listing(recipes.folder), files_of(recipes.folder)) == before


def test_an_empty_folder(recipes: Recipes) -> None:
    (recipes.folder / "scores").mkdir()
    assert recipes.try_recipe("folder") == Ran(0, b"", b"")


def test_the_difference(recipes: Recipes) -> None:
    """It shows the style that would go."""
    recipes.put("score.gabc", SCORES["style"])
    ran = recipes.try_recipe("difference")
    assert b"> <i>Vir</i>(fgf)go(ghg)" in ran.output.splitlines()


def test_many_at_once(recipes: Recipes) -> None:
    """Each score with a message has it, and no file is changed."""
    recipes.make_scores()
    ran = recipes.try_recipe("many")
    named = {it.split(":")[0] for it in ran.messages.decode().splitlines()}
    told = ("brace", "empty", "faulty", "style", "translation", "twice")
    assert (ran.status, named) == (123, {f"scores/{it}.gabc" for it in told})
    assert recipes.is_unchanged()


def test_many_at_once_with_no_error(recipes: Recipes) -> None:
    recipes.make_scores()
    for it in ("empty", "faulty"):
        (recipes.folder / f"scores/{it}.gabc").unlink()
    assert recipes.try_recipe("many").status == 0


# ---- a check before a commit

DIFFERENCE = b"""\
--- -loose.gabc
+++ -loose.gabc, canonical
@@ -1,3 +1,5 @@
 name: Kyrie;
 %%
-(c4) Ky(f)ri(gfg)e(e.) (::)
\\ No newline at end of file
+(c4)
+Ky(f)ri(gfg)e(e.)
+(::)
"""


@pytest.mark.parametrize(
    "names, wanted",
    [
        (["whole.gabc"], Ran(0, b"", b"")),
        (["-loose.gabc", "whole.gabc"], Ran(1, DIFFERENCE, b"")),
        (["none.gabc"], Ran(2, b"", CANNOT_OPEN % b"none.gabc")),
    ],
    ids=["canonical", "another", "missing"],
)
def test_check_canonical(recipes: Recipes, names: list[str], wanted: Ran) -> None:
    for it in ("whole", "-loose"):
        recipes.put(f"{it}.gabc", SCORES[it])
    assert recipes.command("check_canonical", *names) == wanted


def test_check_canonical_on_a_score_with_no_body(recipes: Recipes) -> None:
    for it in ("empty", "-loose"):
        recipes.put(f"{it}.gabc", SCORES[it])
    assert recipes.command("check_canonical", "empty.gabc", "-loose.gabc").status == 2


class Repository:
    """The folder of a trial as a repository of git, which is started as by a program with another
    path and no settings of ours."""

    def __init__(self, recipes: Recipes) -> None:
        self.recipes = recipes
        self.git("init", "-q", ".")
        self.hook = recipes.folder / ".git" / "hooks" / "pre-commit"

    def git(self, *words: str) -> Ran:
        """Runs git."""
        who = ["-c", "user.name=a", "-c", "user.email=a@example.org"]
        own = {"HOME": str(self.recipes.folder.parent), "PATH": os.environ["PATH"]}
        return self.recipes.start(["git", *who, *words], env=own)

    def commit(self, *names: str) -> Ran:
        """Makes a commit of these files."""
        assert self.git("add", "--", *names).status == 0
        return self.git("commit", "-m", "a commit")


@pytest.fixture
def repository(recipes: Recipes) -> Repository:
    """Returns a repository with the scores, and the hook of the recipe."""
    recipes.text("commit")
    if not shutil.which("git"):
        pytest.skip("there is no git")
    recipes.make_scores()
    for it in ("whole", "-loose"):
        recipes.put(f"{it}.gabc", SCORES[it])
    made = Repository(recipes)
    ran = recipes.try_recipe("commit")
    assert (ran.status, ran.messages) == (0, b"")
    return made


def test_hook_is_executable(repository: Repository) -> None:
    assert os.access(repository.hook, os.X_OK)


def test_hook_passes_a_canonical_score(repository: Repository) -> None:
    assert repository.commit("whole.gabc").status == 0


def test_hook_stops_a_commit(repository: Repository) -> None:
    repository.commit("whole.gabc")
    ran = repository.commit("-loose.gabc")
    assert ran.status != 0
    assert b"+(c4)" in (ran.output + b"\n" + ran.messages).splitlines()


def test_hook_stops_a_commit_of_many_scores(repository: Repository) -> None:
    repository.commit("whole.gabc")
    ran = repository.commit("scores", "elsewhere")
    assert ran.status != 0
    assert b"+++ scores/with blanks.gabc, canonical" in ran.output + ran.messages
    assert repository.recipes.is_unchanged()


def test_another_hook_stays(repository: Repository) -> None:
    repository.hook.write_text("mine\n")
    repository.recipes.try_recipe("commit")
    assert repository.hook.read_text() == "mine\n"
