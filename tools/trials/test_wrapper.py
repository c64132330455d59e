"""Tries `bin/gregorio` with a false `rt` on the path, so that nothing is proved: when it builds,
what it says, how it ends, and from where it can be called. Tries too that `tools/check_canonical`
never builds."""

from __future__ import annotations

import os
import re
import subprocess
from pathlib import Path

import pytest
from house.files import ROOT

from .false_rt import BUILD, FalseRepository, Said
from .work import HELP

WORDS = ("-s", "two words")
PLAIN = "program [-s] [two words]\ninput\n"
# A run that builds nothing.
QUIET = Said([], 0, PLAIN, "")
# How the lines begin that a build writes.
LINES = """\
gregorio: the program is not built, or a source is newer than it: 3 crates are proved and built now
gregorio: a first build takes about 13 minutes on four cores, a later one proves what has changed
gregorio: proving 1 of 3: low
gregorio: proving 2 of 3: middle
gregorio: proving 3 of 3: gregorio_cli
gregorio: built
"""
NOT_BUILT = "the program is not built, and nothing was checked: bin/gregorio --build"
NO_RT = "/usr/bin:/bin"


@pytest.fixture
def fresh(room: Path) -> FalseRepository:
    """Returns a repository in which nothing is built."""
    return FalseRepository(room)


@pytest.fixture
def built(fresh: FalseRepository) -> FalseRepository:
    """Returns a repository in which the program is built."""
    assert fresh.run_wrapper("--build").status == 0
    return fresh


# ---- the check of scores builds nothing


def check(repository: FalseRepository) -> Said:
    """Runs the check on a score."""
    repository.set("score.gabc", "%%\n")
    checker = str(repository.top / "tools" / "check_canonical")
    return repository.run(checker, str(repository.room / "score.gabc"))


def test_check_with_no_program(fresh: FalseRepository) -> None:
    ran = check(fresh)
    assert (ran.calls, ran.status) == ([], 2)
    assert NOT_BUILT in ran.messages


def test_check_with_a_newer_source(built: FalseRepository) -> None:
    """It runs the program that is there, and fails with a diff of what the false program wrote."""
    built.touch("crates/low/src/lib.rt")
    ran = check(built)
    assert (ran.calls, ran.status) == ([], 1)
    assert built.run_wrapper("-s").calls == BUILD


# ---- help builds nothing, and --build runs nothing


def test_help(fresh: FalseRepository) -> None:
    assert fresh.run_wrapper("-h") == Said([], 0, HELP.decode(), "")


def test_build(fresh: FalseRepository) -> None:
    """The crates on which the program stands are built, lowest first, with a line for each."""
    ran = fresh.run_wrapper("--build")
    assert (ran.calls, ran.status, ran.out) == (BUILD, 0, "")
    assert len(re.findall(r"(?m)^gregorio: proving [123] of 3: ", ran.messages)) == 3


def test_build_where_all_is_current(built: FalseRepository) -> None:
    assert built.run_wrapper("--build") == Said([], 0, "", "")


def test_lines_of_the_page(built: FalseRepository) -> None:
    """Those of docs/INSTALL.md build nothing where all is current, and run the program."""
    page, script = (os.path.join(ROOT, it) for it in ("docs/INSTALL.md", "tools/recipe.awk"))
    words = ["awk", "-v", "name=build", "-f", script, page]
    recipe = subprocess.run(words, capture_output=True, text=True, check=True).stdout
    out = "program [-F] [gabc] [-W] [-S] [examples/introit.gabc]\ninput\n"
    assert built.run("bash", "-c", recipe, folder=built.top) == Said([], 0, out, "")


# ---- the first run


def test_first_run(fresh: FalseRepository) -> None:
    """It says how long it takes before it asks `rt` for anything, and shows nothing that `rt`
    writes. The program gets its words and its input."""
    ran = fresh.run_wrapper(*WORDS)
    assert (ran.calls, ran.status, ran.out) == (BUILD, 0, PLAIN)
    assert [it[:60] for it in ran.messages.splitlines()] == [it[:60] for it in LINES.splitlines()]
    assert (fresh.room / "said").read_text() == "2\n"


def test_second_run(built: FalseRepository) -> None:
    assert built.run_wrapper(*WORDS) == QUIET


# ---- when it builds again


@pytest.mark.parametrize(
    "name",
    [
        "crates/low/src/lib.rt",
        "crates/middle/specs/Lib.antt",
        "crates/low/proofs/inner/Lemma.antt",
        "crates/gregorio_cli/src/lib.rt",
        "crates.txt",
    ],
)
def test_newer_file_is_built_once(built: FalseRepository, name: str) -> None:
    built.touch(name)
    assert built.run_wrapper("-s").calls == BUILD
    assert built.run_wrapper(*WORDS) == QUIET


def test_file_that_comes_or_goes_is_built(built: FalseRepository) -> None:
    more = "crates/low/src/more.rt"
    built.touch(more)
    assert built.run_wrapper().calls == BUILD
    built.touch()
    (built.top / more).unlink()
    assert built.run_wrapper().calls == BUILD


def test_crate_aside_is_not_looked_at(built: FalseRepository) -> None:
    """The program does not stand on it."""
    built.touch("crates/aside/src/lib.rt")
    assert built.run_wrapper().calls == []


def test_edit_in_mid_build_is_built_by_the_next_run(built: FalseRepository) -> None:
    built.set("edits", str(built.top / "crates/low/src/lib.rt"))
    built.touch("crates/middle/src/lib.rt")
    assert [built.run_wrapper().calls for _ in range(3)] == [BUILD, BUILD, []]


def test_changed_proof_is_proved_once(built: FalseRepository) -> None:
    """`rt` writes no new program if only a proof changed."""
    built.set("keeps")
    built.touch("crates/low/proofs/inner/Lemma.antt")
    assert [built.run_wrapper().calls for _ in range(2)] == [BUILD, []]


# ---- builds that fail


@pytest.mark.parametrize("crate", ["middle", "gregorio_cli"])
def test_build_that_fails(built: FalseRepository, crate: str) -> None:
    """The status is none of the program's, the error is shown, and the old program is not run. It
    is tried again, and built once mended."""
    built.touch("crates/middle/src/lib.rt")
    built.set("broken", f"{crate}\n")
    for ran in (built.run_wrapper("-s"), built.run_wrapper("-s")):
        assert (ran.status, ran.out) == (70, "")
        assert f"error: {crate} does not prove" in ran.messages
        assert f"gregorio: {crate} could not be proved and built" in ran.messages
    built.unset("broken")
    mended = built.run_wrapper(*WORDS)
    assert (mended.calls, mended.status, mended.out) == (BUILD, 0, PLAIN)


def test_no_rt_on_the_path(built: FalseRepository) -> None:
    """No old program is run."""
    built.touch("crates/low/src/lib.rt")
    ran = built.run_wrapper("-s", PATH=NO_RT)
    assert (ran.status, ran.out) == (70, "")
    assert "rt of the Rattle kit is not on the path" in ran.messages


def test_built_program_needs_no_rt(built: FalseRepository) -> None:
    assert built.run_wrapper(*WORDS, PATH=NO_RT) == QUIET


@pytest.mark.parametrize("status", range(6))
def test_status_passes_through(built: FalseRepository, status: int) -> None:
    assert built.run_wrapper(STATUS=str(status)).status == status


# ---- from where it is called


@pytest.fixture
def linked(built: FalseRepository) -> FalseRepository:
    """Returns a repository to which links lead, beside the folder `elsewhere`."""
    links = built.room / "links"
    links.mkdir()
    (built.room / "elsewhere" / "crates" / "low").mkdir(parents=True)
    (links / "absolute").symlink_to(built.wrapper)
    (links / "relative").symlink_to("../a path  with blanks/bin/gregorio")
    (links / "link to a link").symlink_to("relative")
    (links / "folder").symlink_to(built.top)
    return built


@pytest.mark.parametrize(
    "path",
    [
        "{room}/a path  with blanks/bin/gregorio",
        "{room}/links/absolute",
        "{room}/links/relative",
        "{room}/links/link to a link",
        "{room}/links/folder/bin/gregorio",
        "../a path  with blanks/bin/gregorio",
        "../links/relative",
    ],
)
def test_called_from_elsewhere(linked: FalseRepository, path: str) -> None:
    path = path.format(room=linked.room)
    assert linked.run(path, *WORDS, folder=linked.room / "elsewhere") == QUIET


@pytest.mark.parametrize("folder, path", [(".", "bin/gregorio"), ("bin", "./gregorio")])
def test_called_from_its_folders(built: FalseRepository, folder: str, path: str) -> None:
    assert built.run(path, *WORDS, folder=built.top / folder) == QUIET


def test_called_by_its_name(built: FalseRepository) -> None:
    path = f"{built.top}/bin:{built.room}/tools:{os.environ['PATH']}"
    script = 'gregorio "$@"'
    assert built.run("bash", "-c", script, "bash", *WORDS, PATH=path) == QUIET


def test_called_with_cdpath(linked: FalseRepository) -> None:
    """CDPATH makes a plain `cd` print, and go elsewhere."""
    (linked.room / "elsewhere" / "bin").mkdir()
    found = f"{linked.room}/elsewhere:{linked.top}:."
    ran = linked.run("bin/gregorio", *WORDS, folder=linked.top, CDPATH=found)
    assert ran == QUIET
    linked.touch("crates/low/src/lib.rt")
    ran = linked.run("bin/gregorio", *WORDS, folder=linked.top, CDPATH=found)
    assert (ran.calls, ran.out) == (BUILD, PLAIN)
