"""Tries what the built programs do if memory lacks.

The program `try_memory` makes each call of the crates that asks for memory, again and again with
the same arguments until it succeeds. It runs with each request of each call refused in turn, alone
and with all after it. A call has to answer `no memory` if a request was refused, and never else,
unless it went on with a smaller one. Its arguments are then as they were, and it keeps no memory.
It succeeds with the same arguments once nothing is refused, answers what it answers with memory
enough, and gives all memory back. An engine is made, or restored, with few requests.

The program `gregorio` runs with each of its requests refused in turn, from streams and from files,
in both formats. It has to end with status 5 and its line, to leave its files empty, and to read,
write and open nothing after the refusal.

Requests are refused by a preloaded library in C, `tools/preload/memory.c`."""

from __future__ import annotations

import os
import shutil
import subprocess
from pathlib import Path

import pytest
from house.files import read

from .calls import ASK_NONE, TRIALS, Calls, listed, wrong_with
from .no_memory import Edit
from .runs import Ran, built, numbers_of, ran_of

# Functions of the C library by which a program may ask for memory, and that the preloaded library
# does not refuse.
OTHERS = {"mmap", "mmap64", "mremap", "brk", "sbrk", "reallocarray", "valloc", "pvalloc"}
OTHERS |= {"strdup", "strndup", "getline", "asprintf"}
NAMES = listed()
# The most requests with which an engine is made.
ENGINE_ASKS = 10
WAYS = ("one", "rest")
LINES = [
    ("-W", "-F", form, *ends)
    for ends in (("-s",), ("-o", "y.gabc", "-l", "list", "x.gabc"))
    for form in ("gabc", "dump")
]
SCORE = read(os.path.join(TRIALS, "data", "faulty.gabc")).encode()
LONG = SCORE + b"Ky(f)ri(gfg)e(e.) " * 20000


@pytest.mark.parametrize("name", Edit.names())
def test_wrong_body_can_be_applied(name: str) -> None:
    assert Edit(name).can_be_applied()


@pytest.fixture(scope="session")
def library(memory_library: str) -> str:
    """Returns the path of the library that refuses memory, if what programs ask can be listed."""
    if not shutil.which("nm"):
        pytest.skip("there is no nm")
    return memory_library


@pytest.mark.parametrize("crate", ["try_memory", "gregorio_cli"])
def test_program_asks_for_memory_by_what_is_refused(crate: str, library: str) -> None:
    words = ["nm", "-D", "--undefined-only", "-j", built(crate)]
    said = subprocess.run(words, capture_output=True, text=True, check=True).stdout
    names = {it.split("@")[0] for it in said.split()}
    assert "malloc" in names and not names & OTHERS


# ---- the calls of the crates


def each(names: list[str]) -> pytest.MarkDecorator:
    """Returns the mark by which a trial is made with each call of these names, by its place."""
    places = [at for at, name in enumerate(NAMES) if name in names]
    return pytest.mark.parametrize("at", places, ids=[NAMES[at] for at in places])


@pytest.fixture(scope="session")
def runs(library: str, tmp_path_factory: pytest.TempPathFactory) -> dict[str, Calls]:
    """Returns the calls with no request refused, with one, and with all from one on."""
    folder = tmp_path_factory.mktemp("calls") / "data"
    shutil.copytree(os.path.join(TRIALS, "data"), folder)
    program = built("try_memory")
    return {how: Calls(program, library, how, folder) for how in ("none", *WAYS)}


def test_calls_print_what_they_should(runs: dict[str, Calls]) -> None:
    assert runs["none"].printed == read(os.path.join(TRIALS, "stdout"))


@pytest.mark.parametrize("how", ["none", *WAYS])
def test_all_calls_are_made(runs: dict[str, Calls], how: str) -> None:
    assert [it.name for it in runs[how].calls] == NAMES


@each(NAMES)
def test_call_with_memory_enough(runs: dict[str, Calls], at: int) -> None:
    call = runs["none"].calls[at]
    (attempt,) = call.attempts
    assert attempt.answer.startswith("answer ") and call.left == 0


@each(NAMES)
def test_call_asks_for_memory(runs: dict[str, Calls], at: int) -> None:
    (attempt,) = runs["none"].calls[at].attempts
    assert (attempt.asked == 0) == (NAMES[at] in ASK_NONE)


@each([it for it in NAMES if it.startswith("gregorio::Engine::")])
def test_engine_asks_for_little(runs: dict[str, Calls], at: int) -> None:
    (attempt,) = runs["none"].calls[at].attempts
    assert attempt.asked <= ENGINE_ASKS


@each(NAMES)
@pytest.mark.parametrize("how", WAYS)
def test_call_is_refused(runs: dict[str, Calls], at: int, how: str) -> None:
    assert not wrong_with(runs[how].calls[at], runs["none"].calls[at], how)


# ---- the program


class Run:
    """A run of the program in an empty folder, with the n-th request refused: what came of it, how
    many requests came and were refused, how many reads, writes and files opened came after that,
    and its files."""

    def __init__(self, words: tuple[str, ...], room: Path, score: bytes, **settings: str) -> None:
        folder = room / "run"
        shutil.rmtree(folder, ignore_errors=True)
        folder.mkdir()
        given, report = folder / "x.gabc", str(room / "report")
        given.write_bytes(score)
        surroundings = {**settings, "REPORT": report}
        with given.open("rb") as it:
            ended = subprocess.run(
                words, cwd=folder, env=surroundings, stdin=it, capture_output=True, timeout=60
            )
        self.ran = ran_of(ended)
        self.asked, self.refused, *self.after = numbers_of(report)
        self.files = {it.name: it.read_bytes() for it in folder.iterdir()}

    def ends_well(self) -> bool:
        """Returns whether it ended for want of memory, with nothing read, written or opened after
        the refusal."""
        ends = [Ran(5, b"", b"gregorio: %bno memory\n" % it) for it in (b"", b"O0: ")]
        made = [it for name, it in self.files.items() if name != "x.gabc"]
        is_whole = self.files["x.gabc"] == SCORE and not any(made)
        return self.ran in ends and is_whole and self.after == [0, 0, 0]


class Line:
    """A line of the program's words, and what runs of it want."""

    def __init__(self, program: str, library: str, words: tuple[str, ...], room: Path) -> None:
        self.words, self.library, self.room = (program, *words), library, room

    def run(self, score: bytes, how: str = "none", number: int = 0) -> Run:
        """Runs it over a score, with the n-th request refused so."""
        return Run(
            self.words, self.room, score, LD_PRELOAD=self.library, REFUSE=how, FROM=str(number)
        )


@pytest.fixture(params=LINES, ids=" ".join)
def line(request: pytest.FixtureRequest, library: str, room: Path) -> Line:
    """Returns one of the lines of words that are tried."""
    return Line(built("gregorio_cli"), library, request.param, room)


def test_program_with_memory_enough(line: Line) -> None:
    ample = line.run(SCORE)
    assert ample.ran.status == 1 and b"no memory" not in ample.ran.messages and ample.asked > 0


def test_program_asks_no_more_for_a_longer_input(line: Line) -> None:
    ample, more = line.run(SCORE), line.run(LONG)
    assert (more.ran.status, more.asked) == (1, ample.asked)


@pytest.mark.parametrize("how", WAYS)
def test_program_is_refused(line: Line, how: str) -> None:
    runs = [line.run(SCORE, how, it) for it in range(1, line.run(SCORE).asked + 1)]
    wrong = [number for number, it in enumerate(runs, 1) if not (it.refused and it.ends_well())]
    assert runs and not wrong
