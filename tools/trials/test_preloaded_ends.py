"""Tries the program over ends that give or take little at a time, that are interrupted, that fail,
and that never end.

A library in C that is preloaded makes reads and writes so: `tools/preload/ends.c`. Rows of what has
to be written are data of the crate `vectors`."""

from __future__ import annotations

from pathlib import Path

import pytest
from house.rows import Row

from .ends import SINKS, SOURCES, Program, numbered, wanted
from .runs import CANNOT_READ, CANNOT_WRITE, GABC, LONG_SCORE, Ran, numbers_of

SHORT: list[dict[str, object]] = [
    {"READS": 1},
    {"WRITES": 1},
    {"READS": 1, "WRITES": 1},
    {"READS": 3, "WRITES": 2},
    {"INTERRUPT": 2},
    {"READS": 1, "WRITES": 1, "INTERRUPT": 2},
]
# The largest input, in bytes, under the usual limits.
MOST_INPUT = 4294967295


@pytest.fixture
def preloaded(program: str, ends_library: str) -> Program:
    """Returns the program with the library."""
    return Program(program, ends_library)


@pytest.mark.parametrize("how", SHORT, ids=str)
def test_short_and_interrupted_reads_and_writes(preloaded: Program, how: dict[str, object]) -> None:
    for row in SINKS:
        assert preloaded.run(row.words, row.input, **how) == wanted(row)


def test_calls_are_interrupted(preloaded: Program, room: Path) -> None:
    report = str(room / "report")
    preloaded.run(SINKS[0].words, SINKS[0].input, INTERRUPT=2, REPORT=report)
    assert numbers_of(report)[2] > 0


def test_long_score_passes_in_few_interrupted_calls(preloaded: Program, room: Path) -> None:
    """Each second call is interrupted: what is long is not handed on a byte at a time."""
    report = str(room / "report")
    preloaded.run(GABC, LONG_SCORE, INTERRUPT=2, REPORT=report)
    assert 0 < numbers_of(report)[2] < 200


@numbered(SOURCES)
def test_reads_fail(preloaded: Program, row: Row) -> None:
    """Each row is what an input that is cut by a failure has to give."""
    whole = next(it for it in SINKS if it.words == row.words and it.input.startswith(row.input))
    ran = preloaded.run(row.words, whole.input, READ_FAILS=len(row.input))
    assert ran == Ran(4, row.output, row.messages + CANNOT_READ)


@numbered(SINKS)
def test_writes_fail(preloaded: Program, row: Row) -> None:
    for holds in range(len(row.output)):
        ran = preloaded.run(row.words, row.input, WRITE_FAILS=holds)
        assert (ran.status, ran.output) == (4, row.output[:holds])
        assert ran.messages.endswith(CANNOT_WRITE)
        assert row.messages.startswith(ran.messages.removesuffix(CANNOT_WRITE))


def test_source_that_never_ends(preloaded: Program, room: Path) -> None:
    """It is read up to the limit and one byte more, and no further."""
    report = str(room / "report")
    with open("/dev/zero", "rb") as given:
        ran = preloaded.start(GABC, {"REPORT": report}, stdin=given, timeout=1800)
    read, *_ = numbers_of(report)
    assert (ran.status, read, ran.output) == (2, MOST_INPUT + 1, b"")


@pytest.mark.parametrize(
    "words",
    [GABC, (*GABC, "-o", "made"), ("-F", "gabc", "no-such.gabc", "-o", "made")],
    ids=" ".join,
)
def test_no_random_key(
    preloaded: Program, room: Path, monkeypatch: pytest.MonkeyPatch, words: tuple[str, ...]
) -> None:
    """Nothing is read, opened or made without one: that counts as a failed read."""
    monkeypatch.chdir(room)
    assert preloaded.run(words, b"%%\nA(f)", RANDOM_FAILS=1) == Ran(4, b"", CANNOT_READ)
    assert not any(room.iterdir())
