"""Runs the program with few addresses."""

from __future__ import annotations

import resource
import subprocess
from collections.abc import Callable, Iterator

import pytest

from .runs import GABC, Ran, ran_of
from .work import NO_MEMORY, Work

# The most addresses with which a start is tried, in KiB.
MOST = 1048576
# 64 MB in canonical form, in which an input passes as it is.
LINES = 3728270
SYLLABLES = b"Ky(f)ri(gfg)e(e.)\n"


def limit_to(kib: int) -> Callable[[], None]:
    """Returns what a child has to do to have `kib` KiB of addresses."""
    return lambda: resource.setrlimit(resource.RLIMIT_AS, (kib * 1024, kib * 1024))


def sizes(least: int) -> Iterator[int]:
    """Yields the sizes that are tried from this one on, in KiB."""
    while least < MOST:
        yield least
        least += least // 16


def started(program: str, words: list[str], kib: int) -> Ran | None:
    """Starts the program with `kib` KiB of addresses, and returns what came of it; nothing if the
    kernel or the loader ended it."""
    try:
        ran = ran_of(
            subprocess.run([program, *words], capture_output=True, preexec_fn=limit_to(kib))
        )
    except (OSError, subprocess.SubprocessError):
        return None
    return ran if ran.status in range(6) else None


@pytest.fixture(scope="module")
def least(program: str) -> int:
    """Returns the least addresses, in KiB, with which the program starts. It needs most of them for
    itself, for its code and for the C library."""
    for kib in sizes(256):
        ran = started(program, ["-h"], kib)
        if ran and ran.status == 0:
            return kib
    pytest.skip("a limit of addresses has no effect")


def test_too_little_memory_for_the_input(work: Work, least: int) -> None:
    work.given = b"%%\n" + b"a" * 4000000
    ran = work.start([work.program, *GABC, "-S"], preexec_fn=limit_to(least))
    assert ran == Ran(5, b"", NO_MEMORY)


def test_much_input_in_little_memory(work: Work, least: int) -> None:
    """An engine holds what its limits say, and not its input: 64 MB of it pass in 32 MB of
    addresses."""
    much, line = b"%%\n" + SYLLABLES * LINES, [work.program, *GABC, "-S"]
    ran = work.start(line, stdin=None, input=much, preexec_fn=limit_to(32768))
    # What is so long is compared with no message.
    is_same = ran.output == much
    assert (ran.status, ran.messages, is_same) == (0, b"", True)


def test_too_little_memory_for_the_words(program: str, least: int) -> None:
    """The kernel and the loader want some for the words too: the first answer of the program
    counts."""
    words = ["a" * 100000] * 12
    answers = (started(program, words, kib) for kib in sizes(least))
    assert next(filter(None, answers)) == Ran(5, b"", b"gregorio: O0: no memory\n")
