"""Tries what no clause says of speed: that regular syllables are gone over in runs, and that the
key of header names serves."""

from __future__ import annotations

import os
import resource
import subprocess
from collections.abc import Sequence
from pathlib import Path

import pytest
from house.files import ROOT

from .ends import LARGEST

# Headers whose names all fall into one group of the table if they are hashed without a key.
NAMES = os.path.join(ROOT, "tools", "names_of_one_group.txt")
# A text for each kind of regular syllable: the headers that it wants, and some syllables.
SHAPES = {
    "plain": ("", "Ky(f)ri(g)e(h) "),
    "notes": ("", "Ky(fgh/ghg.)ri(g_f)e(h) "),
    "bars": ("", "a(f) (,) b(g) (;) "),
    "letters beyond ASCII": ("", "D\u00f3(f)mi(g)n\u00e9(h) "),
    "styles": ("", "<i>Ky</i>(f)<b>ri</b>(g)e(h) "),
    "coloured text": ("", "<c>Ky</c>(f)<c>ri</c>(g) "),
    "raw parts": ("", "<sp>V/</sp>(f)<v>\\a</v>(g)e(h) "),
    "text above": ("", "<alt>a</alt>Ky(f)<alt>b</alt>ri(g) "),
    "translations": ("", "Ky[Lord](f)ri[o](g)e(h) "),
    "centres": ("", "K{y}(f)r{i}(g){e}(h) "),
    "span marks": ("", "<eu>E(f) u(g) </eu>o(h) "),
    "no text": ("", "(f)(g)(h) "),
    "comments between": ("", "Ky(f)ri(g)e(h)% x\n"),
    "NABC": ("nabc-lines: 1;\n", "Ky(f|vi)ri(g|pu)e(h|cl) "),
    "two NABC lines": ("nabc-lines: 2;\n", "Ky(f|vi|pu)ri(g|pu|vi) "),
}


def processor_time(words: Sequence[str], given: bytes, count: int = 1) -> float:
    """Returns the processor time of `count` runs of these words over these bytes, in seconds."""
    before = resource.getrusage(resource.RUSAGE_CHILDREN)
    none = subprocess.DEVNULL
    for _ in range(count):
        subprocess.run(words, input=given, stdout=none, stderr=none, timeout=300, check=True)
    after = resource.getrusage(resource.RUSAGE_CHILDREN)
    return after.ru_utime + after.ru_stime - before.ru_utime - before.ru_stime


def test_key_of_header_names(program: str) -> None:
    """Headers whose names fall into one group without a key take no more than twice the time of
    others: without one they take ten times as long."""
    with open(NAMES, "rb") as it:
        one_group = it.read()
    numbers = (number * 2654435761 % (1 << 32) for number in range(one_group.count(b"\n")))
    others = b"".join(b"%08x:;\n" % it for it in numbers)
    words = [program, "-F", "gabc", "-s", "-S"]
    scores = [it + b"%%\n" for it in (one_group, others)]
    # The least times: what else the machine does only adds to them.
    took = [[processor_time(words, it, 4) for it in scores] for _ in range(5)]
    of_one_group, of_others = (min(times) for times in zip(*took))
    assert of_one_group <= 2 * of_others


def test_key_of_whole_headers(room: Path) -> None:
    """Headers that are read whole take at most half of the time with a random key that they take
    without one, if their names fall into one group without it."""
    path = room / "names.gabc"
    with open(NAMES, "rb") as names:
        path.write_bytes(names.read() + b"%%\n")
    fixed, random = (
        min(processor_time([LARGEST, "whole", key, str(path)], b"") for _ in range(5))
        for key in ("fixed", "random")
    )
    assert random <= fixed / 2


@pytest.mark.parametrize("heads, text", SHAPES.values(), ids=SHAPES)
@pytest.mark.parametrize("form, factor", [("gabc", 2), ("dump", 1.3)], ids=["gabc", "dump"])
def test_regular_syllables_are_gone_over_in_runs(
    program: str, form: str, factor: float, heads: str, text: str
) -> None:
    """A score of them takes a part of the time of one with a comment in each snippet, which belongs
    to no run."""
    texts = [it.encode() for it in (text, text.replace(")", "%\n)"))]
    head = f"name: x;\n{heads}%%\n(c4) ".encode()
    scores = [head + it * (150_000 // len(it)) for it in texts]
    words = [program, "-F", form, "-s", "-S"]
    took = [[processor_time(words, it) / len(it) for it in scores] for _ in range(5)]
    in_runs, without = (min(times) for times in zip(*took))
    assert without >= factor * in_runs
