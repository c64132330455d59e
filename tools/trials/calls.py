"""The calls that the program `try_memory` makes, and what is wrong with one that was refused
memory."""

from __future__ import annotations

import os
import re
import subprocess
from pathlib import Path

from house.checks import TRIED_CALLS
from house.files import ROOT, read

TRIALS = os.path.join(ROOT, "crates", "try_memory")
# Calls that make an arena whose length is not known. If a chunk of it is refused, a smaller one is
# asked for, and they may succeed. Those of `gabc_lettering` and `gabc_pen` are tried by a whole
# drawing.
GROWS = {
    "gabc_body::Syllable::copy",
    "gabc_body::Syllables::push",
    "gabc_score::ScoreStage::in_memory",
    "gabc_score::ScoreStage::resume",
    "gabc_score::ScoreStage::with_limits",
    "gabc_score::score_given",
    "gabc_score::score_whole",
    "gabc_score::score_whole_with_hasher",
    "gabc_score::stage_laws::a_fresh_stage_emits",
    "gabc_score::stage_laws::a_fresh_stage_reads_texts",
    "gabc_tree::read_score",
    "gabc_tree::tree_of",
    "gabc_tree::tree_of_with_hasher",
    "gabc_draw::draw",
    "gabc_draw::picture_of",
    "gregorio::Outcome::of",
    "gregorio::Outcome::of_with_hasher",
}
# Calls that make something empty, and ask for no memory.
ASK_NONE = {
    "gabc_body::Syllables::new",
    "gabc_places::Sequence::new",
    "gabc_places::Text::new",
    "gabc_text::TextView::new",
    "gregorio_jobs::Words::new",
}


def listed() -> list[str]:
    """Returns the names of the calls that the program has to make, in their order."""
    lines = read(os.path.join(ROOT, TRIED_CALLS)).split("\n")
    return [it.split("\t")[0] for it in lines if it]


class Attempt:
    """An attempt of a call: how many requests came, how many were refused, how many blocks more are
    held after it, the answer, and the arguments after it."""

    def __init__(self, counted: str, answer: str, arguments: str) -> None:
        self.asked, self.refused, self.held = (int(it) for it in counted.split()[1::2])
        self.answer, self.arguments = answer, arguments


class Call:
    """The attempts of a call, its arguments before them, and how many blocks more are held after
    all."""

    def __init__(self, text: str) -> None:
        lines = text.split("\n")
        self.name, self.arguments = lines[:2]
        tries = [at for at, line in enumerate(lines) if line == "try"]
        self.attempts = [Attempt(*lines[at + 1 : at + 4]) for at in tries]
        left = [int(line.split()[1]) for line in lines if line.startswith("left ")]
        self.left = left[-1] if left else None

    def grows(self) -> bool:
        """Returns whether it may go on with a smaller request if one is refused."""
        return self.name in GROWS or self.name.startswith(("gabc_lettering::", "gabc_pen::"))


class Calls:
    """A run of the program `try_memory`: its calls, and what it printed itself."""

    def __init__(self, program: str, library: str, how: str, folder: Path) -> None:
        ran = subprocess.run(
            [program],
            cwd=folder,
            env={"LD_PRELOAD": library, "REFUSE": how},
            capture_output=True,
            text=True,
            timeout=100,
        )
        self.calls = [Call(it) for it in re.split(r"(?m)^call ", ran.stdout)[1:]]
        self.printed = re.sub(r"(?m)^(?:asked|left) .*\n", "", ran.stdout)


def wrong_with(call: Call, ample: Call, how: str) -> str:
    """Returns what is wrong with a call in this way of refusing, against the same call with memory
    enough; or nothing."""
    *refused, last = call.attempts
    wanted = ample.attempts[-1]
    goes_on = how == "one" and call.grows() and len(refused) < wanted.asked
    if len(refused) != wanted.asked and not goes_on:
        return f"{len(refused)} attempts failed, and it asks {wanted.asked} times"
    for number, it in enumerate(refused, 1):
        wrong = _wrong_with_attempt(it, number, call.arguments, how)
        if wrong:
            return f"attempt {number}: {wrong}"
    asked = last.asked if goes_on else wanted.asked
    ended = last.refused, last.answer, last.arguments, last.asked
    if ended != (int(goes_on), wanted.answer, wanted.arguments, asked):
        return f"the last attempt: {ended}"
    return "" if call.left == 0 else f"{call.left} blocks are not given back"


def _wrong_with_attempt(it: Attempt, number: int, arguments: str, how: str) -> str:
    """Returns what is wrong with the attempt of this number, which was refused memory."""
    if it.asked < number or it.refused != (1 if how == "one" else it.asked - number + 1):
        return f"asked {it.asked}, refused {it.refused}"
    if it.answer != "no memory" or it.arguments != arguments:
        return f"{it.answer}, {it.arguments} after {arguments}"
    return f"it keeps {it.held} blocks" if it.held else ""
