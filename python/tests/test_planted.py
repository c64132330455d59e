"""Plants each slip into scores at many places, and repairs them. The judge is the score before the
slip was planted.

After safe repairs its notes and its sung text are back, or each place that was told is still told.
After guesses they are no further from it than the slip was. Whatever was repaired, a second run
changes nothing. With GREGORIO_SLIPS=N each slip is planted at N places of each score, and not at
one of some; GREGORIO_FOLDER names a folder of more scores.
"""
from __future__ import annotations

import difflib
import os
import unittest
from collections import Counter
from collections.abc import Iterator
from dataclasses import dataclass
from functools import cached_property
from itertools import islice

from slips import SLIPS, Slip
from support import files_of_scores

from gregorio_chant import Status, compile
from gregorio_chant.dump import Score, ScoreError
from gregorio_chant.linting.checking import found_in
from gregorio_chant.linting.repairing import How, repair
from gregorio_chant.objects.compiled import Compiled

_SAFE, _ALL = How(with_rules=True), How(allow_unsafe=True, with_rules=True)
_PLACES = int(os.environ.get("GREGORIO_SLIPS", "0"))
# How far a slip and a guess are compared: a fatal fault leaves nothing of most scores.
_MOST_AWAY = 200
# How many scores each slip is planted in, where not all are asked for.
_SCORES = 2


@dataclass(frozen=True)
class Read:
    """What the compiler reads of a score: its headers, and of each syllable the letters that are
    sung, and its notes."""

    text: str

    @cached_property
    def parts(self) -> str:
        try:
            score = Score.parse(self.text)
        except ScoreError:
            return ""
        headers = "".join(f"{it.name}:{it.value}\n" for it in score.headers)
        return headers + "".join(
            "".join(c for c in it.plain if c.isalnum())
            + "".join(f"({snippet.spelling})" for snippet in it.snippets)
            for it in score.syllables
        )

    @cached_property
    def told(self) -> list[tuple[str, int, int]]:
        return [
            (it.code, it.line, it.column) for it in found_in(Compiled(self.text.encode()), True)
        ]


def distance(old: str, new: str, most: int) -> int:
    """Returns how many characters are inserted, deleted or replaced between two texts, or `most`
    and one if there are more."""
    begin = len(os.path.commonprefix([old, new]))
    old, new = old[begin:], new[begin:]
    end = len(os.path.commonprefix([old[::-1], new[::-1]]))
    old, new = old[: len(old) - end], new[: len(new) - end]
    if abs(len(old) - len(new)) > most:
        return most + 1
    row = {at: at for at in range(min(most, len(new)) + 1)}
    for number, it in enumerate(old, 1):
        below: dict[int, int] = {}
        for at in range(max(0, number - most), min(len(new), number + most) + 1):
            below[at] = min(
                row.get(at, most) + 1,
                below.get(at - 1, most) + 1,
                row.get(at - 1, most + 1) + (at == 0 or it != new[at - 1]),
            )
        row = below
    return min(row.get(len(new), most + 1), most + 1)


def moved(old: str, new: str, line: int, column: int) -> tuple[int, int]:
    """Returns where what stood at a place stands after a repair that keeps the lines."""
    before, after = old.split("\n")[line - 1], new.split("\n")[line - 1]
    for kind, begin, end, new_begin, _ in difflib.SequenceMatcher(
        None, before, after, False
    ).get_opcodes():
        if kind == "equal" and begin <= column - 1 <= end:
            return line, new_begin + column - begin
    return line, column


def fault_of(score: Read, slip: str) -> str | None:
    """Returns what repairs of a planted slip do wrong."""
    planted = Read(slip)
    safe = Read(repair(Compiled(slip.encode()), _SAFE).data.decode())
    if safe.text != slip and safe.parts != score.parts:
        still = set(safe.told)
        if not all(
            (code, *moved(slip, safe.text, line, column)) in still
            for code, line, column in planted.told
        ):
            return "a message goes, and the slip stays"
    guessed = Read(repair(Compiled(slip.encode()), _ALL).data.decode())
    if guessed.text != slip:
        away = min(distance(score.parts, planted.parts, _MOST_AWAY), _MOST_AWAY)
        if distance(score.parts, guessed.parts, away) > away:
            return "a guess leads further away"
        if repair(Compiled(guessed.text.encode()), _ALL).data.decode() != guessed.text:
            return "a second run changes something"
    if repair(Compiled(safe.text.encode()), _SAFE).data.decode() != safe.text:
        return "a second run of safe repairs changes something"
    return None


def scores() -> list[Read]:
    """Returns whole scores of which nothing can be repaired any more."""
    texts = [repair(Compiled(it.read_bytes()), _ALL).data.decode() for it in files_of_scores()]
    return [Read(it) for it in texts if compile(it).status is not Status.FATAL]


def places(slip: Slip, score: Read, most: int) -> Iterator[str]:
    """Yields the score with a slip at so many places at most, which are spread over it."""
    all_planted = list(slip.planted(score.text))
    yield from islice(all_planted, 0, None, max(1, -(-len(all_planted) // most)))


class Planted(unittest.TestCase):
    def test_distance(self) -> None:
        for old, new, most, wanted in (
            ("kitten", "sitting", 9, 3),
            ("kitten", "sitting", 2, 3),
            ("ab", "ab", 1, 0),
            ("", "abc", 9, 3),
            ("abc", "", 2, 3),
            ("abcd", "bcde", 4, 2),
        ):
            self.assertEqual(distance(old, new, most), wanted)

    def test_planted(self) -> None:
        number, kinds = 0, Counter[str]()
        all_scores = scores()
        for at, slip in enumerate(SLIPS):
            them = [it for it in all_scores if next(slip.planted(it.text), None) is not None]
            if not _PLACES:
                them = [them[(at + it) % len(them)] for it in range(min(_SCORES, len(them)))]
            for score in them:
                for planted in places(slip, score, max(_PLACES, 1)):
                    number += 1
                    fault = fault_of(score, planted)
                    if fault is not None:
                        kinds[fault] += 1
                        with self.subTest(fault, slip=slip.right, wrong=slip.wrong):
                            self.fail(planted)
        print(f"{number} slips planted, {sum(kinds.values())} repaired wrongly")
        self.assertGreater(number, 100)


if __name__ == "__main__":
    unittest.main()
