"""Plants slips of the pen into a score in which nothing is found: most are told, each with a help
that names it, and guesses bring most back."""
from __future__ import annotations

import unittest

from slips import BACK, SCORE, SLIPS, STAYS, Slip

from gregorio_chant.linting.checking import found_in
from gregorio_chant.linting.helps import helps_for
from gregorio_chant.linting.repairing import How, repair
from gregorio_chant.objects.compiled import Compiled


def told_of(score: str) -> list[tuple[str, str]]:
    """Returns the code of each message, and its help, or what a rule says."""
    data = score.encode()
    found = found_in(Compiled(data), True)
    return [(it.code, help or it.text) for it, help in zip(found, helps_for(Compiled(data), found))]


class Slips(unittest.TestCase):
    def test_none(self) -> None:
        self.assertEqual(found_in(Compiled(SCORE.encode()), True), ())

    def planted(self, slip: Slip) -> str:
        return next(slip.planted(SCORE))

    def test_told(self) -> None:
        for slip in SLIPS:
            with self.subTest(wrong=slip.wrong, right=slip.right):
                told = told_of(self.planted(slip))
                if slip.code is None:
                    self.assertEqual(told, [])
                else:
                    self.assertTrue(
                        [help for code, help in told if code == slip.code and slip.help in help],
                        told,
                    )

    def test_guesses(self) -> None:
        for slip in SLIPS:
            with self.subTest(wrong=slip.wrong, right=slip.right):
                planted = self.planted(slip)
                how = How(allow_unsafe=True, with_rules=True)
                made = repair(Compiled(planted.encode()), how).data.decode()
                self.assertEqual(made, {BACK: SCORE, STAYS: planted}.get(slip.repaired, made))
                if slip.repaired not in (BACK, STAYS):
                    self.assertIn(slip.repaired, made)
                again = repair(Compiled(made.encode()), how).data.decode()
                self.assertEqual(again, made)

    def test_numbers(self) -> None:
        self.assertGreaterEqual(len(SLIPS), 96)
        self.assertGreaterEqual(sum(it.code is not None for it in SLIPS), 85)


if __name__ == "__main__":
    unittest.main()
