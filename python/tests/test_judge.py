"""Tries the judge of `format` with writers that break one thing each, and what the command says
then."""
from __future__ import annotations

import unittest
from collections.abc import Callable
from dataclasses import fields, replace
from unittest import mock

from gregorio_chant.format import formatting
from gregorio_chant.format.formatting import Style, formatted
from gregorio_chant.format.judge import Reading, difference, objection
from gregorio_chant.objects.compiled import Compiled

SCORE = "% a  b\nname: a;\nmode: 1;\nmode: 2;\n%%\n(c4) a(f) <i>b</b></i>(g5) c(h) [x][y](i)\n"
# A writer turns a score into another one: here by taking one spelling for another, wherever the
# first one stands.
_Writer = Callable[[Compiled], bytes]


def writer(old: str, new: str) -> _Writer:
    return lambda score: score.data.replace(old.encode(), new.encode())


CANONICAL, DUMP, MESSAGES, COMMENTS, LETTERS = (
    "canonical form",
    "dump",
    "messages",
    "comments",
    "more would change",
)
# What each writer breaks: a reading of the new score differs in this from one of the old score, and
# in nothing else.
BREAKS = {
    "a message that goes": (writer("</b>", ""), MESSAGES),
    "another thing at the place of a message": (writer("</b>", "</c>"), MESSAGES),
    "blanks in a comment": (writer("a  b", "a b"), COMMENTS),
    "an earlier value of a header": (writer("mode: 1", "mode: 7"), LETTERS),
    "a line end for a blank": (writer(" a(f)", "\n\n\na(f)"), None),
}


class Judge(unittest.TestCase):
    def setUp(self) -> None:
        self.score = Compiled(SCORE.encode())
        self.reading = Reading.of(self.score)

    def test_same(self) -> None:
        self.assertIsNone(
            objection(self.reading, Compiled(SCORE.encode()), lambda score: score.data)
        )

    def test_each_part(self) -> None:
        """The canonical form and the dump tell each other, so no writer breaks one of them alone:
        here each part of a reading is changed by itself."""
        told = set()
        for it in fields(Reading):
            value = getattr(self.reading, it.name)
            other = replace(self.reading, **{it.name: value[:-1]})
            told.add(difference(self.reading, other))
        self.assertEqual(len(told - {None}), len(fields(Reading)))
        self.assertIsNone(difference(self.reading, self.reading))

    def test_writers(self) -> None:
        for name, (write, broken) in BREAKS.items():
            with self.subTest(name):
                new = Compiled(write(self.score))
                self.assertNotEqual(new.data, self.score.data)
                reading = Reading.of(new)
                differs = [
                    it.name
                    for it in fields(Reading)
                    if getattr(reading, it.name) != getattr(self.reading, it.name)
                ]
                self.assertEqual(len(differs), 0 if broken is None else 1, differs)
                told = objection(self.reading, new, lambda score: score.data)
                self.assertIn(broken or "", told or "")
                self.assertEqual(told is None, broken is None)

    def test_other_music(self) -> None:
        told = objection(
            self.reading, Compiled(writer("c(h)", "c(i)")(self.score)), lambda score: score.data
        )
        self.assertIn(CANONICAL, told or "")

    def test_what_is_left_out_by_a_message(self) -> None:
        for old, new in (("g5", "5g"), ("[y]", "[z]")):
            told = objection(
                self.reading, Compiled(writer(old, new)(self.score)), lambda score: score.data
            )
            self.assertIsNotNone(told, (old, new))

    def test_second_pass(self) -> None:
        """A writer that goes on with a line end each time changes nothing else."""

        def write(score: Compiled) -> bytes:
            return score.data.replace(b"(h) ", b"(h)\n ")

        told = objection(self.reading, Compiled(write(self.score)), write)
        self.assertIsNone(told)
        told = objection(
            self.reading, Compiled(write(self.score)), lambda score: score.data + b"\n"
        )
        self.assertEqual(told, "it would change when it is formatted again")

    def test_fatal(self) -> None:
        told = objection(
            self.reading, Compiled(writer("(i)", "(i")(self.score)), lambda score: score.data
        )
        self.assertEqual(told, "it would not be whole")

    def test_what_the_command_says(self) -> None:
        with mock.patch.object(
            formatting, "laid_out", lambda score, width: score.data.replace(b"(h)", b"(i)")
        ):
            made = formatted(SCORE.encode(), Style())
        self.assertEqual(
            made.reasons(),
            ["its canonical form would be another, which is a defect of gregorio-chant"],
        )
        self.assertEqual(formatted(SCORE.encode(), Style()).reasons(), [])


if __name__ == "__main__":
    unittest.main()
