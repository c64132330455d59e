"""Tries where headers, syllables and comments stand in the text of a score."""
from __future__ import annotations

import os
import random
import unittest
from collections.abc import Sequence

from hypothesis import HealthCheck, given, settings
from hypothesis import strategies as st
from made import SCORES

from gregorio_chant.linting.ignores import silenced
from gregorio_chant.linting.slips import Subject
from gregorio_chant.objects.compiled import Compiled
from gregorio_chant.text.parts import Span
from gregorio_chant.text.source import text_of

_IS_LONG = bool(os.environ.get("GREGORIO_LONG"))
# What may end a score, by itself or after each other, and characters that no module may stumble
# over.
_LAST = (
    "a",
    " ",
    "\n",
    "<i>",
    "</i>",
    "<b>",
    "{",
    "}",
    ")",
    "<eu>",
    "</eu>",
    "<clear>",
    "<it>",
    "[x]",
    "[]",
    "]",
    ">",
    "$",
    "$(",
    "%c",
    "%c\n",
    "*",
    "<v>a</v>",
    "<v></v>",
    "<sp></sp>",
    "<e></e>",
    "|",
    "\u00a0",
    "\u0085",
    "\u2028",
    "\0",
    "\U0001d11e",
    "\r",
    "\r\n",
    "\ufeff",
)


class Alike(unittest.TestCase):
    def look_at(self, text: str) -> None:
        """All parts stand in the text, in order and apart. There are as many syllables as the
        compiler reads, and one more for what it leaves unread."""
        compiled = Compiled(text.encode())
        parts = Subject(compiled).parts
        every: tuple[Sequence[Span], ...] = (parts.headers, parts.syllables, parts.comments)
        for spans in every:
            ends = [place for it in spans for place in (it.begin, it.end)]
            self.assertEqual(ends, sorted(ends), text)
            self.assertLessEqual(max(ends, default=0), len(text))
        for it in parts.syllables:
            self.assertLessEqual(it.begin, it.text)
            self.assertLessEqual(it.text, it.notes)
            self.assertLessEqual(it.notes, it.end)
        if compiled.has_score:
            read = len(compiled.score.syllables)
            self.assertEqual(len(parts.syllables), read + (compiled.fault is not None), text)
        kept, unused = silenced(compiled, compiled.messages, ("E1",))
        self.assertLessEqual(len(kept), len(compiled.messages))
        self.assertEqual([it for it in unused if it.place.offset > len(text)], [])

    @settings(
        max_examples=300_000 if _IS_LONG else 500,
        deadline=None,
        suppress_health_check=[HealthCheck.too_slow],
    )
    @given(SCORES)
    def test_made_scores(self, score: bytes) -> None:
        self.look_at(text_of(score))

    def test_ends(self) -> None:
        """A last text without notes is a syllable if something of it is kept."""
        chance = random.Random(14)
        for it in ("}", ")", "<i>", "</b>", "<i>}% c", "a", "$("):
            self.look_at(f"name: a;\n%%\n(c4) a(f)\n{it}")
        for _ in range(40_000 if _IS_LONG else 1_000):
            last = "".join(chance.choices(_LAST, k=chance.randint(1, 4)))
            self.look_at(text_of(f"name: a;\n%%\n(c4) a(f){last}".encode()))

    def test_notes(self) -> None:
        """Where the notes of each syllable begin, and its text, after blanks and comments."""
        text = "%% a\n(c4) % b\n Ky(f)<i>ri</i>(g) e(h"
        found = Subject(Compiled(text.encode())).parts
        self.assertEqual(
            [(text[it.text : it.notes], text[it.notes : it.end]) for it in found.syllables],
            [("", "(c4)"), ("Ky", "(f)"), ("<i>ri</i>", "(g)"), (" e", "(h")],
        )
        self.assertEqual([text[it.begin : it.end] for it in found.comments], [" a", "% b"])
        self.assertEqual((found.score, found.number_at(3), found.number_at(18)), (0, 0, 1))

    def test_headers(self) -> None:
        text = "name: a;\n no colon\nnabc-lines: x;\n%%\n"
        found = Subject(Compiled(text.encode())).parts.headers
        self.assertEqual([it.name for it in found], ["name", None, "nabc-lines"])
        spelled = [text[it.begin : it.end] for it in found]
        self.assertEqual(spelled, ["name: a;", "no colon", "nabc-lines: x;"])

    @settings(
        max_examples=20_000 if _IS_LONG else 300,
        deadline=None,
        suppress_health_check=[HealthCheck.too_slow],
    )
    @given(
        st.lists(
            st.sampled_from(
                _LAST + ("(", "(f)", "name: a;\n", "%%\n", "% gregorio: ignore E1, X\n")
            ),
            max_size=12,
        ).map("".join)
    )
    def test_any_text(self, text: str) -> None:
        self.look_at(text_of(text.encode()))


if __name__ == "__main__":
    unittest.main()
