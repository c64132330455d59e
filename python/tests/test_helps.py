"""Tries the line of help of each message: it names the thing, and what to write."""
from __future__ import annotations

import json
import unittest
from pathlib import Path
from string import Formatter

from support import EXAMPLES, scores_of_tables

from gregorio_chant import check
from gregorio_chant.linting import helps
from gregorio_chant.linting.codes import CODES
from gregorio_chant.linting.facts import FACTS, named
from gregorio_chant.linting.helps import helps_for
from gregorio_chant.objects.compiled import Compiled

_NABC = "name: a;\nnabc-lines: 1;\n%%\n(c4) "
_SCORE = "name: a;\n%%\n(c4) "
# Scores, the code of a message, and what its help says.
HELPS = [
    (f"{_SCORE}a(f[cs:(]5)", "E1", "'5' follows an attribute: write it before the ["),
    (f"{_SCORE}la((f)", "E1", "the ( at 3:8 is doubled: remove one of them"),
    (f"{_SCORE}KY(frtqz(g)", "E1", "the ( at 3:8 lacks its )"),
    (f"{_SCORE}xq)b(g)", "E2", "')' closes nothing: look for a missing ( before it, or remove it"),
    (f"{_SCORE}a]b(g)", "E2", "']' closes nothing: look for a missing [ before it, or remove it"),
    (f"{_SCORE}a</sp>(g)", "W6", "</sp> closes nothing, since no <sp> is open: remove it"),
    (
        f"{_SCORE}a<i b(g) c</i>(h)",
        "W6",
        "this < makes everything up to the next > its tag: write the missing >",
    ),
    (
        f"{_SCORE}a(g|pu)",
        "E1",
        (
            "'|' separates notes from NABC only if there is a header nabc-lines: write nabc-lines:"
            " 1; before the %%"
        ),
    ),
    # A tag in a raw part or in a comment opens nothing.
    (
        f"{_SCORE}<v><b></v><i>a(f) b</i>(g)",
        "W3",
        "<i> ends with the text of its syllable: write </i> here, and <i> again in the next text",
    ),
    (
        f"{_SCORE}%<b>\n<i>a(f) b</i>(g)",
        "W3",
        "<i> ends with the text of its syllable: write </i> here, and <i> again in the next text",
    ),
    (
        f"{_SCORE}<v><eu></v>a(f) <nlba>b(g)",
        "W11",
        "the <nlba> at 3:22 is not closed: write </..> after its last syllable",
    ),
    # What a comment, a raw part or a value of a header holds is neither clef, bracket nor line.
    ("name: a;\n%%\n% incipit\n(4c) a(f)", "E1", "'4c' is no clef: write c4"),
    (f"{_NABC}a(f-%(\n)", "E6", "the end of 'f-' is incomplete: finish or remove it"),
    (
        f"{_SCORE}Ky(fg% a note\nri(h) e(f)",
        "E1",
        "the ( at 3:8 lacks its ): did you mean 'Ky(fg)%'?",
    ),
    (
        f"{_SCORE}<v>a b</v>fg) a(f)",
        "E2",
        "')' closes nothing: look for a missing ( before it, or remove it",
    ),
    (
        "name: a;\nbook: x\n %% y\n z;;\nfoo\n%%\n(c4) a(f)",
        "E4",
        "'foo' has no colon: a header is name: value;, and the notes follow a line %%",
    ),
    # In what is not read a tag is what looks like one.
    (f"{_SCORE}a(f) b</sp>(g", "W6", "</sp> closes nothing, since no <sp> is open: remove it"),
    (f"{_SCORE}a(g&)", "E1", "'&' is no note and no sign: remove it"),
    (f"{_SCORE}a(g\u00a0)", "E1", "the character U+00A0 is no note and no sign: remove it"),
    (f"{_SCORE}a(g5)", "E1", "'5' is no sign of the note before it: remove it"),
    (f"{_SCORE}a(gt)", "E1", "'t' is no pitch (a to n, p), and no sign of the note before it"),
    (f"{_SCORE}a(g[ll:1]v)", "E1", "'v' follows an attribute: write it before the ["),
    (
        f"{_SCORE}a(g|)",
        "E1",
        (
            "'|' separates notes from NABC only if there is a header nabc-lines: write nabc-lines:"
            " 1; before the %%"
        ),
    ),
    (f"{_SCORE}KY(f ri(gfg)e(h.)", "E1", "the ( at 3:8 lacks its ): did you mean 'KY(f)'?"),
    (f"{_SCORE}KYri(fson(g)", "E1", "the ( at 3:10 lacks its ): did you mean 'KYri(f)son(g)'?"),
    (f"{_SCORE}a(g))", "E2", "the notes before it already have their ): remove this one"),
    (
        f"{_SCORE}af)b(g)",
        "E2",
        "a ( is missing before it, probably at 3:7: did you mean 'a(f)b(g)'?",
    ),
    (
        f"{_SCORE}a>(g)",
        "E2",
        "'>' ends no tag: look for a missing <, or write $> for the character itself",
    ),
    (
        f"{_NABC}a(g|un1)",
        "E3",
        (
            "'1' has nothing to count: write a number after a modifier, as in peS1, or after points"
            " and letters, as in pesu1 and pelse1"
        ),
    ),
    (f"{_NABC}a(g|pe b(h|vi)", "E3", "the ( at 4:7 lacks its ): did you mean 'a(g|pe)'?"),
    (f"{_NABC}a(g|pe?)", "E3", "'?' fits nowhere in this descriptor: remove it"),
    ("name: a;\nmode 1;\n%%\n(c4)", "E4", "'mode 1;' has no colon: write 'mode: 1;'"),
    ("name: a;\n : 1;\n%%\n(c4)", "E4", "there is no name before the colon: write one"),
    (f"name: a;\n{chr(233) * 40}: b;\n%%\n(c4)", "E4", "the name has 80 bytes; the limit is 64"),
    (f"name: a;\n{'x' * 70}: 1;\n%%\n(c4)", "E4", "the name has 70 bytes; the limit is 64"),
    ("name: a;\nnabc-lines: 01 ;\n%%\n(c4)", "E5", "'01' is not 0, 1, 2, 3 or 4"),
    (f"{_SCORE}a(fg-)", "E6", "'-' needs a note after it: write one, or remove the '-'"),
    (f"{_NABC}a(g|pe!)", "E6", "the end of 'pe!' is incomplete: finish or remove it"),
    ("mode: 1;\n%%\n(c4)", "W1", "write name: ..; before the %%"),
    (
        "name: a;\nmode: 1;\nmode: 2;\n%%\n(c4)",
        "W2",
        "'mode' is already in line 2: remove one of them",
    ),
    (
        f"{_SCORE}<i>a<b>b(g)",
        "W3",
        (
            "<i><b> ends with the text of its syllable: write </b></i> here, and <i><b> again in"
            " the next text"
        ),
    ),
    (
        f"{_SCORE}a</i>(g)",
        "W3",
        "</i> closes no style that is open in this syllable: open it here with <i>, or remove it",
    ),
    (
        f"{_SCORE}<i>a<i>b</i>(g)",
        "W3",
        "<i> is already open: write </i> if it ends here, or remove one of the two",
    ),
    (
        f"{_SCORE}{{a}}{{b}}(g)",
        "W4",
        "there is already a centre: keep one pair of { and } in a syllable",
    ),
    (f"{_SCORE}a}}(g)", "W4", "'}' closes no {"),
    (f"{_SCORE}{{a(g)", "W4", "the { of this syllable is not closed: write } after its vowel"),
    (
        f"{_SCORE}a[b][c](g)",
        "W5",
        "'[c]' is the second one of this syllable: put both into one pair of brackets",
    ),
    (f"{_SCORE}<it>a(g)", "W6", "there is no tag '<it>': did you mean <i>?"),
    (f"{_SCORE}<pr>a(g)", "W6", "there is no tag '<pr>'; it is kept"),
    (
        f"{_SCORE}a<(g) b>(h)",
        "W6",
        "this < makes everything up to the next > its tag: write $< for the character itself",
    ),
    (f"{_NABC}a(g|ep)", "W7", "'ep' is no code of the manual: did you mean pe?"),
    (f"{_SCORE}a(g[nm1])", "W8", "write the header def-m1: ..; before the %%"),
    (f"{_SCORE}a(g) ri", "W9", "'ri' has no notes: write () after it, or the notes"),
    (f"{_SCORE}a(@[g)", "W10", "an @[ before this place is not closed: write ]"),
    (f"{_SCORE}a(@[g@[h])", "W10", "this @[ is not closed: write ] after its last note"),
    (f"{_SCORE}a(g])", "W10", "this ] has no @[ before it"),
    (
        f"{_SCORE}<eu>a(g) b(h)",
        "W11",
        "the <eu> at 3:6 is not closed: write </..> after its last syllable",
    ),
    (
        "name: a;\n%%\na(g)",
        "W12",
        "write a clef, such as (c4), before the first note: without one no note has a degree",
    ),
    ("name: a;\n", "F2", "write a line %% between the headers and the score"),
    (
        "name: a;\nmode: 1\n%%\n(c4)",
        "F3",
        (
            "line 2 lacks its ; : write 'mode: 1;', or ;; after the last line of a value of several"
            " lines"
        ),
    ),
    (f"name: {'a' * 70_000};\n%%\n(c4)", "F4", "the limit is 65,536 bytes: look for a missing %%"),
    (
        f"{_SCORE}a({'f' * 20_000}",
        "F5",
        "the limit is 16,384 bytes: look for a missing ( or ) after 3:5",
    ),
    (
        f"{_SCORE}{'a' * 20_000}",
        "F5",
        "the limit is 16,384 bytes: look for a missing ( or ) after 3:5",
    ),
    (f"{_SCORE}a(g", "F6", "the ( at 3:7 is not closed: write )"),
    (f"{_SCORE}a<v>(g) b(h)", "F6", "the <v> at 3:7 is not closed: write </v>"),
    (f"{_SCORE}a[b(g) c(h)", "F6", "the [ at 3:7 is not closed: write ]"),
]


def helps_of(score: bytes) -> list[tuple[str, str | None]]:
    """Returns the code and the help of each message."""
    found = check(score).messages
    return [
        (it.code, help) for it, help in zip(found, helps_for(Compiled(score), found), strict=True)
    ]


class Helps(unittest.TestCase):
    def test_one_slip(self) -> None:
        """Of several messages of one lost bracket the first one has its help; equal helps of two
        slips stand twice."""
        self.assertEqual(
            [help for _, help in helps_of(f"{_SCORE}KY(f ri(gfg)e(h5)i(h5)".encode())],
            [
                "the ( at 3:8 lacks its ): did you mean 'KY(f)'?",
                "this is the mistake reported at 3:11",
                *["'5' is no sign of the note before it: remove it"] * 2,
            ],
        )

    def test_quotes(self) -> None:
        """A part of a score is quoted whole up to 40 characters."""
        self.assertEqual(named("a" * 40), f"'{'a' * 40}'")
        self.assertEqual(named("a" * 41), f"'{'a' * 40}..'")
        self.assertEqual(
            helps_of(b"name: \xe9;\n")[0],
            ("F1", "the file may be Latin-1: iconv -f ISO-8859-1 -t UTF-8 converts it"),
        )

    def test_helps(self) -> None:
        for score, code, wanted in HELPS:
            with self.subTest(score):
                self.assertIn((code, wanted), helps_of(score.encode()))

    def test_table(self) -> None:
        """The table names the facts that there are, and each of them is named in a row."""
        table = json.loads((Path(helps.__file__).with_name("helps.json")).read_text("utf-8"))
        used = {it for row in table["helps"] for it in row.get("if", ())}
        used |= {
            name
            for text in (table["again"], *(row["help"] for row in table["helps"]))
            for _, name, _, _ in Formatter().parse(text)
            if name
        }
        self.assertEqual(used, {*FACTS, "first"})
        self.assertEqual(set(table["facts"]), used)
        fields = {"codes", "node", "after", "before", "at", "is", "if", "once", "help"}
        for row in table["helps"]:
            self.assertLessEqual(set(row), fields, row)
            self.assertLessEqual({"codes", "help"}, set(row), row)

    def test_each_code_has_one(self) -> None:
        for code in CODES.values():
            if code.is_tried:
                with self.subTest(code.name):
                    told = [
                        help
                        for name, help in helps_of(code.score_with(code.wrong))
                        if name == code.name
                    ]
                    self.assertNotIn(None, told)
                    self.assertGreater(len(told), 0)

    def test_scores(self) -> None:
        """Each message of the tables and the examples has a help of one line that can be
        printed."""
        number = 0
        for score in [
            *set(scores_of_tables()),
            *(it.read_bytes() for it in EXAMPLES.glob("*.gabc")),
        ]:
            for code, help in helps_of(score):
                self.assertTrue(
                    help and help.isprintable() and len(help) < 200, (score, code, help)
                )
                number += 1
        self.assertGreater(number, 1_000)


if __name__ == "__main__":
    unittest.main()
