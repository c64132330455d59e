"""Tries the repairs: what each makes, that it makes no new message and touches no other place, and
the command."""
from __future__ import annotations

import time
import unittest
from collections import Counter
from dataclasses import replace
from pathlib import Path
from unittest import mock

from support import EXAMPLES, InFolder, command, scores_of_tables

from gregorio_chant import NodeKind, Status, check
from gregorio_chant.linting import mending, repairs
from gregorio_chant.linting.checking import found_in
from gregorio_chant.linting.mending import MENDERS, Edit, Edits
from gregorio_chant.linting.repairing import How, repair
from gregorio_chant.linting.repairs import REPAIRS
from gregorio_chant.linting.selection import Selection
from gregorio_chant.linting.slips import Subject
from gregorio_chant.objects.compiled import Compiled

SAFE, ALL = How(), How(allow_unsafe=True, with_rules=True)
_SCORE = "name: a;\n%%\n(c4) "
_NABC = "name: a;\nnabc-lines: 1;\n%%\n(c4) "
# Scores, and what all repairs make of them; nothing where none can be made.
REPAIRED: list[tuple[str, str | None]] = [
    (f"{_SCORE}a)(g) b>(h) c](i) d<(g) e(h>)\n", f"{_SCORE}a)(g) b$>(h) c](i) d$<(g) e(h>)\n"),
    (f"{_SCORE}a(g)) b(h)\n", None),
    (f"{_SCORE}i>a</i>(g) /i>(h) <x(i) e(h>)\n", None),
    (
        f"{_SCORE}<i>a(g)b(h)  % <b>\n c</i>d(i)\n",
        f"{_SCORE}<i>a</i>(g)<i>b</i>(h)  % <b>\n <i>c</i>d(i)\n",
    ),
    (
        f"{_SCORE}<i>a<b>b(g) (;) c</b>d(h) e</i>(i)",
        f"{_SCORE}<i>a<b>b</b></i>(g) (;) <b><i>c</b>d</i>(h) <i>e</i>(i)",
    ),
    (f"{_SCORE}<i>a(g) b(h)", None),
    (f"{_SCORE}a</i>(g)", None),
    (f"{_SCORE}a(g[ll:1]vd[x]_')\n", f"{_SCORE}a(gv[ll:1]d_'[x])\n"),
    (f"{_SCORE}KY(f ri(gfg)e(h.) a(g b(h)\n", f"{_SCORE}KY(f) ri(gfg)e(h.) a(g) b(h)\n"),
    (f"{_SCORE}KYri(fte(g)\n", f"{_SCORE}KYri(f)te(g)\n"),
    (f"{_SCORE}KYri(fson(g)\n", f"{_SCORE}KYri(f)son(g)\n"),
    (f"{_SCORE}KY(frtqz(g)\n", None),
    (f"{_SCORE}a(g)b(h", f"{_SCORE}a(g)b(h)"),
    ("name: a\nmode: 1 % b\n%%\n(c4) a(g)\n", "name: a;\nmode: 1; % b\n%%\n(c4) a(g)\n"),
    ("name: a\nmode: 1\n%%\n(c4) a(g)\n", "name: a;\nmode: 1;\n%%\n(c4) a(g)\n"),
    (
        "name: a;\n%% b\n(c4) a(g|pu) b(h|vi)\n",
        "name: a;\nnabc-lines: 1;\n%% b\n(c4) a(g|pu) b(h|vi)\n",
    ),
    (
        f"{_SCORE}<v><b></v><i>a(f) <v><i></v>b(g) c</i>(h)\n",
        f"{_SCORE}<v><b></v><i>a</i>(f) <i><v><i></v>b</i>(g) <i>c</i>(h)\n",
    ),
    # A sign of a comment, a raw part, an attribute or a space is none of the score.
    (f"{_SCORE}a>%)\nb(f)\n", f"{_SCORE}a$>%)\nb(f)\n"),
    (f"{_SCORE}Kyri>% </i>\n(f)\n", f"{_SCORE}Kyri$>% </i>\n(f)\n"),
    (f"{_SCORE}a><v>)</v>(f) i><v></i></v>(g)\n", f"{_SCORE}a$><v>)</v>(f) i$><v></i></v>(g)\n"),
    (f"{_SCORE}i>a</i>(g) ri>a</i>(h)\n", None),
    (f"{_SCORE}a(f%|\n) b(g[x|y]) c(f|) d(f) e(g) f(g) g(f)\n", None),
    (f"{_SCORE}a(f/[2]V)\n", None),
    (f"{_SCORE}<v>a b</v>fg) a(f)\n", None),
    ("name: a;\nmode:\n  VI;;\n%%\n(c4) a(f)\n", "name: a;\nmode:\n  6;;\n%%\n(c4) a(f)\n"),
    (f"{_NABC}a(g|un1) b(h|pesu) % un1\n", f"{_NABC}a(g|un) b(h|pesu) % un1\n"),
    (f"{_SCORE}a(g&) <x>b(h) {{c(i)\n", None),
]


def repaired(score: bytes, how: How) -> bytes:
    """Returns what all repairs make of a score."""
    return repair(Compiled(score), how).data


def codes_of(score: bytes, with_rules: bool = True) -> Counter[str]:
    return Counter(it.code for it in found_in(Compiled(score), with_rules))


class Repairs(unittest.TestCase):
    def test_each(self) -> None:
        self.assertEqual(set(MENDERS), set(REPAIRS))
        for it in REPAIRS.values():
            with self.subTest(it.name):
                wrong, right = it.score_with(it.wrong), it.score_with(it.right)
                self.assertEqual(repaired(wrong, ALL), right)
                self.assertEqual(repaired(wrong, SAFE), right if it.is_safe else wrong)
                self.assertTrue(it.codes & set(codes_of(wrong)))
                self.assertFalse(it.codes & set(codes_of(right)))

    def test_scores(self) -> None:
        for score, wanted in REPAIRED:
            with self.subTest(score):
                self.assertEqual(
                    repaired(score.encode(), ALL).decode(), score if wanted is None else wanted
                )

    def test_line_ends_and_marks(self) -> None:
        score = f"\ufeff{_SCORE}\ufeff<i>a\ufeff(g)b</i>(h\ufeff)>(i)\n(f|pu)(f|vi)".replace(
            "\n", "\r\n"
        )
        wanted = (
            "\ufeffname: a;\nnabc-lines: 1;\n%%\n(c4)"
            " \ufeff<i>a\ufeff</i>(g)<i>b</i>(h\ufeff)$>(i)\n(f|pu)(f|vi)".replace("\n", "\r\n")
        )
        self.assertEqual(repaired(score.encode(), ALL).decode(), wanted)

    def test_what_is_not_told_is_not_repaired(self) -> None:
        score = f"{_SCORE}a>(g) % gregorio: ignore E2\n<i>b(h)c</i>(i)\n"
        self.assertEqual(
            repaired(score.encode(), ALL).decode(),
            f"{_SCORE}a>(g) % gregorio: ignore E2\n<i>b</i>(h)<i>c</i>(i)\n",
        )
        self.assertEqual(
            repaired(score.encode(), How(True, True, Selection(ignore=frozenset(("W",))))).decode(),
            score,
        )

    def look_at(self, score: bytes, how: How) -> bool:
        """Checks what repairs make of a score, and returns whether they make something."""
        made = repaired(score, how)
        self.assertEqual(repaired(made, how), made)
        if made == score:
            return False
        old, new = Compiled(score), Compiled(made)
        self.assertIsNone(new.fault)
        if old.fault is None:
            before, after = (codes_of(it, how.with_rules) for it in (score, made))
            self.assertLess(sum(after.values()), sum(before.values()))
            self.assertEqual(after - before, Counter())
            self.look_at_comments(old, new)
        return True

    def look_at_comments(self, old: Compiled, new: Compiled) -> None:
        comments = [
            [node.source for node in it.tree.of_kind(NodeKind.COMMENT, NodeKind.HEADER_COMMENT)]
            for it in (old, new)
        ]
        self.assertEqual(comments[0], comments[1])

    def look_at_notes(self, score: bytes) -> None:
        """Compares the notes before and after safe repairs, by the compiler's dump."""
        notes = [
            [
                it
                for it in Compiled(data).dump.split("\n")
                if it.startswith(("notes:", "nabc", "header"))
            ]
            for data in (score, repaired(score, SAFE))
        ]
        self.assertEqual(notes[0], notes[1])

    def test_scores_of_the_repository(self) -> None:
        scores = {*scores_of_tables(), *(it.read_bytes() for it in EXAMPLES.glob("*.gabc"))}
        made = 0
        for score in sorted(scores):
            with self.subTest(score):
                made += self.look_at(score, ALL)
                self.look_at(score, SAFE)
                self.look_at_notes(score)
        self.assertGreater(made, 100)

    def test_judge(self) -> None:
        """A repair that makes another message, changes another place, or takes a comment, is not
        made."""
        score = f"{_SCORE}a>(g) b(h) % c\n d(i) e(k[x])\n".encode()
        at = len(f"{_SCORE}a")
        elsewhere = len(f"{_SCORE}a>(g) b(")
        comment = len(f"{_SCORE}a>(g) b(h) ")
        escape = Edit(at, "", "$")
        for edits, is_made in (
            ((escape,), True),
            ((escape, Edit(elsewhere, "", "&")), False),
            ((escape, Edit(elsewhere, "", "[")), False),
            ((escape, Edit(0, "", "mode: 1;\n")), False),
            ((escape, Edit(at, "", "b")), False),
            ((Edit(at, "", "(f)$"),), False),
            ((escape, Edit(comment, "% c", "")), False),
            ((escape, Edit(comment, "% c", "% d")), False),
            ((escape, Edit(elsewhere + 2, " ", "  ")), True),
            ((Edit(elsewhere + 2, " ", "  "),), False),
        ):
            wrong = {"escape": lambda subject, offset, edits=edits: edits}
            with mock.patch.dict(mending.MENDERS, wrong):
                self.assertEqual(repaired(score, SAFE) != score, is_made, edits)

    def test_nothing_between_two_edits_is_changed(self) -> None:
        """A repair may not swallow the syllables between its edits."""
        score = f"{_SCORE}a>(g) b(h) x(i) c(i) d(k)\n".encode()
        edits = (
            Edit(score.index(b">"), "", "$"),
            Edit(score.index(b"b("), "", "["),
            Edit(score.index(b" d("), "", "]"),
        )
        guess = replace(REPAIRS["escape"], changes="a guess")
        wrong = {"escape": lambda subject, offset: edits}
        with mock.patch.dict(repairs.REPAIRS, {"escape": guess}), mock.patch.dict(
            mending.MENDERS, wrong
        ):
            self.assertEqual(repaired(score, ALL), score)

    def test_what_is_refused_takes_nothing_else_with_it(self) -> None:
        """Of many repairs that are tried together those that are refused are found, and the others
        are made."""
        score = "".join(
            [_SCORE, *(f"a{'&' if it % 7 == 3 else ''}>(g) " for it in range(50)), "\n"]
        )
        right = MENDERS["escape"]

        def find(subject: Subject, offset: int) -> Edits:
            return (
                right(subject, offset)
                if subject.text[offset - 1] != "&"
                else (Edit(offset, ">", "(q)"),)
            )

        with mock.patch.dict(mending.MENDERS, {"escape": find}):
            made = repaired(score.encode(), SAFE).decode()
        self.assertEqual(made, score.replace("a>", "a$>"))

    def test_time(self) -> None:
        """100 kB of signs are repaired in a time that a person waits, and so are many messages that
        no repair takes away."""
        many = f"{_SCORE}{('>' * 5_000 + '(f) ') * 20}\n".encode()
        for score, how, most in (
            (many, SAFE, 8.0),
            (f"{_SCORE}{'<i>a(f) ' * 1_000}\n".encode(), SAFE, 5.0),
            (f"{_SCORE}{'a(g[x]&) ' * 45}\n".encode(), ALL, 5.0),
            (f"{_SCORE}{'a(f ri(g) ' * 300}\n".encode(), How(allow_unsafe=True), 10.0),
        ):
            begin = time.process_time()
            made = repaired(score, how)
            self.assertLess(time.process_time() - begin, most, score[:60])
            self.assertTrue(made)
        self.assertEqual(repaired(many, SAFE).count(b"$>"), 100_000)

    def test_a_fault_that_stays_leaves_the_score(self) -> None:
        score = b"name: a\nmode: 1\n%%\n(c4) a(f) <v>b(g)\n"
        self.assertEqual(repaired(score, ALL), score)

    def test_what_is_told_of_a_guess(self) -> None:
        made = repair(Compiled(f"{_SCORE}mun9hh)d\u00e1(ij)\n".encode()), ALL)
        self.assertEqual(
            tuple(map(str, made.guesses)),
            (
                (
                    "3:12: open-notes: a guess: 'mun9hh)d\u00e1(ij)' becomes 'mun(hh)d\u00e1(ij)';"
                    " text becomes notes"
                ),
            ),
        )
        self.assertEqual(repair(Compiled(f"{_SCORE}a>(g)\n".encode()), ALL).guesses, ())

    def test_fatal_faults(self) -> None:
        """Where a fault stops a score, a repair inserts and takes nothing away."""
        score = b"name: a\n%%\n(c4)\n"
        for edits, is_made in (((Edit(7, "", ";"),), True), ((Edit(6, "a", "b;"),), False)):
            wrong = {"end-header": lambda subject, offset, edits=edits: edits}
            with mock.patch.dict(mending.MENDERS, wrong):
                self.assertEqual(check(repaired(score, ALL)).status is not Status.FATAL, is_made)
        for score in (
            b"name: \xe9\n%%\n(c4) a>(g",
            b"name: x\n%%\n(c4) a>(f)\n\xff\n",
            b"name: x;\n%%\n(c4) a>(f)\nb(\xff\n",
        ):
            self.assertEqual(repaired(score, ALL), score)


class Command(InFolder):
    def test_words(self) -> None:
        score = f"{_SCORE}a>(g[x]v) % c\n"
        self.put("s/a.gabc", score)
        self.put("s/b.gabc", f"{_SCORE}a(g)\n")
        words = ("check", "--output-format", "lines")
        ran = command(*words, "--fix", "--diff", "s")
        self.assertEqual(
            (ran.returncode, ran.stderr), (1, b"gregorio-chant: 1 file would be repaired\n")
        )
        self.assertIn(b"+++ s/a.gabc (repaired)\n", ran.stdout)
        self.assertIn(b"\n-(c4) a>(g[x]v) % c\n+(c4) a$>(g[x]v) % c\n", ran.stdout)
        self.assertEqual(Path("s/a.gabc").read_text(), score)
        ran = command(*words, "--fix", "--select", "E1", "--quiet", "s")
        self.assertEqual((ran.returncode, Path("s/a.gabc").read_text()), (1, score))
        ran = command(*words, "--fix", "--quiet", "s")
        self.assertEqual(
            (ran.returncode, ran.stdout),
            (1, b"s/a.gabc:3:14: error: E1: character left out of the notes\n"),
        )
        self.assertEqual(Path("s/a.gabc").read_text(), f"{_SCORE}a$>(g[x]v) % c\n")
        ran = command(*words, "--fix", "--unsafe-fixes", "--quiet", "s")
        told = (
            b"gregorio-chant: s/a.gabc:3:14: sign-before-attribute: a guess: 'a$>(g[x]v)' becomes"
            b" 'a$>(gv[x])'; a sign is added\n"
        )
        self.assertEqual((ran.returncode, ran.stdout, ran.stderr), (0, b"", told))
        self.assertEqual(Path("s/a.gabc").read_text(), f"{_SCORE}a$>(gv[x]) % c\n")
        ran = command(*words, "--fix", "--unsafe-fixes", "--diff", "s")
        self.assertEqual(
            (ran.returncode, ran.stdout, ran.stderr),
            (0, b"", b"gregorio-chant: 0 files would be repaired\n"),
        )

    def test_words_that_do_not_fit(self) -> None:
        for words in ("--fix -", "--fix --staged", "--diff .", "--unsafe-fixes .", "--fix"):
            ran = command("check", *words.split())
            self.assertEqual((ran.returncode, ran.stdout), (3, b""), words)
            self.assertRegex(ran.stderr.decode(), r"^gregorio-chant: .*\n$")

    def test_files_that_cannot_be_written(self) -> None:
        file = self.put("a.gabc", f"{_SCORE}a>(g)\n")
        Path("b.gabc").hardlink_to(file)
        ran = command(
            "check", "--output-format", "lines", "--fix", "--quiet", "a.gabc", "none.gabc"
        )
        self.assertEqual(ran.returncode, 4)
        self.assertIn(
            b"cannot repair a.gabc: it has other names (hard links); it stays as it was\n",
            ran.stderr,
        )
        self.assertIn(b"cannot read none.gabc: No such file or directory\n", ran.stderr)
        self.assertEqual(file.read_text(), f"{_SCORE}a>(g)\n")


if __name__ == "__main__":
    unittest.main()
