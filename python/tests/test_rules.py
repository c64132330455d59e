"""Tries the rules: what each finds, and at which place of a score that is not canonical."""
from __future__ import annotations

import json
import unittest
from pathlib import Path

from support import EXAMPLES, InFolder, command, scores_of_tables

from gregorio_chant import Kind, Status, compile
from gregorio_chant.linting.finding import FINDERS, messages_with_rules
from gregorio_chant.linting.rules import RULES
from gregorio_chant.objects.compiled import Compiled


def found(score: str, name: str) -> list[tuple[int, int, str]]:
    """Returns the places and texts of what a rule finds."""
    return [
        (it.line, it.column, it.text)
        for it in messages_with_rules(Compiled(score.encode()))
        if it.code == name
    ]


class Rules(unittest.TestCase):
    def test_table(self) -> None:
        """Each rule of the table has what finds it."""
        self.assertEqual(list(FINDERS), list(RULES))

    def test_outside_staff(self) -> None:
        told = "pitch {} is outside a staff of {} lines, which goes from a to {}"
        for lines, highest, over in (("2", "i", "j"), ("3", "k", "l"), ("4", "m", "n")):
            score = (
                f"name: a; % b\nstaff-lines:{lines};\n%%\n(c1)  a ({highest}x{highest}5{over})"
                f" ({over}+) ({over}#)\n"
            )
            text = told.format(over, lines, highest)
            self.assertEqual(
                found(score, "outside-staff"), [(4, 14, text), (4, 18, text), (4, 23, text)]
            )
        self.assertEqual(found("staff-lines: 5;\n%%\n(c1) (p)", "outside-staff"), [])
        self.assertEqual(found("staff-lines: x;\n%%\n(c1) (p)", "outside-staff"), [])
        self.assertEqual(
            found("%%\n(c1) (nz0a)", "outside-staff"), [(2, 7, told.format("n", "4", "m"))]
        )

    def test_bracket_in_attribute(self) -> None:
        score = "%%\n(c4) a(f[cs:x)b(g]h)  c (f/[(]g [a])[d)](f)"
        self.assertEqual([it[:2] for it in found(score, "bracket-in-attribute")], [(2, 9), (2, 27)])

    def test_nabc_without_header(self) -> None:
        body = "%%\n(c4) a(f&|vi) b(gh)\nc(f[|]|pe!clsu2|) d(f)"
        messages = messages_with_rules(Compiled(f"name: a;\n{body}".encode()))
        self.assertEqual(
            [(it.line, it.column, it.code) for it in messages if it.code != "outside-staff"],
            [(3, 9, "E1"), (3, 10, "nabc-without-header")],
        )
        self.assertIn("in the notes of 2 syllables", messages[1].text)
        self.assertIn(
            "in the notes of 1 syllable,", found("%%\n(c4) Ky(f|pu)", "nabc-without-header")[0][2]
        )
        self.assertGreater(len(compile(f"name: a;\n{body}").messages), 4)
        self.assertEqual(found(f"nabc-lines: 1;\n{body}", "nabc-without-header"), [])
        self.assertEqual(len(found(f"nabc-lines: 0;\n{body}", "nabc-without-header")), 1)

    def test_comment(self) -> None:
        score = "% a\nname: b%c\n;; % d\n%% e\n(c4%f\n) $%g(f[%]) <v>%</v>(h%i)\n)[%]%j"
        self.assertEqual(
            [it[:2] for it in found(score, "comment")],
            [(1, 1), (3, 4), (4, 4), (5, 4), (6, 23), (7, 5)],
        )

    def test_asterisk_without_bar(self) -> None:
        for notes, is_well in (
            ("*(;)", True),
            ("*() (;)", True),
            ("*() (z0::c3)", True),
            ("a*(f) (,)", True),
            ("<i>*</i>(`)", True),
            ("**(f,)", True),
            ("*()", True),
            ("*() b(g) c(h) (,)", True),
            ("*() b(g)c(h) (::)", True),
            ("*() b(g) d(;)", True),
            ("*() (g;)", True),
            ("*() b(g)c(h) (;)", False),
            ("*(f) b(g) (,)", False),
            ("a(f) <b>b*</b>(g) c(,)(,)", True),
            ("<sp>*</sp>() d(g) (;)", False),
        ):
            score = f"name: a;\n%%\n(c4)  {notes}   c(f)"
            places = [it[:2] for it in found(score, "asterisk-without-bar")]
            self.assertEqual(places, [] if is_well else [(3, 7 + notes.index("*"))], notes)
        # One in a comment or in a raw part is not sung.
        score = "%%\n(c4) %*\n<v>*</v><alt>*</alt>a*() b(g) (;) c(f)"
        self.assertEqual([it[:2] for it in found(score, "asterisk-without-bar")], [(3, 22)], score)

    def test_clef_off_staff(self) -> None:
        score = "name: a;\nstaff-lines: 3;\n%%\n(cb4) a(f@c3@f4z)\n"
        self.assertEqual([it[:2] for it in found(score, "clef-off-staff")], [(4, 2), (4, 11)])
        self.assertEqual(found(score.replace("lines: 3", "lines: 4"), "clef-off-staff"), [])
        self.assertEqual(found(score.replace("lines: 3", "lines: x"), "clef-off-staff"), [])

    def test_unknown_mode(self) -> None:
        for mode, is_well in (
            ("9", False),
            ("0", False),
            ("12", False),
            ("10t", False),
            ("8", True),
            ("6t", True),
            ("n", True),
            ("", True),
            ("1*", True),
        ):
            places = [
                it[:2]
                for it in found(f"name: a;\nmode: 9;\n mode:{mode};\n%%\n(c4)\n", "unknown-mode")
            ]
            self.assertEqual(places, [] if is_well else [(3, 2)], mode)

    def test_blank_before_notes(self) -> None:
        score = (
            "name: a;\n%%\n(c4) a (f)b  (g) c(h) (;) <eu> (::) <i>d</i>\n(f) e % f\n(g) $( (h) [a"
            " b] (i) g"
        )
        self.assertEqual(
            [it[:2] for it in found(score, "blank-before-notes")],
            [(3, 7), (3, 12), (3, 45), (5, 7), (5, 17)],
        )

    def test_lone_capital(self) -> None:
        score = "name: a;\n%%\n(c4) a(F) b(fG) c(hGF) d(fgF) e(G~) f(gH) (;) (i) (I) (i)\n"
        self.assertEqual(
            [it[:2] for it in found(score, "lone-capital")], [(3, 8), (3, 14), (3, 40), (3, 52)]
        )
        for sign in "~<>012":
            self.assertEqual(
                found(f"name: a;\n%%\n(c4) Ky(f)ri(G{sign})e(h)", "lone-capital"), [], sign
            )
        self.assertEqual(found("name: a;\n%%\n(c4) a(fv) b(gs) c(G) d(h_)", "lone-capital"), [])

    def test_unknown_special(self) -> None:
        score = (
            "name: a;\n%%\n(c4)  <sp>Rx</sp>(f) <sp>R/</sp><sp>~~</sp><sp></sp>(g)"
            " <v><sp>x</sp></v>(h) $<sp$>(i)\n"
        )
        self.assertEqual([it[:2] for it in found(score, "unknown-special")], [(3, 7), (3, 44)])

    def test_misspelled_header(self) -> None:
        score = (
            "name: a;\n moed: 1;\nstaff-line: 4;\nlicense: b;\nx: y;\nanotation: c;\ndef-m1:"
            " d;\n%%\n(c4) a(f)"
        )
        self.assertEqual(
            [it[:2] for it in found(score, "misspelled-header")], [(2, 2), (3, 1), (6, 1)]
        )

    def test_mode_without_number(self) -> None:
        for mode, is_well in (
            ("VII", False),
            ("iv.", False),
            ("seven", False),
            ("7", True),
            ("9", True),
            ("n", True),
            ("", True),
            ("p", True),
            ("tonus irreg.", True),
        ):
            places = [
                it[:2]
                for it in found(f"name: a;\nmode: {mode};\n%%\n(c4)\n", "mode-without-number")
            ]
            self.assertEqual(places, [] if is_well else [(2, 1)], mode)
        self.assertIn(
            "write mode: 4;", found("mode: iv.;\n%%\n(c4)\n", "mode-without-number")[0][2]
        )

    def test_punctuation(self) -> None:
        score = "name: a;\n%%\n(c4)  me(f), (;) et(g),(h) a,(f)b(g) c.(f) d(g) 1.(::)e(f) f;()g(f)"
        self.assertEqual([it[:2] for it in found(score, "late-punctuation")], [(3, 12), (3, 23)])
        self.assertEqual([it[:2] for it in found(score, "missing-blank")], [(3, 33)])

    def test_bar_as_text(self) -> None:
        score = "name: a;\n%%\n(c4) me(f) ; et(g)\n: ni(h) a :(f) ;(g) (;) b;(h)\n ,\n c(i)"
        self.assertEqual([it[:2] for it in found(score, "bar-as-text")], [(3, 12), (4, 1), (5, 2)])

    def test_words(self) -> None:
        score = (
            "name: a;\n%%\n(c4) A-(e)sp\u00e9r-(f)ges(g) me-(h) -(f)b(g)"
            " D&oacute;(f)mi&x;(g)ne&#233;(h) De()us(f) V() *() a()"
        )
        self.assertEqual([it[:2] for it in found(score, "typed-hyphen")], [(3, 6), (3, 11)])
        self.assertEqual(
            [it[1:] for it in found(score, "html-entity")],
            [
                (43, "&oacute; is a name of HTML, and is sung letter for letter: write \u00f3"),
                (64, "&#233; is a name of HTML, and is sung letter for letter: write \u00e9"),
            ],
        )
        self.assertEqual([it[:2] for it in found(score, "syllable-without-notes")], [(3, 74)])

    def test_notes_in_translation(self) -> None:
        score = "name: a;\n%%\n(c4) D\u00f3[hi]mi(h) a[me](f) b[Lord]c(g) [fg]d(h)"
        self.assertEqual([it[:2] for it in found(score, "notes-in-translation")], [(3, 8)])

    def test_unused_alteration(self) -> None:
        for notes, is_well in (
            ("(ixi)", True),
            ("(ix)b(i)", True),
            ("(ixg,i)", False),
            ("(ixg`i)", True),
            ("(iix)", False),
            ("(jxhi)", False),
            ("(ix)", True),
            ("(ixiyi)", False),
            ("(ixg) b(i)", False),
            ("(ixgc3i)", False),
        ):
            self.assertEqual(
                bool(found(f"name: a;\n%%\n(c4) a{notes}", "unused-alteration")), not is_well, notes
            )
        self.assertEqual(
            [it[:2] for it in found("name: a;\n%%\n(c4)   a(hi  ixg)", "unused-alteration")],
            [(3, 14)],
        )

    def test_second_score_line(self) -> None:
        score = "name: a;\n%% a\n(c4) a(f)\n %% b\n%%\nb(g) %% c\n%%d"
        self.assertEqual([it[:2] for it in found(score, "second-score-line")], [(5, 1), (7, 1)])

    def test_a_bar_of_two_lines_is_no_nabc(self) -> None:
        self.assertEqual(found("name: a;\n%%\n(c4) a(f) (||) b(| |)", "nabc-without-header"), [])

    def test_scores_of_the_tables(self) -> None:
        """Each score of the tables can be tried, whatever stands in it, and its messages come in
        order, a fatal fault last."""
        for score in sorted(set(scores_of_tables())):
            with self.subTest(score):
                messages = messages_with_rules(Compiled(score))
                places = [(it.line, it.column) for it in messages if it.kind is not Kind.FATAL]
                self.assertEqual(places, sorted(places))
                self.assertEqual(
                    messages[-1:] != () and messages[-1].kind is Kind.FATAL,
                    compile(score).status is Status.FATAL,
                )

    def test_off_unless_asked(self) -> None:
        for score in sorted(EXAMPLES.glob("*.gabc")):
            for line in json.loads(command("check", "--output-format", "json", score).stdout):
                self.assertNotIn(line["code"], RULES)

    def test_fatal_fault(self) -> None:
        self.assertEqual(
            [it.code for it in messages_with_rules(Compiled(b"name: a;\n%%\n(c4) a(n"))], ["F6"]
        )

    def test_order(self) -> None:
        messages = messages_with_rules(Compiled(b"%%\n(c4) <x>a</x>(n&) % b\n*(f) a(g) (;)"))
        self.assertEqual(
            [(it.line, it.column, it.code) for it in messages],
            [
                (1, 1, "W1"),
                (2, 6, "W6"),
                (2, 10, "W6"),
                (2, 15, "outside-staff"),
                (2, 16, "E1"),
                (2, 19, "comment"),
                (3, 1, "asterisk-without-bar"),
            ],
        )


class Command(InFolder):
    def test_rules(self) -> None:
        self.put("a.gabc", "name: a;\n%%\n(c4) a(n) % b\n")
        words = ["check", "--output-format", "lines", "--quiet"]
        self.assertEqual(command(*words, "a.gabc").stdout, b"")
        lines = command(*words, "--rules", "a.gabc").stdout.decode()
        self.assertEqual(
            [it.split(": ")[1:3] for it in lines.split("\n")[:-1]], [["warning", "outside-staff"]]
        )
        lines = command(*words, "--rules", "--select", "comment", "a.gabc").stdout.decode()
        self.assertEqual(
            [it.split(": ")[1:3] for it in lines.split("\n")[:-1]], [["warning", "comment"]]
        )
        self.put("gregorio-chant.toml", "[format]\ncanonical = true\n")
        self.assertIn(b"warning: comment", command(*words, "--rules", "a.gabc").stdout)
        self.assertNotIn(
            b"warning: comment", command(*words, "--rules", "--no-config", "a.gabc").stdout
        )
        Path("gregorio-chant.toml").unlink()
        self.assertEqual(
            command(*words, "--rules", "--fail-on", "outside-staff", "a.gabc").returncode, 1
        )
        self.assertEqual(command(*words, "--rules", "--fail-on", "rules", "a.gabc").returncode, 1)
        self.assertEqual(command(*words, "--rules", "a.gabc").returncode, 0)
        self.assertEqual(command(*words, "--rules", "--ignore", "rules", "a.gabc").stdout, b"")
        self.assertIn(
            b"outside-staff",
            command(*words, "--rules", "--select", "outside-staff", "a.gabc").stdout,
        )
        self.put("b.gabc", "name: a;\n%%\n(c4) a(f|vi)\n")
        self.assertEqual(command(*words, "--rules", "b.gabc").returncode, 1)
