"""Tries the tables over many scores: `find`, `index` and `neumes`."""
from __future__ import annotations

import csv
import io
import json
import unittest
from pathlib import Path

from support import EXAMPLES, FAULTY, InFolder, command, scores_of_tables

from gregorio_chant.dump import Score, intervals
from gregorio_chant.tables.indexing import Index
from gregorio_chant.tables.searching import (
    KINDS,
    IntervalSearch,
    NeumeSearch,
    TextSearch,
    Together,
    each_neume,
    folded,
)

A = "name: A;\nmode: 1;\n%%\n(c4) Ký(f)ri(gfg)e,(e.) % (fgh)\n e(fg)lé(ixi)i(h)son(g) (::)\n"
B = "%%\r\n(f3) Ky(f) rie(gf)e (h) eleison.(gfe)\r\n"


class Found(InFolder):
    def setUp(self) -> None:
        super().setUp()
        self.put("s/a.gabc", A)
        self.put("s/b.gabc", B)

    def found(self, *words: str) -> list[str]:
        ran = command("find", *words, "--quiet", "s")
        self.assertEqual((ran.returncode, ran.stderr), (0, b""))
        return ran.stdout.decode().split("\n")[:-1]

    def test_intervals(self) -> None:
        self.assertEqual(
            self.found("--interval", "+1 -1"),
            ["s/a.gabc:4:9: fgf  fa sol fa  Kýri", "s/b.gabc:2:9: fgf  re mi re  Ky rie"],
        )
        self.assertEqual(self.found("--interval", "-2"), ["s/a.gabc:4:16: ge  sol mi  rie,"])
        self.assertEqual(self.found("--interval", "-1 -1", "--semitones"), [])
        self.assertEqual(
            self.found("--interval", "+1", "--semitones"), ["s/a.gabc:4:21: ef  mi fa  e, e"]
        )
        self.assertEqual(
            self.found("--interval", "-1"),
            [
                "s/a.gabc:4:14: gf  sol fa  ri",
                "s/a.gabc:5:12: ih  si♭ la  léi",
                "s/a.gabc:5:16: hg  la sol  ison",
                "s/b.gabc:2:16: gf  mi re  rie",
                "s/b.gabc:2:22: hg  fa mi  e eleison.",
                "s/b.gabc:2:34: gf  mi re  eleison.",
                "s/b.gabc:2:35: fe  re ut  eleison.",
            ],
        )

    def test_neumes(self) -> None:
        self.assertEqual(self.found("--neume", "Porrectus"), ["s/a.gabc:4:14: gfg  sol fa sol  ri"])
        self.assertEqual(
            [it.partition(": ")[0] for it in self.found("--neume", "p*es*")], ["s/a.gabc:5:4"]
        )
        self.assertEqual(self.found("--neume", "torculus*"), [])

    def test_words(self) -> None:
        self.assertEqual(
            self.found("--text", "kyri*"), ["s/a.gabc:4:6: fgfge  fa sol fa sol mi  Kýrie,"]
        )
        self.assertEqual(
            self.found("--text", "KYR*  ELEÍSON"),
            ["s/a.gabc:4:6: fgfgefgihg  fa sol fa sol mi fa sol si♭ la sol  Kýrie, eléison"],
        )
        self.assertEqual(len(self.found("--text", "*")), 5)
        self.assertEqual(folded("«Dómine!»"), "domine")
        sharp = Score.parse("name: a;\n%%\n(c4) Stra\u00dfe(f)")
        self.assertEqual(len(list(TextSearch.of("strasse").matches(sharp))), 1)

    def test_melodies(self) -> None:
        """A melody is found by its letters, whatever stands between them; what is none is
        refused."""
        for letters in ("fgfg", "1---f--gf--g", "FGfG"):
            self.assertEqual(
                self.found("--volpiano", letters),
                ["s/a.gabc:4:9: fgfg  fa sol fa sol  Kýri"],
                letters,
            )
        self.assertEqual(self.found("--volpiano", "fggggggg"), [])
        for word in ("---", "1", "f?g", "t"):
            self.assertEqual(command("find", "--volpiano", word, "s").returncode, 3, word)

    def test_together(self) -> None:
        """With several options all have to be found over one note; what the first of them finds is
        written."""
        self.assertEqual(self.found("--interval", "+1 -1", "--text", "rie"), [])
        self.assertEqual(
            self.found("--interval", "-1", "--text", "eleison"),
            [
                "s/a.gabc:5:12: ih  si\u266d la  l\u00e9i",
                "s/a.gabc:5:16: hg  la sol  ison",
                "s/b.gabc:2:22: hg  fa mi  e eleison.",
                "s/b.gabc:2:34: gf  mi re  eleison.",
                "s/b.gabc:2:35: fe  re ut  eleison.",
            ],
        )
        self.assertEqual(
            self.found("--interval", "+1", "--neume", "pes"),
            ["s/a.gabc:4:21: ef  mi fa  e, e", "s/a.gabc:5:4: fg  fa sol  e"],
        )
        self.assertEqual(
            self.found("--text", "Kyrie", "--neume", "porrectus", "--volpiano", "gfg"),
            ["s/a.gabc:4:14: gfg  sol fa sol  ri"],
        )
        self.assertEqual(self.found("--text", "eleison", "--neume", "porrectus"), [])

    def test_spreadsheets(self) -> None:
        """CSV is that of RFC 4180; a byte order mark stands before it if that is asked for."""
        self.put("s/c.gabc", 'name: "a, b";\nbook: two\nlines;;\n%%\n(c4) a(f)')
        csv_of = ("index", "--header", "book", "--output-format", "csv", "s")
        data = command(*csv_of).stdout
        self.assertEqual(command(*csv_of, "--bom").stdout, b"\xef\xbb\xbf" + data)
        self.assertEqual(
            (data.count(b"\r\n"), data.count(b"\n"), data[:17]), (4, 5, b"file,line,column,")
        )
        self.assertIn(b'"""a, b"""', data)
        rows = list(csv.DictReader(io.StringIO(data.decode(), newline="")))
        self.assertEqual(
            [(it["name"], it["book"]) for it in rows],
            [("A", ""), ("", ""), ('"a, b"', "two\nlines")],
        )

    def test_headers(self) -> None:
        """A column for each header that is asked for stands after the others, in that order."""
        self.put("s/c.gabc", "name: c;\nbook: Graduale;\n%%\n(c4) a(f)")
        rows = json.loads(
            command(
                "index",
                "--header",
                "commentary,book",
                "--header",
                "book",
                "--output-format",
                "json",
                "s",
            ).stdout
        )
        self.assertEqual([*rows[0]][-3:], ["volpiano", "commentary", "book"])
        self.assertEqual(
            [(it["commentary"], it["book"]) for it in rows],
            [(None, None), (None, None), (None, "Graduale")],
        )

    def test_forms(self) -> None:
        """The three forms say the same."""
        words = ("find", "--interval", "-1", "s")
        text = command(*words).stdout.decode().split("\n")[:-1]
        rows = list(
            csv.DictReader(io.StringIO(command(*words, "--output-format", "csv").stdout.decode()))
        )
        objects = json.loads(command(*words, "--output-format", "json").stdout)
        self.assertEqual(rows, [{name: str(it) for name, it in row.items()} for row in objects])
        self.assertEqual(
            text, ["{file}:{line}:{column}: {notes}  {degrees}  {text}".format(**it) for it in rows]
        )
        self.assertEqual(
            json.loads(command(*words[:2], "-9", "s", "--output-format", "json").stdout), []
        )

    def test_index(self) -> None:
        rows = list(
            csv.DictReader(
                io.StringIO(command("index", "--output-format", "csv", "s").stdout.decode())
            )
        )
        self.assertEqual(
            [(it["file"], it["line"], it["column"], it["name"], it["mode"]) for it in rows],
            [("s/a.gabc", "4", "9", "A", "1"), ("s/b.gabc", "2", "9", "", "")],
        )
        self.assertEqual(
            [(it["text"], it["final"], it["lowest"], it["highest"], it["steps"]) for it in rows],
            [
                ("Kýrie, eléison", "sol", "mi", "si♭", "4"),
                ("Ky riee eleison.", "ut", "ut", "fa", "3"),
            ],
        )
        self.assertEqual(rows[0]["degrees"], "fa sol fa sol mi fa sol si♭ la sol")
        self.assertEqual(
            rows[0]["volpiano"].replace("-", ""),
            "1fgfge" + "3" * rows[0]["volpiano"].count("3") + "fgijhg",
        )
        (row,) = Index()(
            Score.parse("name: a;\n%%\n(c4) " + " ".join(f"w{it}(iyi)" for it in "abcdefgh"))
        )
        self.assertEqual((row.cells[3], row.cells[5]), ("wa wb wc wd we wf", "si"))

    def test_neumes_counted(self) -> None:
        ran = command("neumes", "s")
        self.assertEqual(ran.stdout.decode().split("\n")[0], "s/a.gabc:4:9: punctum  8  f  Ký")
        self.assertEqual(ran.stderr, b"gregorio-chant: 2 files: 12 found\n")
        each = list(
            csv.DictReader(
                io.StringIO(
                    command("neumes", "--each", "--output-format", "csv", "s").stdout.decode()
                )
            )
        )
        self.assertEqual(len(each), 12)
        for it in each:
            line = Path(it["file"]).read_text(encoding="utf-8").split("\n")[int(it["line"]) - 1]
            self.assertTrue(line[int(it["column"]) - 1 :].startswith(it["spelling"]), it)
        counted = list(
            csv.DictReader(
                io.StringIO(command("neumes", "--output-format", "csv", "s").stdout.decode())
            )
        )
        self.assertEqual(
            {it["neume"]: int(it["count"]) for it in counted},
            {
                kind: sum(it["neume"] == kind for it in each)
                for kind in {it["neume"] for it in each}
            },
        )

    def test_faults(self) -> None:
        """What stands before a fault is read, and a line says so; what cannot be read is one
        line."""
        self.put("s/c.gabc", "%%\n(c4) a(fg) b(h")
        self.put("s/d.gabc", "name: d;\n")
        ran = command("find", "--neume", "pes", "s", "none.gabc")
        self.assertEqual(ran.returncode, 4)
        self.assertIn("s/c.gabc:2:8: fg  fa sol  a\n", ran.stdout.decode())
        told = ran.stderr.decode()
        self.assertIn(
            (
                "s/c.gabc:2:13: F6: input ends inside notes, a tag, a raw part or a translation;"
                " nothing after it was read\n"
            ),
            told,
        )
        self.assertIn("s/d.gabc:2:1: F2: no %% line; nothing after it was read\n", told)
        self.assertIn("cannot read none.gabc: No such file or directory\n", told)
        self.assertEqual(command("index", "s").returncode, 2)

    def test_refusals(self) -> None:
        for words, told in (
            (("find", "s"), "one of --interval, --volpiano, --neume and --text is needed"),
            (("find", "--bom", "--text", "a", "s"), "--bom is for --output-format csv"),
            (("index", "--header", ",", "s"), "--header needs the name"),
            (("index", "--header", "a:b", "s"), "has no colon"),
            (("index", "--header", "book,office-part", "s"), "has a column of this name already"),
            (("index", "--header", "file", "s"), "already"),
            (("find", "--interval", "one", "s"), "numbers are needed"),
            (("find", "--neume", "tortulus", "s"), "did you mean torculus?"),
            (("find", "--text", " ", "s"), "needs a word"),
            (("find", "--text", "a", "--semitones", "s"), "--semitones is for --interval"),
            (("neumes",), "a PATH is needed\n"),
            (("index", "--output-format", "sarif", "s"), "text, csv, json"),
        ):
            ran = command(*words)
            self.assertEqual((ran.returncode, ran.stdout), (3, b""))
            self.assertIn(told, ran.stderr.decode())

    def test_many_files(self) -> None:
        """By processes the same comes, in the same order."""
        for number in range(80):
            self.put(f"m/{number % 7}/{number:03}.gabc", A if number % 3 else FAULTY)
        for words in (("find", "--neume", "p*"), ("neumes",)):
            one, four = (
                command(*words, "--output-format", "json", "--jobs", it, "m") for it in ("1", "4")
            )
            self.assertEqual(
                (one.stdout, one.stderr, one.returncode),
                (four.stdout, four.stderr, four.returncode),
            )
            self.assertGreater(len(json.loads(one.stdout)), 2)

    def test_standard_input_and_exclude(self) -> None:
        self.assertEqual(
            command("find", "--neume", "pes", "-", data=A.encode()).stdout,
            "<stdin>:5:4: fg  fa sol  e\n".encode(),
        )
        self.assertEqual(command("index", "--exclude", "a.*", "s").stdout.decode()[:8], "s/b.gabc")


class Everywhere(unittest.TestCase):
    def test_all_kinds_are_known(self) -> None:
        kinds = set()
        for data in [*scores_of_tables(), *(it.read_bytes() for it in EXAMPLES.glob("*.gabc"))]:
            if b"%%" in data:
                try:
                    kinds |= {row.cells[0] for row in each_neume(Score.parse(data))}
                except ValueError:
                    pass
        self.assertLessEqual(kinds, set(KINDS))
        self.assertGreater(len(kinds), 25)

    def test_each_note_is_found(self) -> None:
        """What stands at a place is found by its intervals, its neume and its words."""
        for file in sorted(EXAMPLES.glob("*.gabc")):
            score = Score.parse(file.read_bytes())
            rises = intervals(score.notes)
            for at in range(0, len(rises) - 2, 5):
                found = rises[at : at + 3]
                wanted = tuple(it.steps for it in found if it)
                if len(wanted) == 3:
                    places = [
                        (it.line, it.column)
                        for it in Together(IntervalSearch(wanted, False))(score)
                    ]
                    self.assertIn(
                        (score.notes[at].source.line, score.notes[at].source.column), places
                    )
            glyphs = [glyph for syllable in score.syllables for glyph in syllable.glyphs]
            for kind in {it.kind for it in glyphs}:
                of_kind = [(it.source.line, it.source.column) for it in glyphs if it.kind == kind]
                self.assertEqual(
                    of_kind, [(it.line, it.column) for it in Together(NeumeSearch(kind))(score)]
                )
            self.assertEqual(
                [(it.source.line, it.source.column) for it in score.words],
                [(it.line, it.column) for it in Together(TextSearch.of("*"))(score)],
            )
