"""Tries the command `check`: each form of messages, which are told, statuses, and input that is
bad."""
from __future__ import annotations

import json
import os
import subprocess
import sys
import unittest

from support import EXAMPLES, FAULTY, ROOT, SCORE, InFolder, command, has, in_terminal

from gregorio_chant import __version__
from gregorio_chant.linting.codes import CODES
from gregorio_chant.linting.explaining import PAGES, page_of

WARNED = "name: Kyrie;\n%%\n(c4) <i>Ky(f)ri</i>(g)\n"
# Words that write something.
WRITING = [
    ("check", "--output-format", it, "a.gabc")
    for it in ("lines", "json", "github", "sarif") + ("text",) * has("rich")
] + [("explain", "--all")]
SHOWN = """\
a b.gabc:3:10: error: E1: character left out of the notes
    3 | (c4) Ky(g5)ri(g)
      |          ^
      = '5' is no sign of the note before it: remove it
"""
HELP = "'5' is no sign of the note before it: remove it"


class Forms(InFolder):
    def test_lines(self) -> None:
        for score in sorted(EXAMPLES.glob("*.gabc")):
            ran = command("check", "--output-format", "lines", score)
            wanted = (
                score.with_suffix(".messages")
                .read_text(encoding="utf-8")
                .replace("<stdin>", str(score))
            )
            self.assertEqual(ran.stdout.decode(), wanted)
            self.assertEqual(ran.returncode, 1 if ": error: " in wanted else 0)

    @unittest.skipUnless(has("rich"), "there is no rich")
    def test_text(self) -> None:
        self.put("a b.gabc", FAULTY)
        ran = command("check", "a b.gabc")
        self.assertEqual(ran.stdout.decode(), f"{SHOWN}1 file: 1 error\n")
        self.assertEqual((ran.returncode, ran.stderr), (1, b""))

    @unittest.skipUnless(has("rich"), "there is no rich")
    def test_text_of_long_lines(self) -> None:
        self.put(
            "a.gabc",
            "name: a;\n%%\n(c4) "
            + "\u8056\u6b4c\u8056(f) \ta\u0301(g) " * 40
            + "Ky(g5)ri(g)"
            + " e(h)" * 400,
        )
        shown = (
            command("check", "a.gabc", environment={"COLUMNS": "60"}).stdout.decode().split("\n")
        )
        self.assertRegex(shown[1], r"^    3 \| .{40,52}$")
        wide, narrow = sum(it in "\u8056\u6b4c" for it in shown[1]), shown[1].count("\u0301")
        self.assertGreater(wide, narrow)
        self.assertEqual(shown[2].index("^") - shown[1].index("Ky(g5") - 4, wide - narrow)

    @unittest.skipUnless(has("rich"), "there is no rich")
    def test_text_at_the_ends(self) -> None:
        self.put("a.gabc", b"name: \xe9;\n")
        self.assertIn(
            "a.gabc:1:7: fatal: F1: not UTF-8\n    1 | name: \ufffd;\n      |       ^\n",
            command("check", "a.gabc").stdout.decode(),
        )
        self.put("b.gabc", "name: a;\n")
        self.assertIn(
            "b.gabc:2:1: fatal: F2: no %% line\n    2 | \n      | ^\n",
            command("check", "b.gabc").stdout.decode(),
        )

    def test_json(self) -> None:
        self.put("a.gabc", FAULTY)
        self.put("b.gabc", SCORE)
        ran = command("check", "--output-format", "json", ".")
        self.assertEqual(
            json.loads(ran.stdout),
            [
                {
                    "file": "./a.gabc",
                    "line": 3,
                    "column": 10,
                    "end_line": 3,
                    "end_column": 11,
                    "kind": "error",
                    "code": "E1",
                    "text": "character left out of the notes",
                    "help": HELP,
                }
            ],
        )
        self.assertEqual(ran.stderr, b"gregorio-chant: 2 files: 1 error\n")
        self.assertEqual(
            json.loads(command("check", "--output-format", "json", "b.gabc").stdout), []
        )
        self.put("c.gabc", "name: a;\n")
        (fault,) = json.loads(command("check", "--output-format", "json", "c.gabc").stdout)
        self.assertEqual(
            [fault[it] for it in ("line", "column", "end_line", "end_column")], [2, 1, 2, 1]
        )

    def test_github(self) -> None:
        self.put("a,b:c%.gabc", FAULTY)
        ran = command("check", "--output-format", "github", "a,b:c%.gabc")
        self.assertEqual(
            ran.stdout,
            b"::error file=a%2Cb%3Ac%25.gabc,line=3,col=10,title=E1::character left out of the"
            b" notes: " + HELP.encode() + b"\n",
        )

    def test_sarif(self) -> None:
        self.put("a b\u00e9.gabc", FAULTY)
        log = json.loads(command("check", "--output-format", "sarif", ".", "none").stdout)
        self.assertEqual(log["version"], "2.1.0")
        run = log["runs"][0]
        self.assertEqual(
            (run["tool"]["driver"]["name"], run["tool"]["driver"]["version"]),
            ("gregorio-chant", __version__),
        )
        (rule,) = run["tool"]["driver"]["rules"]
        self.assertEqual((rule["id"], rule["shortDescription"]["text"]), ("E1", CODES["E1"].text))
        self.assertEqual(rule["help"]["text"], page_of("E1"))
        region = {"startLine": 3, "startColumn": 10, "endLine": 3, "endColumn": 11}
        place = {"artifactLocation": {"uri": "a%20b%C3%A9.gabc"}, "region": region}
        self.assertEqual(
            [(it["ruleId"], it["level"], it["locations"]) for it in run["results"]],
            [("E1", "error", [{"physicalLocation": place}])],
        )
        self.assertEqual(
            run["results"][0]["message"], {"text": f"character left out of the notes: {HELP}"}
        )
        self.assertFalse(run["invocations"][0]["executionSuccessful"])
        self.assertEqual(len(run["invocations"][0]["toolExecutionNotifications"]), 1)

    def test_sarif_of_rules(self) -> None:
        """Each result has the number of its rule, and each rule a page that stands in the
        repository."""
        self.put("a.gabc", "name: K;\n%%\n(c4) Ky(fn) % high\nri(g5) De()us(f)\n")
        (run,) = json.loads(
            command("check", "--rules", "--output-format", "sarif", "a.gabc").stdout
        )["runs"]
        rules = run["tool"]["driver"]["rules"]
        self.assertEqual(
            [it["id"] for it in rules], ["outside-staff", "E1", "syllable-without-notes"]
        )
        self.assertEqual(
            [rules[it["ruleIndex"]]["id"] for it in run["results"]],
            [it["ruleId"] for it in run["results"]],
        )
        for rule in rules:
            self.assertEqual(
                {"shortDescription", "fullDescription", "help", "helpUri", "id"}, set(rule)
            )
            page, _, heading = rule["helpUri"].removeprefix(f"{PAGES}/").partition("#")
            self.assertRegex(
                (ROOT / "docs" / page).read_text(encoding="utf-8").lower(),
                f"(?m)^## (?:{heading}|{heading.replace('-', ' ')})$",
            )


@unittest.skipUnless(has("rich"), "there is no rich")
class Terminal(InFolder):
    def test_colours(self) -> None:
        self.put("a b.gabc", FAULTY)
        self.assertIn("\x1b[1;31merror: E1\x1b[0m", in_terminal("check", "a b.gabc")[1])
        status, plain = in_terminal("check", "a b.gabc", environment={"NO_COLOR": "1"})
        self.assertNotIn("\x1b[1;31m", plain)
        self.assertNotIn("[31m", plain)
        self.assertEqual(status, 1)
        self.assertNotIn(b"\x1b", command("check", "a b.gabc").stdout)

    def test_bar(self) -> None:
        for number in range(30):
            self.put(
                f"scores/{number:02}.gabc",
                FAULTY.replace("name: ", "name:") if number == 20 else SCORE,
            )
        status, shown = in_terminal("check", "--jobs", "2", "scores")
        self.assertRegex(shown, "checking.*/30")
        self.assertIn("scores/20.gabc:3:10", shown)
        self.assertIn("30 files: 1 error", shown)
        self.assertEqual(status, 1)
        self.assertNotIn("checking", in_terminal("check", "scores/01.gabc")[1])
        status, shown = in_terminal("format", "--check", "scores")
        self.assertRegex(shown, "formatting.*/30")
        self.assertRegex(shown, r"(?m)\x1b\[2Kgregorio-chant: scores/20.gabc would change$")
        self.assertEqual(status, 1)
        self.assertNotIn(b"checking", command("check", "scores").stderr)


class Choice(InFolder):
    def codes(self, *words: str) -> tuple[list[str], int]:
        ran = command(
            "check", "--output-format", "json", "--quiet", *words, EXAMPLES / "every-finding.gabc"
        )
        self.assertEqual(ran.stderr, b"")
        return sorted({it["code"] for it in json.loads(ran.stdout)}), ran.returncode

    def test_select(self) -> None:
        self.assertEqual(self.codes("--select", "E1,W3"), (["E1", "W3"], 1))
        self.assertEqual(self.codes("--select", "W1"), (["W1"], 0))
        self.assertEqual(self.codes("--select", "E"), (["E1", "E2", "E3", "E4", "E5", "E6"], 1))
        self.assertEqual(
            self.codes("--select", "E", "--ignore", "E1, E3"), (["E2", "E4", "E5", "E6"], 1)
        )
        self.assertEqual(self.codes("--ignore", "E,W"), ([], 0))
        self.assertIn("W10", self.codes("--ignore", "W1")[0])

    def test_fail_on(self) -> None:
        self.put("a.gabc", WARNED)
        for words, status in (
            ("", 0),
            ("--fail-on W3", 1),
            ("--fail-on W", 1),
            ("--fail-on W1", 0),
            ("--fail-on W3 --ignore W3", 0),
        ):
            self.assertEqual(command("check", *words.split(), "a.gabc").returncode, status, words)

    def test_fatal_is_always_told(self) -> None:
        self.put("a.gabc", "name: a;\n")
        ran = command(
            "check", "--output-format", "lines", "--ignore", "F", "--select", "W1", "a.gabc"
        )
        self.assertEqual((ran.returncode, ran.stdout), (2, b"a.gabc:2:1: fatal: F2: no %% line\n"))

    def test_unknown_codes(self) -> None:
        for word in ("--select", "--ignore", "--fail-on"):
            ran = command("check", word, "W99", ".")
            self.assertEqual((ran.returncode, ran.stdout), (3, b""))
            self.assertIn(b"W99 is no code", ran.stderr)


class Paths(InFolder):
    def lines(self, *words: str | bytes, data: bytes = b"", status: int = 1) -> list[bytes]:
        ran = command("check", "--output-format", "lines", "--quiet", *words, data=data)
        self.assertEqual(ran.returncode, status, ran.stderr)
        return [it.split(b":")[0] for it in ran.stdout.split(b"\n")[:-1]]

    def test_folders(self) -> None:
        for name in ("s/b.gabc", "s/a/c.gabc", "s/a.txt", "s/d.gabc/e.gabc", "s/.f.gabc"):
            self.put(name, FAULTY)
        os.symlink("../s", "s/a/loop")
        os.symlink("../b.gabc", "s/a/link.gabc")
        self.assertEqual(
            self.lines("s"),
            [b"s/.f.gabc", b"s/b.gabc", b"s/a/c.gabc", b"s/a/link.gabc", b"s/d.gabc/e.gabc"],
        )
        self.assertEqual(self.lines("s", "--jobs", "1"), self.lines("s", "--jobs", "4"))

    def test_words(self) -> None:
        for name in ("-", "--help", "-x.gabc"):
            self.put(name, FAULTY)
        self.assertEqual(self.lines("-", data=FAULTY.encode()), [b"<stdin>"])
        self.assertEqual(self.lines("./-"), [b"./-"])
        self.assertEqual(self.lines("--", "--help", "-x.gabc"), [b"--help", b"-x.gabc"])
        ran = command("check", "--help")
        self.assertEqual(ran.returncode, 0)
        self.assertIn(b"usage: gregorio-chant check", ran.stdout)
        about = command("--help")
        self.assertIn(b"is outside that proof", b" ".join(about.stdout.split()))
        self.assertEqual(command("--version").stdout, f"gregorio-chant {__version__}\n".encode())
        for words in (
            (),
            ("check",),
            ("lint", "."),
            ("check", "--jobs", "0", "."),
            ("check", "--none", "."),
        ):
            ran = command(*words)
            self.assertEqual((ran.returncode, ran.stdout), (3, b""), words)
            self.assertRegex(ran.stderr.decode(), r"^gregorio-chant: .*\n$")

    def test_nearest_words(self) -> None:
        for words, right in (
            ("chek .", "check"),
            ("check --selct E1 .", "--select"),
            ("check --output-format jsn .", "json"),
            ("check --select w33 .", "W3"),
            ("explain outside-staf", "outside-staff"),
            ("format --canonical --allow comment .", "comments"),
            ("check --ignore comments .", "comment"),
        ):
            ran = command(*words.split())
            self.assertEqual((ran.returncode, ran.stdout), (3, b""), words)
            self.assertIn(
                f": did you mean {right}?".encode(), ran.stderr.replace(b"; did", b": did"), words
            )

    def test_names_that_are_not_utf8(self) -> None:
        self.put(b"\xff\xe9.gabc", FAULTY)
        self.assertEqual(self.lines("."), [rb"./\xff\xe9.gabc"])
        self.assertEqual(
            command("check", "--output-format", "lines", b"\xff").stderr.split(b"\n")[0],
            rb"gregorio-chant: cannot read \xff: No such file or directory",
        )
        self.assertIn(
            b'"./\\udcff\\udce9.gabc"', command("check", "--output-format", "json", ".").stdout
        )
        self.assertIn(b'"%FF%E9.gabc"', command("check", "--output-format", "sarif", ".").stdout)
        if has("rich"):
            self.assertIn(b"./\\xff\\xe9.gabc:3:10: error", command("check", ".").stdout)


class Processes(InFolder):
    def test_rules(self) -> None:
        """By processes the same comes in the same order as by one, and a pipe that is closed ends
        them."""
        for number in range(200):
            self.put(f"s/{number:03}.gabc", f"name: a;\n%%\n(c4) {'a(f) ' * number}a(n) b(g5)\n")
        self.put("s/077.gabc", b"\xff")
        words = ("check", "--rules", "--output-format", "lines", "s", "none")
        one, many = command(*words, "--jobs", "1"), command(*words, "--jobs", "4")
        self.assertEqual((one.returncode, one.stdout.count(b"\n")), (4, 2 * 199 + 1))
        self.assertEqual(
            (many.returncode, many.stdout, many.stderr), (one.returncode, one.stdout, one.stderr)
        )
        ours, its = os.pipe()
        os.close(ours)
        ran = command(*words, "--jobs", "4", output=its)
        os.close(its)
        self.assertEqual((ran.returncode, ran.stderr), (4, b""))


class BadInput(InFolder):
    def test_files(self) -> None:
        self.put("s/a.gabc", FAULTY)
        self.put("s/b.gabc", b"name: \xe9;\n%%\n(c4)")
        self.put("s/z.gabc", FAULTY)
        os.symlink("nowhere", "s/c.gabc")
        os.symlink("d.gabc", "s/d.gabc")
        ran = command("check", "--output-format", "lines", "s", "gone.gabc")
        self.assertEqual(ran.returncode, 4)
        self.assertEqual(
            [it.split(b":")[0] for it in ran.stdout.split(b"\n")[:-1]],
            [b"s/a.gabc", b"s/b.gabc", b"s/z.gabc"],
        )
        self.assertEqual(
            ran.stderr.decode().split("\n"),
            [
                "gregorio-chant: cannot read s/c.gabc: No such file or directory",
                "gregorio-chant: cannot read s/d.gabc: Too many levels of symbolic links",
                "gregorio-chant: cannot read gone.gabc: No such file or directory",
                "gregorio-chant: 3 files: 1 fatal fault, 2 errors; 3 could not be read",
                "",
            ],
        )

    def test_folder_that_cannot_be_read(self) -> None:
        self.put("s/a.gabc", FAULTY)
        self.put("s/b/c.gabc", FAULTY)
        os.chmod("s/b", 0)
        ran = command("check", "--output-format", "lines", "--quiet", "s", as_nobody=True)
        self.assertEqual(
            (ran.returncode, ran.stderr),
            (4, b"gregorio-chant: cannot read s/b: Permission denied\n"),
        )
        self.assertEqual(ran.stdout, b"s/a.gabc:3:10: error: E1: character left out of the notes\n")

    def test_statuses(self) -> None:
        self.put("1.gabc", FAULTY)
        self.put("2.gabc", "name: a;\n")
        self.put("0.gabc", SCORE)
        for names, status in (
            (["0.gabc"], 0),
            (["0.gabc", "1.gabc"], 1),
            (["2.gabc", "1.gabc"], 2),
            (["4.gabc", "2.gabc"], 4),
        ):
            self.assertEqual(command("check", *names).returncode, status)

    def test_full_disk(self) -> None:
        self.put("a.gabc", FAULTY)
        for words in (*WRITING, ("--help",), ("--version",)):
            full = os.open("/dev/full", os.O_WRONLY)
            ran = command(*words, output=full)
            os.close(full)
            self.assertEqual(
                (ran.returncode, ran.stderr),
                (4, b"gregorio-chant: cannot write: No space left on device\n"),
                words,
            )

    def test_closed_pipe(self) -> None:
        self.put("a.gabc", FAULTY)
        for words in WRITING:
            ours, its = os.pipe()
            os.close(ours)
            ran = command(*words, output=its)
            os.close(its)
            self.assertEqual((ran.returncode, ran.stderr), (4, b""), words)

    def test_closed_streams(self) -> None:
        self.put("a.gabc", FAULTY)
        for words, redirection, status, told in (
            ("check -", "<&-", 4, "cannot read <stdin>: Bad file descriptor"),
            ("check a.gabc", ">&-", 4, "cannot write: Bad file descriptor"),
            ("check a.gabc --output-format lines", "2>&-", 1, ""),
            ("format -", "<&-", 4, "cannot read <stdin>: Bad file descriptor"),
            ("format a.gabc", ">&- 2>&-", 0, ""),
            ("check a.gabc none", ">&- 2>&-", 4, ""),
        ):
            line = f'exec "$0" -m gregorio_chant {words} {redirection}'
            ran = subprocess.run(
                ["bash", "-c", line, sys.executable],
                stdout=subprocess.PIPE,
                stderr=subprocess.PIPE,
                check=False,
            )
            self.assertEqual(ran.returncode, status, (words, redirection, ran))
            self.assertIn(told, ran.stderr.decode())
            self.assertNotIn(b"Traceback", ran.stderr)
        with open("a.gabc", encoding="utf-8") as file:
            self.assertEqual(file.read(), FAULTY)

    def test_closed_error_output(self) -> None:
        with open("/dev/full", "wb") as full:
            ran = subprocess.run(
                [sys.executable, "-m", "gregorio_chant", "check", "none"],
                stdout=subprocess.DEVNULL,
                stderr=full,
                check=False,
            )
        self.assertEqual(ran.returncode, 4)
