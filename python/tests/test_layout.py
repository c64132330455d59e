"""Tries what `format` writes by default: lines, empty lines, comments and line ends stay, and
nothing is refused.

The environment's GREGORIO_SCORES says how many scores are made by hypothesis; without it they are
few, and the same ones each time.
"""
from __future__ import annotations

import os
import re
import unittest
from pathlib import Path

from mutants import mutants
from support import ROOT, InFolder, command, files_of_scores, has, scores_of_tables

from gregorio_chant import Status, compile
from gregorio_chant.format.formatting import Style, formatted

_FEW = 300
_DAMAGED, _SEED = 10_000, 87
_STYLE_TAG = re.compile(r"</?(?:b|c|e|i|sc|tt|ul)>")
# What is written of each score, by what it shows; nothing where the score stays as it is.
LAYOUTS: dict[str, tuple[str, str | None]] = {
    "headers": (
        "name:Kyrie ;\n mode :  1;;\nbook:a\n b ;;\nuser-notes:;\n%%\n(c4)\n",
        "name: Kyrie;\nmode: 1;\nbook:\n a\n b;;\nuser-notes:;\n%%\n(c4)\n",
    ),
    "words on a line": (
        "name: a;\n%%\n(c4)  Ky(f)ri(g)\te(h)\nson(f) \n\n\n\n  a(g)\n",
        "name: a;\n%%\n(c4) Ky(f)ri(g) e(h)\nson(f)\n\na(g)\n",
    ),
    "empty lines": (
        "\n\nname: a;\n\n \n\nmode: 1;\n\n%%\n\n\n\n(c4)\n\n\t\n\n",
        "name: a;\n\nmode: 1;\n\n%%\n\n(c4)\n",
    ),
    "carriage returns": (
        "name:a;\r\n%% b\r\n\r\n(c4)  a(f)\r\n\r\n\r\nb(g) % c \r\n",
        "name: a;\r\n%% b\r\n\r\n(c4) a(f)\r\n\r\nb(g) % c\r\n",
    ),
    "mixed ends": ("name:a;\r\n%%\n(c4)\ra(f)\n", "name: a;\r\n%%\r\n(c4)\r\na(f)\r\n"),
    "lone carriage returns": ("name:a;\r%%\r(c4)  a(f)\r", "name: a;\r%%\r(c4) a(f)\r"),
    "no last line end": ("name:a;\n%%\n(c4)  a(f)", "name: a;\n%%\n(c4) a(f)"),
    "blanks at the end": ("name:a;\n%%\n(c4) a(f)  ", "name: a;\n%%\n(c4) a(f)"),
    "a last comment": ("name:a;\n%%\n(c4) a(f)\n\n\n% c  ", "name: a;\n%%\n(c4) a(f)\n\n% c"),
    "a mark": ("\ufeffname:a;\n%%\n(c4)  a(f)\n", "\ufeffname: a;\n%%\n(c4) a(f)\n"),
    "a mark and blanks before a header that stays": (
        "\ufeff\n n\ufeffame :  Ky  rie;;\n%%\n",
        "\ufeff n\ufeffame :  Ky  rie;;\n%%\n",
    ),
    "marks inside": (
        "\ufeff\ufeffname:a\ufeff;\nmode:1;\n\ufeff\n%%\n(c4)  $\ufeff$a(f)  b(g)\ufeff  \n",
        "\ufeff\ufeffname:a\ufeff;\nmode: 1;\n\ufeff\n%%\n(c4) $\ufeff$a(f) b(g)\ufeff\n",
    ),
    "comments of headers": (
        "%a  b \n  % c\nname:a;% d\nmode:1;   % e  f\nx: 100% g;\n\n\n% h\n %% i\n%%\n",
        "%a  b\n% c\nname: a;% d\nmode: 1; % e  f\nx: 100% g;\n\n% h\n %% i\n%%\n",
    ),
    "comments of the score": (
        "name: a;\n%%  b\n  % c\n(c4)   % d\n\n\n  % e\n a(f)%f\n b(g)\n",
        "name: a;\n%%  b\n% c\n(c4) % d\n\n% e\na(f)%f\nb(g)\n",
    ),
    "comments in syllables": (
        "name: a;\n%%\n(c4)  K % a\n y( f% )\n)  <v>%</v>r[%]i$%(g[%]) e% \n",
        "name: a;\n%%\n(c4) K % a\n y( f% )\n) <v>%</v>r[%]i$%(g[%]) e% \n",
    ),
    "tags": (
        "name: a;\n%%\n(c4) <i>b<b>i</i>s</b>(f)  <i></i>c(g)\n",
        "name: a;\n%%\n(c4) <i>b</i><b><i>i</i>s</b>(f) c(g)\n",
    ),
    "dollars": ("name: a;\n%%\n(c4) $*(f) a$b(g)\n", None),
    "a blank after a tag": ("name: a;\n%%\n(c4) <eu>a(f)</eu> b(g)<i> c</i>(h)\n", None),
    "lines in a text": ("name: a;\n%%\n(c4) a\nb(f) [c\nd](g) e\n(h)\n", None),
    "a translation inside": ("name: a;\n%%\n(c4) K[Lord]y(f)\n", None),
    "findings": (
        (
            "bad  line\nname: a;\nmode:1;\n mode:2 ;\nmode :3;\nnabc-lines:9 ;\n%%\n(c4)  Ky(f5 )r"
            " )i(g)  e( f-)\n\n\n {a }( h)  [ b][c]( f)  <it>d</it>( g) <i>e( h) f"
        ),
        (
            "bad  line\nname: a;\nmode:1;\n mode:2 ;\nmode :3;\nnabc-lines:9 ;\n%%\n(c4) Ky(f5 )r"
            " )i(g) e( f-)\n\n{a}( h) [ b][c]( f) <it>d</it>( g) <i>e( h) f"
        ),
    ),
    "text at the end": ("name: a;\n%%\n(c4)  a(f)  b  c \n\n\n", "name: a;\n%%\n(c4) a(f) b  c \n"),
    "NABC": (
        "name: a;\nnabc-lines:1;\n%%\n(c4)  Ky(f|pe su2)  ri(g|p\ne)\n",
        "name: a;\nnabc-lines: 1;\n%%\n(c4) Ky(f|pesu2) ri(g|p\ne)\n",
    ),
    "nothing": ("%%", None),
}
LONG = (
    "name:a line of headers that is longer;\n%%\n(c4) Ky(f)ri(gfg)e(h.)"
    " e(ixjvIH'GhvF'E)lé(ghg')i(g)son.(f.) (::) % a comment\na(f) b(g) c(h)\n"
)
WRAPPED = {
    20: (
        "(c4)\nKy(f)ri(gfg)e(h.)\ne(ixjvIH'GhvF'E)lé(ghg')i(g)son.(f.)\n(::) % a comment\na(f) b(g)"
        " c(h)\n"
    ),
    9: (
        "(c4)\nKy(f)ri(gfg)e(h.)\ne(ixjvIH'GhvF'E)lé(ghg')i(g)son.(f.)\n(::) % a comment\na(f)"
        " b(g)\nc(h)\n"
    ),
    60: (
        "(c4) Ky(f)ri(gfg)e(h.) e(ixjvIH'GhvF'E)lé(ghg')i(g)son.(f.)\n(::) % a comment\na(f) b(g)"
        " c(h)\n"
    ),
    200: (
        "(c4) Ky(f)ri(gfg)e(h.) e(ixjvIH'GhvF'E)lé(ghg')i(g)son.(f.) (::) % a comment\na(f) b(g)"
        " c(h)\n"
    ),
}


def bare(text: str) -> str:
    """Returns the text without blanks and tags of styles."""
    return re.sub("[ \t]", "", _STYLE_TAG.sub("", text))


def parts_of(text: str) -> tuple[str, list[str]]:
    """Returns the marks at the beginning and all of the headers but blanks, line ends and each `;`,
    and what stands on each line from `%%` on, but for empty lines."""
    whole = text.lstrip("\ufeff")
    lines = re.split("\r\n|\n|\r", whole)
    end = next(at for at, it in enumerate(lines) if it.replace("\ufeff", "").startswith("%%"))
    marks = text[: len(text) - len(whole)]
    return marks + bare("".join(lines[:end])).replace(";", ""), [
        it for it in map(bare, lines[end:]) if it
    ]


class Layout(unittest.TestCase):
    def look_at(self, score: bytes) -> None:
        """Checks what is written of a score, by what stands on its lines and by the compiler."""
        made = formatted(score, Style())
        if compile(score).status is Status.FATAL:
            self.assertIsNotNone(made.fault)
            return
        self.assertEqual(made.reasons(), [])
        before, after = parts_of(score.decode()), parts_of(made.data.decode())
        self.assertEqual(after, before)
        self.assertEqual(compile(made.data).canonical, compile(score).canonical)
        self.assertEqual([it.code for it in compile(made.data)], [it.code for it in compile(score)])
        wrapped = formatted(score, Style(width=12))
        self.assertEqual(wrapped.reasons(), [])
        headers, lines = parts_of(wrapped.data.decode())
        self.assertEqual((headers, "".join(lines)), (before[0], "".join(before[1])))

    def test_layouts(self) -> None:
        for name, (score, wanted) in LAYOUTS.items():
            with self.subTest(name):
                self.assertEqual(
                    formatted(score.encode(), Style()).data.decode(),
                    score if wanted is None else wanted,
                )
                self.look_at(score.encode())

    def test_canonical_scores(self) -> None:
        for file in sorted(ROOT.glob("examples/*.canonical")):
            self.assertEqual(formatted(file.read_bytes(), Style()).data, file.read_bytes(), file)

    def test_scores_of_the_repository(self) -> None:
        for file in sorted(ROOT.glob("examples/*.gabc")):
            with self.subTest(file.name):
                self.look_at(file.read_bytes())

    def test_scores_of_the_tables(self) -> None:
        scores = set(scores_of_tables())
        self.assertGreater(len(scores), 1_000)
        for score in sorted(scores):
            with self.subTest(score):
                self.look_at(score)

    def test_wrapped(self) -> None:
        for width, wanted in WRAPPED.items():
            made = formatted(LONG.encode(), Style(width=width))
            self.assertEqual(made.data.decode().split("%%\n")[1], wanted)
            self.assertEqual(made.reasons(), [])

    def test_a_line_that_just_fits(self) -> None:
        for width, wanted in ((19, "(c4) a(f) b(g) c(h)"), (18, "(c4) a(f) b(g)\nc(h)")):
            made = formatted(b"name: a;\n%%\n(c4) a(f) b(g) c(h)\n", Style(width=width))
            self.assertEqual(made.data.decode().split("%%\n")[1].rstrip(), wanted)

    def test_damaged_scores(self) -> None:
        """The judge objects to none of many scores that are damaged at random."""
        scores = [it.read_bytes() for it in files_of_scores()]
        written = 0
        for score in mutants(scores, _DAMAGED, _SEED):
            made = formatted(score, Style())
            if made.fault is None:
                self.assertEqual(made.reasons(), [], score)
                written += made.data != score
        self.assertGreater(written, _DAMAGED // 4)

    @unittest.skipUnless(has("hypothesis"), "there is no hypothesis")
    def test_made_scores(self) -> None:
        from hypothesis import HealthCheck, given, settings
        from made import SCORES

        count = os.environ.get("GREGORIO_SCORES")
        checks = list(HealthCheck)

        @settings(
            max_examples=int(count or _FEW),
            derandomize=count is None,
            deadline=None,
            database=None,
            suppress_health_check=checks,
        )
        @given(SCORES)
        def look_at(score: bytes) -> None:
            self.look_at(score)

        look_at()


class Command(InFolder):
    def test_files(self) -> None:
        self.put("s/a.gabc", LAYOUTS["carriage returns"][0])
        self.put("s/b.gabc", LAYOUTS["findings"][0])
        self.put("s/c.gabc", "name: a;\n%%\n(c4) a(f)\n")
        self.put("s/d.gabc", "name: a;\n")
        ran = command("format", "--check", "s")
        self.assertEqual(ran.returncode, 2)
        self.assertEqual(
            ran.stderr.decode().replace("gregorio-chant: ", "").split("\n"),
            [
                "s/a.gabc would change",
                "s/b.gabc would change",
                "s/d.gabc stays as it is: it is not whole",
                "s/d.gabc:2:1: F2: no %% line",
                "4 files: 1 unchanged, 2 would change, 1 refused",
                "",
            ],
        )
        ran = command("format", "--quiet", "s/a.gabc", "s/b.gabc", "s/c.gabc")
        self.assertEqual((ran.returncode, ran.stdout, ran.stderr), (0, b"", b""))
        for name, key in (("s/a.gabc", "carriage returns"), ("s/b.gabc", "findings")):
            self.assertEqual(Path(name).read_bytes().decode(), LAYOUTS[key][1])
        self.assertEqual(
            command("format", "--check", "s/a.gabc", "s/b.gabc", "s/c.gabc").returncode, 0
        )

    def test_filter_and_diff(self) -> None:
        ran = command("format", "--quiet", "--wrap", "20", "-", data=LONG.encode())
        self.assertEqual((ran.returncode, ran.stdout.decode().split("%%\n")[1]), (0, WRAPPED[20]))
        ran = command("format", "--diff", "--quiet", "-", data=b"name:a;\n%%\n(c4) a(f)\n")
        self.assertEqual(
            (ran.returncode, ran.stdout),
            (
                1,
                (
                    b"--- <stdin>\n+++ <stdin> (formatted)\n@@ -1,3 +1,3 @@\n-name:a;\n+name: a;\n"
                    b" %%\n (c4) a(f)\n"
                ),
            ),
        )

    def test_many_files_by_processes(self) -> None:
        for number in range(250):
            self.put(
                f"s/{number:03}.gabc",
                f"name:{number};\n%%\n(c4)  a(f)\n" if number != 77 else "name",
            )
        ran = command("format", "--jobs", "3", "s")
        self.assertEqual((ran.returncode, ran.stdout), (2, b""))
        self.assertEqual(
            ran.stderr,
            (
                b"gregorio-chant: s/077.gabc stays as it is: it is not whole\ngregorio-chant:"
                b" s/077.gabc:1:5: F2: no %% line\ngregorio-chant: 250 files: 249 written, 1"
                b" refused\n"
            ),
        )
        self.assertEqual(Path("s/249.gabc").read_text(), "name: 249;\n%%\n(c4) a(f)\n")


if __name__ == "__main__":
    unittest.main()
