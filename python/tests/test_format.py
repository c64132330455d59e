"""Tries the command `format`: in canonical form nothing but blanks goes unless it is allowed, and a
file is at every moment whole."""
from __future__ import annotations

import os
import stat
import subprocess
import sys
import unittest
from pathlib import Path

from support import CANONICAL, FAULTY, MOST_MEMORY, ROOT, SCORE, InFolder, command, scores_of_tables

from gregorio_chant import Status, compile
from gregorio_chant.format.formatting import Style, formatted
from gregorio_chant.format.losses import REASONS
from gregorio_chant.work import files

# Scores of which more than blanks would change, with what is told of each.
LOSING = {
    "style": (
        "name: S;\n%%\n(c4) <i>Vir(fgf)go</i>(ghg) <c>dul(f)cis</c>(g)\n",
        ["3:12: W3", "3:19: W3", "3:35: W3", "3:41: W3"],
    ),
    "comment": (
        (
            "% set by hand\nname: K; % here\n%%%% the simple tone\n(c4)"
            " Ky(f%g\n)ri(gfg[%])<v>%</v>e$%(e.) (::) % Mass XVI\n"
        ),
        ["1:1: comments", "2:10: comments", "3:3: comments", "4:10: comments", "5:33: comments"],
    ),
    "twice": (
        "name: K;\nmode: 1;\nmode: 2;\nannotation: a;\nannotation: b;\n%%\n(c4) Ky(f) ri(g)\n",
        ["2:1: W2"],
    ),
    "brace": ("name: K;\n%%\n(c4) {K}y{r}i(f)e[Lord](g)[God](h) (::)\n", ["3:10: W4", "3:12: W4"]),
    "translation": ("name: K;\n%%\n(c4) Ky(f)ri[Lord][God](g) e", ["3:19: W5", "3:29: W9"]),
    "mark": ("\ufeffname: K;\n%%\n(c4) Ky(f)ri(g)\n", ["1:1: spelling"]),
    "escape": ("name: K;\n%%\n(c4) Ky(f)ri(g) $a(f)\n", ["3:18: spelling"]),
    "overlap": ("name: K;\n%%\n(c4) Ky(f) <i>b<b>i</i>s</b>(f)\n", ["3:17: spelling"]),
    "semicolons": ("name: K;;\nmode: 1; ;\n%%\n(c4) Ky(f)\n", ["1:9: spelling", "2:10: spelling"]),
    "faulty": (
        FAULTY.replace("\n%", "\nbad\nnabc-lines: x\n;;\n%"),
        ["2:1: E4", "3:1: E5", "6:10: E1"],
    ),
    "fusion": (
        "name: K;\n%%\n(c4) a(f@&[fg%x\n)b(@%[\n[f]%y\n])\n",
        ["3:10: E1", "3:14: comments", "4:5: comments", "5:4: comments"],
    ),
}
FATAL: dict[str, str | bytes] = {
    "none": "",
    "cut": "name: K;\n%%\n(c4) Ky(f)ri(g\n",
    "latin": b"name: \xe9;\n%%\n(c4)\n",
}
HARMLESS = {
    "plain": SCORE,
    "canonical": CANONICAL,
    "crlf": SCORE.replace("\n", "\r\n"),
    "cr": SCORE.replace("\n", "\r"),
    "blanks": "name:   K ;\nbook:a\nb ;;\n\n%%\n\n(c4)\tKy (f  g\n)  ri(g)\n",
    "nabc": "name: K;\nnabc-lines: 1;\n%%\n(c4) Ky(f|pe su2) ri(g)",
}


def blanks_gone(data: bytes) -> bytes:
    return bytes(it for it in data if it not in b" \t\n\r")


class Loss(InFolder):
    def test_what_would_go_is_told(self) -> None:
        for name, (score, told) in LOSING.items():
            with self.subTest(name):
                file = self.put(f"{name}.gabc", score)
                ran = command("format", "--canonical", "--quiet", file)
                self.assertEqual(ran.returncode, 1)
                self.assertEqual(file.read_text(encoding="utf-8"), score)
                first, *lines = ran.stderr.decode().split("\n")[:-1]
                self.assertEqual(
                    first,
                    f"gregorio-chant: {file} stays as it is: more than its blanks would change",
                )
                self.assertEqual(
                    [": ".join(it.split(": ")[1:3]).removeprefix(f"{file}:") for it in lines], told
                )

    def test_what_is_allowed_goes(self) -> None:
        for name, (score, told) in LOSING.items():
            with self.subTest(name):
                reasons = sorted({it.split(": ")[1] for it in told})
                for left_out in reasons:
                    file = self.put(f"{name}.gabc", score)
                    allowed = ",".join(set(REASONS) - {left_out})
                    self.assertEqual(
                        command("format", "--canonical", "--allow", allowed, file).returncode,
                        1,
                        left_out,
                    )
                    self.assertEqual(file.read_text(encoding="utf-8"), score)
                self.assertEqual(
                    command("format", "--canonical", "--allow", ",".join(reasons), file).returncode,
                    0,
                )
                self.assertEqual(file.read_text(encoding="utf-8"), compile(score).canonical)

    def test_fatal_faults(self) -> None:
        for name, score in FATAL.items():
            with self.subTest(name):
                file = self.put(f"{name}.gabc", score)
                ran = command("format", "--canonical", "--allow", ",".join(REASONS), file)
                self.assertEqual(ran.returncode, 2)
                self.assertRegex(ran.stderr.decode(), rf"{file}:\d+:\d+: F\d: ")
                self.assertEqual(
                    file.read_bytes(), score if isinstance(score, bytes) else score.encode()
                )

    def test_blanks(self) -> None:
        for name, score in HARMLESS.items():
            with self.subTest(name):
                file = self.put(f"{name}.gabc", score)
                self.assertEqual(command("format", "--canonical", file).returncode, 0)
                self.assertEqual(file.read_bytes(), compile(score).canonical.encode())
                self.assertEqual(blanks_gone(file.read_bytes()), blanks_gone(score.encode()))
                self.assertEqual(command("format", "--canonical", "--check", file).returncode, 0)

    def test_losses_of_the_tables(self) -> None:
        """A score loses nothing exactly where only its blanks change."""
        losing = 0
        for score in scores_of_tables():
            with self.subTest(score):
                result = compile(score)
                if result.status is not Status.FATAL:
                    losses = formatted(score, Style(is_canonical=True)).losses
                    self.assertEqual(
                        losses == (),
                        blanks_gone(score) == blanks_gone(result.output.encode()),
                        losses,
                    )
                    losing += losses != ()
        self.assertGreater(losing, 50)

    def test_scores_of_the_repository(self) -> None:
        for file in sorted(ROOT.glob("*/*.gabc")):
            copy = self.put(file.name, file.read_bytes())
            ran = command("format", "--canonical", copy)
            self.assertEqual(blanks_gone(copy.read_bytes()), blanks_gone(file.read_bytes()))
            is_harmless = blanks_gone(file.read_bytes()) == blanks_gone(
                compile(file.read_bytes()).output.encode()
            )
            self.assertEqual(ran.returncode, 0 if is_harmless else 1, file)


class Files(InFolder):
    def test_mode_and_links(self) -> None:
        target = self.put("scores/elsewhere/target.gabc.txt", SCORE)
        target.chmod(0o604)
        os.symlink("elsewhere/target.gabc.txt", "scores/link.gabc")
        self.put("scores/a b.gabc", SCORE).chmod(0o640)
        self.assertEqual(command("format", "--canonical", "--quiet", "scores").returncode, 0)
        self.assertEqual(os.readlink("scores/link.gabc"), "elsewhere/target.gabc.txt")
        for name, mode in (("scores/elsewhere/target.gabc.txt", 0o604), ("scores/a b.gabc", 0o640)):
            self.assertEqual(Path(name).read_text(), CANONICAL)
            self.assertEqual(stat.S_IMODE(os.stat(name).st_mode), mode)
        self.assertEqual(sorted(os.listdir("scores")), ["a b.gabc", "elsewhere", "link.gabc"])
        self.assertEqual(os.listdir("scores/elsewhere"), ["target.gabc.txt"])

    def test_hard_links(self) -> None:
        file = self.put("a.gabc", SCORE)
        os.link(file, "b.gabc")
        ran = command("format", "--canonical", "--quiet", "a.gabc")
        self.assertEqual((ran.returncode, file.read_text()), (4, SCORE))
        self.assertEqual(
            ran.stderr,
            (
                b"gregorio-chant: cannot write a.gabc: it has other names (hard links); it stays as"
                b" it was\n"
            ),
        )
        self.assertEqual(os.stat("b.gabc").st_ino, os.stat("a.gabc").st_ino)

    def test_read_only(self) -> None:
        score = SCORE.replace("name: ", "name:")
        file = self.put("a.gabc", score)
        file.chmod(0o444)
        ran = command("format", "--quiet", "a.gabc")
        self.assertEqual((ran.returncode, file.read_text()), (4, score))
        self.assertEqual(
            ran.stderr,
            b"gregorio-chant: cannot write a.gabc: it is read-only; it stays as it was\n",
        )
        self.assertEqual(command("format", "--check", "a.gabc").returncode, 1)
        if os.geteuid() == 0:
            # A file of somebody else, in a folder that all may write.
            file.chmod(0o644)
            ran = command("format", "--quiet", "a.gabc", as_nobody=True)
            self.assertEqual(
                (ran.returncode, ran.stderr),
                (
                    4,
                    b"gregorio-chant: cannot write a.gabc: Permission denied; it stays as it was\n",
                ),
            )
            self.assertEqual(file.read_text(), score)

    def test_canonical_files_are_not_touched(self) -> None:
        file = self.put("a.gabc", CANONICAL)
        before = os.stat(file)
        self.assertEqual(
            command("format", "a.gabc").stderr, b"gregorio-chant: 1 file: 1 unchanged\n"
        )
        self.assertEqual(
            (os.stat(file).st_ino, os.stat(file).st_mtime_ns), (before.st_ino, before.st_mtime_ns)
        )

    def test_full_disk(self) -> None:
        self.put("s/a.gabc", SCORE)
        long = self.put("s/b.gabc", SCORE + "Ky(f)  " * 2_000)
        before = long.read_bytes()
        ran = command("format", "--canonical", "--quiet", "s", limit=4_000)
        self.assertEqual(
            (ran.returncode, ran.stderr),
            (4, b"gregorio-chant: cannot write s/b.gabc: File too large; it stays as it was\n"),
        )
        self.assertEqual(long.read_bytes(), before)
        self.assertEqual(Path("s/a.gabc").read_text(), CANONICAL)
        self.assertEqual(sorted(os.listdir("s")), ["a.gabc", "b.gabc"])

    def test_folder_that_cannot_be_written(self) -> None:
        self.put("s/a.gabc", SCORE)
        os.chmod("s", 0o555)
        ran = command("format", "--canonical", "--quiet", "s", as_nobody=True)
        self.assertEqual(
            (ran.returncode, ran.stderr),
            (4, b"gregorio-chant: cannot write s/a.gabc: Permission denied; it stays as it was\n"),
        )

    def test_file_that_changes_or_vanishes_meanwhile(self) -> None:
        file = self.put("a.gabc", SCORE)
        content = files.read("a.gabc")
        file.write_text("other")
        with self.assertRaises(files.FileChanged):
            files.replace("a.gabc", content, b"new")
        self.assertEqual(file.read_text(), "other")
        content = files.read("a.gabc")
        file.unlink()
        with self.assertRaises(FileNotFoundError):
            files.replace("a.gabc", content, b"new")
        self.assertEqual(os.listdir("."), [])

    def test_bad_input(self) -> None:
        self.put("s/z.gabc", SCORE)
        os.symlink("b.gabc", "s/b.gabc")
        ran = command("format", "--canonical", "s", "gone.gabc")
        self.assertEqual(ran.returncode, 4)
        self.assertEqual(Path("s/z.gabc").read_text(), CANONICAL)
        self.assertEqual(
            ran.stderr,
            (
                b"gregorio-chant: cannot read s/b.gabc: Too many levels of symbolic"
                b" links\ngregorio-chant: cannot read gone.gabc: No such file or"
                b" directory\ngregorio-chant: 3 files: 1 written, 2 could not be read or written\n"
            ),
        )


class Words(InFolder):
    def test_check(self) -> None:
        self.put("a.gabc", SCORE)
        self.put("b.gabc", CANONICAL)
        self.put("c.gabc", FAULTY)
        ran = command("format", "--canonical", "--check", "a.gabc", "b.gabc", "c.gabc")
        self.assertEqual((ran.returncode, ran.stdout), (1, b""))
        self.assertEqual(
            ran.stderr.decode().replace("gregorio-chant: ", "").split("\n"),
            [
                "a.gabc would change",
                "c.gabc would stay as it is: more than its blanks would change",
                "c.gabc:3:10: E1: character left out of the notes",
                "3 files: 1 unchanged, 1 would change, 1 refused",
                "",
            ],
        )
        self.assertEqual((Path("a.gabc").read_text(), Path("c.gabc").read_text()), (SCORE, FAULTY))

    def test_diff(self) -> None:
        self.put("a.gabc", "name: K;\n%%\n(c4) Ky(g5)")
        ran = command("format", "--canonical", "--diff", "--quiet", "a.gabc")
        self.assertEqual(
            ran.stdout.decode(),
            (
                "--- a.gabc\n+++ a.gabc (canonical)\n@@ -1,3 +1,4 @@\n name: K;\n %%\n-(c4)"
                " Ky(g5)\n\\ No newline at end of file\n+(c4)\n+Ky(g)\n"
            ),
        )
        self.assertEqual((ran.returncode, ran.stderr), (1, b""))
        self.put("a.gabc", CANONICAL)
        ran = command("format", "--canonical", "--diff", "--quiet", "a.gabc")
        self.assertEqual((ran.returncode, ran.stdout), (0, b""))

    def test_filter(self) -> None:
        ran = command("format", "--canonical", "--quiet", "-", data=SCORE.encode())
        self.assertEqual((ran.returncode, ran.stdout, ran.stderr), (0, CANONICAL.encode(), b""))
        ran = command("format", "--canonical", "--quiet", "-", data=FAULTY.encode())
        self.assertEqual((ran.returncode, ran.stdout), (1, b""))
        self.assertIn(b"<stdin>:3:10: E1", ran.stderr)

    def test_words_that_do_not_fit(self) -> None:
        for words in (
            "--canonical --allow W1 .",
            "--allow E1 .",
            "--canonical --wrap 60 .",
            "--wrap 0 .",
            "--jobs 0 .",
            "--staged",
            "--check",
        ):
            ran = command("format", *words.split())
            self.assertEqual((ran.returncode, ran.stdout), (3, b""), words)
            self.assertRegex(ran.stderr.decode(), r"^gregorio-chant: .*\n$")


# Prints the most memory that `format --check` took for the file that is named, in MB.
_MEASURED = f"""
import sys
from gregorio_chant.format.formatting import Options, format_files
assert format_files(Options(paths=(sys.argv[1],), checks=True, quiet=True)) == 1
{MOST_MEMORY}print(most_memory() // 1024)
"""


class Large(InFolder):
    def test_memory(self) -> None:
        """A score of 1.2 MB, of which nearly each line is written anew, takes some hundred times
        its texts: 24 MB take 260."""
        score = Path("large.gabc")
        score.write_text(
            "name: L;\n%%\n(c4) " + "Ký(fg)ri(h)  e(ixjvIH) lé(gf..)i(f)son(::)\n" * 28_000,
            encoding="utf-8",
        )
        done = subprocess.run(
            [sys.executable, "-c", _MEASURED, str(score)],
            capture_output=True,
            text=True,
            check=True,
        )
        self.assertLess(int(done.stdout), 150)


if __name__ == "__main__":
    unittest.main()
