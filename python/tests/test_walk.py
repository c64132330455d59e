"""Tries which files of a folder are read."""
from __future__ import annotations

import os
import unittest

from support import FAULTY, InFolder, command, has, without


class Walk(InFolder):
    def names(self, *words: str) -> list[str]:
        """Returns the names of the files in which something is found, which is all that are
        read."""
        ran = command("check", "--output-format", "lines", "--quiet", *words)
        self.assertEqual((ran.returncode, ran.stderr), (1, b""))
        return [it.split(":")[0] for it in ran.stdout.decode().split("\n")[:-1]]

    def put_all(self, *names: str) -> None:
        for it in names:
            self.put(it, FAULTY)

    def test_what_is_no_plain_file(self) -> None:
        self.put_all("s/a.gabc", "s/B.GABC", "s/c.Gabc", "s/d.gabc.txt")
        os.mkfifo("s/fifo.gabc")
        os.symlink("/dev/zero", "s/zero.gabc")
        os.symlink("fifo.gabc", "s/link.gabc")
        self.assertEqual(self.names("s"), ["s/B.GABC", "s/a.gabc", "s/c.Gabc"])
        ran = command("format", "--check", "s")
        self.assertEqual(ran.stdout, b"")
        self.assertRegex(ran.stderr, rb"(?m)^gregorio-chant: 3 files: ")

    def test_a_pipe_that_is_named(self) -> None:
        ours, its = os.pipe()
        os.write(its, FAULTY.encode())
        os.close(its)
        ran = command(
            "check", "--output-format", "lines", "--quiet", f"/proc/{os.getpid()}/fd/{ours}"
        )
        os.close(ours)
        self.assertIn(b":3:10: error: E1", ran.stdout)

    @unittest.skipUnless(has("pathspec"), "there is no pathspec")
    def test_gitignore(self) -> None:
        os.makedirs(".git")
        self.put(
            ".gitignore",
            "# drafts\ndrafts/\n*.old.gabc\n!kept.old.gabc\n/top.gabc\nbuild/*\n!build/kept.gabc\n",
        )
        self.put("s/deep/.gitignore", "!*.old.gabc\nx.gabc\n")
        self.put_all(
            "top.gabc",
            "a.gabc",
            "b.old.gabc",
            "kept.old.gabc",
            "drafts/c.gabc",
            "build/d.gabc",
            "build/kept.gabc",
            "s/top.gabc",
            "s/drafts/e.gabc",
            "s/f.old.gabc",
            "s/deep/f.old.gabc",
            "s/deep/x.gabc",
            "s/deep/y.gabc",
            ".git/z.gabc",
        )
        kept = ["s/top.gabc", "s/deep/f.old.gabc", "s/deep/y.gabc"]
        self.assertEqual(
            self.names("."),
            [f"./{it}" for it in ["a.gabc", "kept.old.gabc", "build/kept.gabc", *kept]],
        )
        self.assertEqual(self.names("s"), kept)
        self.assertEqual(self.names("s/deep"), kept[1:])
        self.assertEqual(self.names("drafts"), ["drafts/c.gabc"])
        self.assertEqual(
            self.names("s/drafts", "b.old.gabc", "s/deep/x.gabc"),
            ["s/drafts/e.gabc", "b.old.gabc", "s/deep/x.gabc"],
        )

    @unittest.skipUnless(has("pathspec"), "there is no pathspec")
    def test_gitignore_above_no_repository(self) -> None:
        self.put(".gitignore", "*.gabc\n")
        self.put_all("s/a.gabc", "s/b.gabc")
        self.put("s/.gitignore", b"b.gabc\n\xff\n!\n")
        self.assertEqual(self.names("s"), ["s/a.gabc"])

    @unittest.skipUnless(has("pathspec"), "there is no pathspec")
    def test_exclude(self) -> None:
        self.put_all("s/a.gabc", "s/b/c.gabc", "s/d/b/e.gabc", "s/d/f.gabc")
        self.assertEqual(self.names("s", "--exclude", "b/"), ["s/a.gabc", "s/d/f.gabc"])
        self.assertEqual(
            self.names("s", "--exclude", "/b", "--exclude", "f.*"), ["s/a.gabc", "s/d/b/e.gabc"]
        )
        self.assertEqual(self.names("--exclude=*.gabc", "s/a.gabc"), ["s/a.gabc"])
        ran = command("check", "s", "--exclude", "!")
        self.assertEqual((ran.returncode, ran.stdout), (3, b""))
        self.assertIn(b"--exclude !: this is no pattern", ran.stderr)


class WithoutPackages(InFolder):
    """What is missing is one line that names the package, and status 3. The rest works."""

    def test_pathspec(self) -> None:
        self.put("s/a.gabc", FAULTY)
        words, nothing = ("check", "--output-format", "lines", "--quiet", "s"), without(
            self.room, "pathspec"
        )
        self.assertEqual(command(*words, environment=nothing).returncode, 1)
        self.put("s/.gitignore", "b\n")
        for it in (
            words,
            ("format", "s"),
            ("format", "--check", "--exclude", "a", "s/a.gabc", "s"),
        ):
            self.check_missing("pathspec", "python3-pathspec", *it)

    def test_rich(self) -> None:
        self.put("a.gabc", FAULTY)
        self.check_missing("rich", "python3-rich", "check", "a.gabc")
        for form in ("lines", "json", "github", "sarif"):
            ran = command(
                "check",
                "--quiet",
                "--output-format",
                form,
                "a.gabc",
                environment=without(self.room, "rich"),
            )
            self.assertEqual((ran.returncode, ran.stderr), (1, b""))

    def check_missing(self, module: str, package: str, *words: str) -> None:
        ran = command(*words, environment=without(self.room, module))
        self.assertEqual((ran.returncode, ran.stdout), (3, b""))
        self.assertRegex(
            ran.stderr.decode(),
            (
                rf"^gregorio-chant: .* needs the package .*: apt install {package} in Debian, else"
                r" pip install .*\n$"
            ),
        )
