"""Tries what is staged in git, and the hooks over it."""
from __future__ import annotations

import os
import re
import shlex
import shutil
import subprocess
import sys
import unittest
from pathlib import Path

from pages import block
from support import FAULTY, ROOT, InFolder, command

WHOLE = "% set by hand\nname: Kyrie;\n%%\n(c4) Ky(f)ri(gfg)e(e.) (::) % the end\n"
LOOSE = WHOLE.replace("name: ", "name:").replace(") (", ")  (")
_QUIET = {"GIT_CONFIG_GLOBAL": os.devnull, "GIT_CONFIG_NOSYSTEM": "1"}


@unittest.skipUnless(shutil.which("git"), "there is no git")
class Staged(InFolder):
    def setUp(self) -> None:
        super().setUp()
        self.git("init", "-q", ".")

    def git(self, *words: str, path: str | None = None) -> subprocess.CompletedProcess[bytes]:
        settings = {**os.environ, **_QUIET, **({"PATH": path} if path else {})}
        return subprocess.run(
            ["git", "-c", "user.name=a", "-c", "user.email=a@example.org", *words],
            stdout=subprocess.PIPE,
            stderr=subprocess.STDOUT,
            env=settings,
            check=False,
        )

    def lines(self, *words: str | Path) -> list[str]:
        ran = command(
            "check", "--output-format", "lines", "--quiet", "--staged", *words, environment=_QUIET
        )
        self.assertEqual(ran.stderr, b"")
        return [it.split(":")[0] for it in ran.stdout.decode().split("\n")[:-1]]

    def test_what_is_staged(self) -> None:
        for name in ("a.gabc", "s/b c.gabc", "s/d.txt", "s/\u00e9\n.gabc", "not.gabc"):
            self.put(name, FAULTY)
        os.symlink("a.gabc", "link.gabc")
        self.git("add", "a.gabc", "s", "link.gabc")
        self.put("a.gabc", WHOLE)
        os.unlink("s/b c.gabc")
        self.assertEqual(self.lines(), ["a.gabc", "s/b c.gabc", "s/\u00e9\\n.gabc"])
        self.assertEqual(self.lines("s/b c.gabc", "s/d.txt"), ["s/b c.gabc", "s/d.txt"])
        os.chdir("s")
        self.assertEqual(self.lines("."), ["b c.gabc", "\u00e9\\n.gabc"])
        self.assertEqual(self.lines("../a.gabc"), ["../a.gabc"])
        os.chdir("..")
        self.git("commit", "-q", "-m", "all")
        self.assertEqual(self.lines(), [])
        self.git("rm", "-q", "--cached", "a.gabc")
        self.put("s/d.gabc", FAULTY)
        self.git("add", "s/d.gabc")
        self.assertEqual(self.lines(), ["s/d.gabc"])

    def test_format(self) -> None:
        self.put("a.gabc", LOOSE)
        self.git("add", "a.gabc")
        self.put("a.gabc", WHOLE)
        ran = command("format", "--check", "--staged", environment=_QUIET)
        self.assertEqual(
            (ran.returncode, ran.stderr),
            (1, b"gregorio-chant: a.gabc would change\ngregorio-chant: 1 file: 1 would change\n"),
        )
        ran = command("format", "--diff", "--staged", "--quiet", environment=_QUIET)
        self.assertIn(b"-name:Kyrie;\n+name: Kyrie;\n", ran.stdout)
        self.assertEqual(Path("a.gabc").read_text(), WHOLE)
        self.assertEqual(self.git("show", ":a.gabc").stdout.decode(), LOOSE)
        ran = command("format", "--staged", environment=_QUIET)
        self.assertEqual((ran.returncode, ran.stdout), (3, b""))

    def test_no_repository(self) -> None:
        shutil.rmtree(".git")
        for words in (("check", "--output-format", "lines"), ("format", "--check")):
            ran = command(
                *words, "--staged", environment={**_QUIET, "GIT_CEILING_DIRECTORIES": "/"}
            )
            self.assertEqual((ran.returncode, ran.stdout), (4, b""))
            self.assertRegex(
                ran.stderr.decode(),
                r"^gregorio-chant: cannot read what is staged: fatal: not a git repository.*\n$",
            )
        ran = command(
            "check", "--output-format", "lines", "--staged", environment={"PATH": str(self.room)}
        )
        self.assertEqual(
            (ran.returncode, ran.stderr),
            (
                4,
                (
                    b"gregorio-chant: cannot read what is staged: git cannot be run: No such file"
                    b" or directory\n"
                ),
            ),
        )

    def path_with_command(self) -> str:
        """Returns a path on which the command stands."""
        folder = self.room / "bin with blanks"
        folder.mkdir()
        script = folder / "gregorio-chant"
        script.write_text(f'#!/bin/sh\nexec {shlex.quote(sys.executable)} -m gregorio_chant "$@"\n')
        script.chmod(0o755)
        return f"{folder}{os.pathsep}{os.environ['PATH']}"

    def test_hook(self) -> None:
        path = self.path_with_command()
        ran = subprocess.run(
            ["bash", "-c", block("docs/USE.md", "command: hook")],
            env={**os.environ, **_QUIET, "PATH": path},
            stdout=subprocess.PIPE,
            stderr=subprocess.STDOUT,
            check=False,
        )
        self.assertEqual((ran.returncode, ran.stdout), (0, b""))
        self.put("s/whole.gabc", WHOLE)
        self.put("s/loose.gabc", LOOSE)
        self.put("s/faulty.gabc", FAULTY)
        self.git("add", "s/whole.gabc")
        # Git is started with another path: the hook names the command by its whole path.
        ran = self.git("commit", "-m", "a score with comments, beside others that are not staged")
        self.assertEqual(ran.returncode, 0, ran.stdout)
        self.git("add", "s/loose.gabc")
        ran = self.git("commit", "-m", "loose")
        self.assertNotEqual(ran.returncode, 0)
        self.assertIn(b"s/loose.gabc would change", ran.stdout)
        self.put("s/loose.gabc", WHOLE)
        self.assertNotEqual(self.git("commit", "-m", "what is staged is still loose").returncode, 0)
        self.git("add", "s/loose.gabc", "s/faulty.gabc")
        ran = self.git("commit", "-m", "faulty")
        self.assertNotEqual(ran.returncode, 0)
        self.assertIn(b"s/faulty.gabc:3:10: error: E1", ran.stdout)
        self.git("rm", "-q", "--cached", "s/faulty.gabc")
        self.assertEqual(self.git("commit", "-m", "whole again").returncode, 0)
        self.git("rm", "-q", "s/whole.gabc")
        self.assertEqual(self.git("commit", "-m", "taken away").returncode, 0)
        self.assertEqual(Path("s/loose.gabc").read_text(), WHOLE)
        Path(".git/hooks/pre-commit").write_text("mine")
        subprocess.run(
            ["bash", "-c", block("docs/USE.md", "command: hook")],
            env={**os.environ, "PATH": path},
            stdout=subprocess.PIPE,
            stderr=subprocess.STDOUT,
            check=False,
        )
        self.assertEqual(Path(".git/hooks/pre-commit").read_text(), "mine")

    def test_entries_for_pre_commit(self) -> None:
        """Each entry of .pre-commit-hooks.yaml runs over the files that are named after it."""
        self.put("a.gabc", LOOSE)
        entries = re.findall(
            r"^  entry: gregorio-chant (.*)$",
            (ROOT / ".pre-commit-hooks.yaml").read_text(encoding="utf-8"),
            re.MULTILINE,
        )
        self.assertEqual(sorted(entries), ["check", "format", "format --check"])
        for entry in sorted(entries, reverse=True):
            self.assertEqual(
                command(*entry.split(), "a.gabc").returncode,
                0 if entry != "format --check" else 1,
                entry,
            )
            self.assertEqual(
                Path("a.gabc").read_text(),
                WHOLE if entry == "format" else Path("a.gabc").read_text(),
            )


if __name__ == "__main__":
    unittest.main()
