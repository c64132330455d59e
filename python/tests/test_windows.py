"""Tries what the package does where the modules are missing that Windows has not. Python for
Windows itself is not run."""
from __future__ import annotations

import subprocess
import sys
import unittest

WITHOUT = """
import os, signal, sys
for name in ("fcntl", "pwd", "grp", "resource", "termios"):
    sys.modules[name] = None
for name in ("fork", "register_at_fork", "geteuid", "O_NOFOLLOW", "O_CLOEXEC"):
    delattr(os, name)
del signal.SIGHUP, signal.pthread_sigmask
"""
CALLS = """
from gregorio_chant import NodeKind, Run, check, compile, tree
from gregorio_chant.dump import Score
score = "name: a;\\n%%\\n(c4) Ky(f5)"
print(compile(score).canonical)
print([it.code for it in check(score).messages])
print([it.kept for it in tree("%%\\n(c4) a(gh)").of_kind(NodeKind.NOTE)])
run = Run()
print(run.feed(b"%%\\nA(f)").output + run.end().output)
print(len(Score.parse(score).syllables))
"""


def run(script: str) -> subprocess.CompletedProcess[str]:
    return subprocess.run(
        [sys.executable, "-c", script], capture_output=True, text=True, timeout=60, check=False
    )


class Windows(unittest.TestCase):
    def test_calls(self) -> None:
        """The calls of the library and the objects need nothing that Windows lacks."""
        ran = run(WITHOUT + CALLS)
        self.assertEqual((ran.stdout, ran.stderr), (run(CALLS).stdout, ""))
        self.assertEqual(ran.returncode, 0)
        self.assertGreater(len(ran.stdout), 40)

    def test_command(self) -> None:
        """The command says that it is not for Windows."""
        ran = run("import sys; sys.platform = 'win32'; import gregorio_chant.__main__")
        self.assertEqual(
            (ran.returncode, ran.stderr),
            (1, "gregorio-chant: the command is for Linux; here the package has its calls alone\n"),
        )


if __name__ == "__main__":
    unittest.main()
