"""A small repository in a folder of its own, for the tests of `tools/house`. It also puts `tools`
on Python's path: so its import stands before those of `house`."""

from __future__ import annotations

import contextlib
import io
import os
import sys
import tempfile
import unittest
from collections.abc import Callable
from typing import NamedTuple

ROOT = os.path.dirname(os.path.dirname(os.path.dirname(os.path.realpath(__file__))))
sys.path.insert(0, os.path.join(ROOT, "tools"))


class Ran(NamedTuple):
    """What a tool answered, and what it wrote to its standard output and standard error."""

    status: int
    out: str
    errors: str


class RepositoryTest(unittest.TestCase):
    """A test over the files of `FILES`, below the folder `root`."""

    FILES: dict[str, str] = {}

    def setUp(self) -> None:
        room = tempfile.TemporaryDirectory()
        self.addCleanup(room.cleanup)
        self.root = room.name
        for path, text in self.FILES.items():
            self.put(path, text)

    def put(self, path: str, text: str) -> None:
        """Writes a file of the repository."""
        path = os.path.join(self.root, path)
        os.makedirs(os.path.dirname(path), exist_ok=True)
        with open(path, "w", encoding="utf-8") as file:
            file.write(text)

    def text(self, path: str) -> str:
        """Returns a file of the repository."""
        with open(os.path.join(self.root, path), encoding="utf-8") as file:
            return file.read()

    def change(self, path: str, old: str, new: str) -> None:
        """Puts a text in the place of another one, which stands once in a file."""
        text = self.text(path)
        self.assertEqual(text.count(old), 1, f"{old} in {path}")
        self.put(path, text.replace(old, new))

    def run_tool(self, main: Callable[[list[str], str], int], *words: str) -> Ran:
        """Runs a tool over the repository."""
        out, errors = io.StringIO(), io.StringIO()
        with contextlib.redirect_stdout(out), contextlib.redirect_stderr(errors):
            status = main(list(words), self.root)
        return Ran(status, out.getvalue(), errors.getvalue())
