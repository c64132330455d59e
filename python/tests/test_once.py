"""Tries how often a command calls the library for a score: never twice for the same answer."""
from __future__ import annotations

import ctypes
import os
import unittest
from collections import Counter
from collections.abc import Iterator
from contextlib import ExitStack, contextmanager
from typing import Any
from unittest import mock

from support import InFolder

from gregorio_chant._native import drawings, library, trees
from gregorio_chant.commands.main import main

# A clean score, and ones with messages: with slips, with a comment that silences, with other line
# ends, and one that a fatal fault stops.
CLEAN = b"name: a;\n%%\n(c4) Ky(f)ri(gfg)e(e.) (::)\n"
SLIPS = b"name: a;\n%%\n(c4) <i>a(f) b>(g) c(h5) d(g</i>e(f) f(4c) </b>g(h) <html>(f) xq)b(g)\n"
SILENCED = b"name: a;\n%%\n(c4) Ky(f5)ri(g) % gregorio: ignore E1\n"
CR_LF = b"name: a;\r\n%%\r\n(c4)  Ky(f&)\r\n ri(g)\r\n"
BLANKS = b"name:a;\n%%\n(c4)   <b>Ky</b>(f&)ri(g)\n\n\n"
FATAL = b"name: a;\n%%\n(c4) Ky(f)ri(g\n"
NABC = b"name: a;\nnabc-lines: 1;\n%%\n(c4) Ky(f|pe)ri (g|vi)(f|zz)\n"
SCORES = (CLEAN, SLIPS, SILENCED, CR_LF, BLANKS, FATAL, NABC)
# Commands, and how often each may compile a score as it was given, make its tree, and draw it.
COMMANDS = (
    ("check --no-config", 1, 1, 0),
    ("check --rules", 1, 1, 0),
    ("check --fix", 1, 1, 0),
    ("check --fix --rules --unsafe-fixes", 1, 1, 0),
    ("format", 1, 1, 0),
    ("format --wrap 40", 1, 1, 0),
    ("format --canonical", 1, 1, 0),
    ("find --text K*", 1, 1, 0),
    ("find --interval +1", 1, 1, 0),
    ("find --neume pes", 1, 1, 0),
    ("index", 1, 1, 0),
    ("index --header book", 1, 1, 0),
    ("show -o a.html", 1, 1, 2),
    ("show -o pages/", 1, 1, 2),
    ("show --width 300 -o a.html", 1, 1, 1),
    ("show --svg --rules -o a.svg", 1, 1, 1),
    ("export --force --to mei", 1, 1, 0),
    ("export --force --to volpiano", 1, 1, 0),
    ("export --force --to musicxml", 1, 1, 0),
)
_WRITES = ("find", "index", "check", "format")


class Calls:
    """Counts the calls of the library, by what is called, for which score, and how wide."""

    def __init__(self) -> None:
        self.counts = Counter[tuple[str, bytes, int]]()

    def times(self, call: str, score: bytes) -> int:
        """Returns how often a score was handed to this call."""
        return sum(n for (it, data, _), n in self.counts.items() if (it, data) == (call, score))

    @contextmanager
    def counted(self) -> Iterator[None]:
        with ExitStack() as stack:
            for module, name in ((library, "_compile"), (trees, "_tree"), (drawings, "_draw")):
                stack.enter_context(mock.patch.object(module, name, self._counting(module, name)))
            yield

    def _counting(self, module: Any, name: str) -> Any:
        call = getattr(module, name)

        def counting(*arguments: Any) -> int:
            data = ctypes.string_at(*arguments[:2]) if arguments[1] else b""
            self.counts[name, data, arguments[2].width if name == "_draw" else 0] += 1
            answer: int = call(*arguments)
            return answer

        return counting


@contextmanager
def in_silence() -> Iterator[None]:
    """Lets what is written to standard output and to standard error go."""
    kept = [os.dup(it) for it in (1, 2)]
    with open(os.devnull, "wb") as nowhere:
        for it in (1, 2):
            os.dup2(nowhere.fileno(), it)
        try:
            yield
        finally:
            for it, old in zip((1, 2), kept):
                os.dup2(old, it)
                os.close(old)


class Once(InFolder):
    def calls_of(self, words: str, *names: str) -> Calls:
        jobs = ["--jobs", "1"] if words.startswith(_WRITES) and "--fix" not in words else []
        calls = Calls()
        with calls.counted(), in_silence():
            self.assertIn(main([*words.split(), *jobs, *names]), (0, 1, 2), words)
        return calls

    def test_each(self) -> None:
        for words, *most in COMMANDS:
            for score in SCORES:
                self.put("a.gabc", score)
                calls = self.calls_of(words, "a.gabc")
                for call, limit in zip(("_compile", "_tree", "_draw"), most):
                    self.assertLessEqual(calls.times(call, score), limit, (words, score))
                self.assertEqual([it for it, n in calls.counts.items() if n > 1], [], words)
                if words.startswith("show"):
                    self.assertEqual(calls.counts.total(), sum(most), (words, score))

    def test_a_page_of_many(self) -> None:
        """A page of a folder draws what it shows, and nothing else."""
        for number, score in enumerate((CLEAN, SLIPS, NABC)):
            self.put(f"scores/{number}.gabc", score)
        calls = self.calls_of("show -o a.html", "scores").counts
        self.assertEqual(set(calls.values()), {1})
        names = Counter(name for name, _, _ in calls)
        self.assertEqual(names, {"_compile": 3, "_tree": 2, "_draw": 4})


if __name__ == "__main__":
    unittest.main()
