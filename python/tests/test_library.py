"""Tries the calls of the library: what they take and refuse, and what memory they want."""
from __future__ import annotations

import doctest
import importlib
import pkgutil
import threading
import tracemalloc
import unittest

from support import EXAMPLES, has

import gregorio_chant
from gregorio_chant import GregorioError, Kind, Message, Report, Status, check, compile
from gregorio_chant._native import library
from gregorio_chant.objects import edits
from gregorio_chant.objects import score as score_module

# The modules that stand on packages which need not be there.
_NEEDED = {
    "gregorio_chant.export.midi": "mido",
    "gregorio_chant.pictures.font": "fontTools",
    "gregorio_chant.report.terminal": "rich",
    "gregorio_chant.show.watching": "watchdog",
    "gregorio_chant.web.app": "starlette",
    "gregorio_chant.web.guard": "starlette",
    "gregorio_chant.web.serving": "uvicorn",
    "gregorio_chant.work.patterns": "pathspec",
}


class Calls(unittest.TestCase):
    def test_scores_that_are_none(self) -> None:
        for wrong in (5, None, 1.5, ["%%"], object()):
            with self.assertRaisesRegex(TypeError, "a score is a str or bytes, not "):
                compile(wrong)  # type: ignore[arg-type]
            with self.assertRaisesRegex(TypeError, "a score is a str or bytes, not "):
                check(wrong)  # type: ignore[arg-type]

    def test_warnings_that_are_no_truth(self) -> None:
        for wrong in (2, None, "yes"):
            with self.assertRaisesRegex(TypeError, "all_warnings is True or False, not "):
                compile("%%", all_warnings=wrong)  # type: ignore[arg-type]
            with self.assertRaisesRegex(TypeError, "all_warnings is True or False, not "):
                check("%%", all_warnings=wrong)  # type: ignore[arg-type]

    def test_kinds_of_bytes(self) -> None:
        scores: list[str | bytes | bytearray | memoryview] = [
            "%%\n(c4f)",
            b"%%\n(c4f)",
            bytearray(b"%%\n(c4f)"),
            memoryview(b"%%\n(c4f)"),
        ]
        for score in scores:
            self.assertEqual(compile(score).canonical, "%%\n(c4f)\n")

    def test_check(self) -> None:
        for score in sorted(EXAMPLES.glob("*.gabc")):
            result = compile(score.read_bytes())
            self.assertEqual(check(score.read_bytes()), Report(result.status, result.messages))
        self.assertEqual(check("%%\n(c4f)", all_warnings=False), Report(Status.WHOLE, ()))
        self.assertEqual(check("").messages[-1], Message(1, 1, Kind.FATAL, "F2", "no %% line"))

    def test_long_answers(self) -> None:
        score = "%%\n(c4" + "?" * 10_000 + ")"
        self.assertEqual(len(compile(score).messages), 10_001)
        self.assertEqual(len(check(score).messages), 10_001)
        self.assertEqual(len(compile("%%\n(c4)" + "(b)" * 10_000, "dump").dump.split("\n")), 50_006)

    def test_names(self) -> None:
        self.assertNotIn("%%", repr(compile("%%\n(c4f)")))
        for name in gregorio_chant.__all__:
            self.assertTrue(hasattr(gregorio_chant, name))

    def test_errors(self) -> None:
        """All errors of the package have one base, also those that are of a kind of Python's."""
        found = set[type]()
        for it in pkgutil.walk_packages(gregorio_chant.__path__, "gregorio_chant."):
            is_module = not it.name.endswith(("__main__", "libgregorio"))
            if not is_module or not has(_NEEDED.get(it.name, "re")):
                continue
            module = importlib.import_module(it.name)
            found |= {
                its
                for name, its in vars(module).items()
                if isinstance(its, type)
                and issubclass(its, Exception)
                and its.__module__ == it.name
                and name[0] != "_"
            }
        self.assertGreater(len(found), 15)
        self.assertEqual([it for it in found if not issubclass(it, GregorioError)], [])

    def test_examples(self) -> None:
        for module in (gregorio_chant, library, score_module, edits):
            tried = doctest.testmod(module)
            self.assertGreater(tried.attempted, 0, module)
            self.assertEqual(tried.failed, 0, module)


class Memory(unittest.TestCase):
    SCORE = ("name: a;\n%%\n(c4) " + "Ky(f)ri(gfg)e(e.) " * 20_000).encode()

    def peak(self) -> tuple[int, int]:
        tracemalloc.start()
        output = compile(self.SCORE).output
        _, peak = tracemalloc.get_traced_memory()
        tracemalloc.stop()
        return peak, len(output)

    def test_nothing_is_copied_whole(self) -> None:
        """After the first call the text of the output is all that is made."""
        self.peak()
        peak, length = self.peak()
        self.assertLess(peak, length + 20_000)

    def test_rooms_are_one_calls_own(self) -> None:
        scores = [f"%%\n(c4) {'abcdefgh'[it]}({'abcdefgh'[it]})" * 100 for it in range(8)]
        wanted = [compile(it).output for it in scores]
        wrong: list[int] = []

        def run(number: int) -> None:
            wrong.extend(
                number for _ in range(200) if compile(scores[number]).output != wanted[number]
            )

        threads = [threading.Thread(target=run, args=(it,)) for it in range(8)]
        for it in threads:
            it.start()
        for it in threads:
            it.join()
        self.assertEqual(wrong, [])
