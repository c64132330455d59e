"""Runs all tests of this folder, each module in a process of its own, side by side. What failed is
shown. The last line counts what passed, failed and was skipped, and the reasons of what was skipped
stand before it.

Usage: python run.py [MODULE ..]
"""
from __future__ import annotations

import io
import os
import sys
import unittest
from concurrent.futures import ProcessPoolExecutor
from dataclasses import dataclass
from multiprocessing import get_context
from pathlib import Path

HERE = Path(__file__).resolve().parent
# These take longest, and begin first.
_LONG = (
    "test_page",
    "test_tree_texts",
    "test_ending",
    "test_check",
    "test_command",
    "test_format",
    "test_streams",
)


class Result(unittest.TextTestResult):
    """Counts what passed too."""

    passed = 0

    def addSuccess(self, test: unittest.TestCase) -> None:
        super().addSuccess(test)
        self.passed += 1


@dataclass(frozen=True)
class Ran:
    """What came of the tests of a module."""

    passed: int
    failed: int
    skipped: tuple[str, ...]
    written: str


def run(module: str) -> Ran:
    """Runs the tests of a module."""
    written = io.StringIO()
    ran = unittest.TextTestRunner(written, resultclass=Result, verbosity=0).run(
        unittest.defaultTestLoader.loadTestsFromName(module)
    )
    assert isinstance(ran, Result)
    failed = len(ran.failures) + len(ran.errors)
    return Ran(
        ran.passed,
        failed,
        tuple(f"{test}: {reason}" for test, reason in ran.skipped),
        written.getvalue(),
    )


def _begin() -> None:
    sys.path.insert(0, str(HERE))


def main(names: list[str]) -> int:
    modules = names or sorted(
        (it.stem for it in HERE.glob("test_*.py") if it.stem != "test_package"),
        key=lambda it: it not in _LONG,
    )
    with ProcessPoolExecutor(os.cpu_count(), get_context("spawn"), _begin) as pool:
        all_ran = list(pool.map(run, modules))
    for ran in all_ran:
        if ran.failed:
            sys.stderr.write(ran.written)
        for it in ran.skipped:
            print(f"skipped: {it}")
    passed, failed, skipped = (
        sum(it) for it in zip(*((it.passed, it.failed, len(it.skipped)) for it in all_ran))
    )
    print(f"{passed} passed, {failed} failed, {skipped} skipped")
    return int(failed != 0 or passed == 0)


if __name__ == "__main__":
    sys.exit(main(sys.argv[1:]))
