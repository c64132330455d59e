"""Tests how tests are counted that pytest runs: pytest itself is not needed for that."""

from __future__ import annotations

import contextlib
import io
import unittest
from collections.abc import Callable
from dataclasses import dataclass

import fixture
from house.counted import Count, main


@dataclass
class Step:
    """What pytest says of a step of a test."""

    when: str
    failed: bool = False
    skipped: bool = False


PASSED = [Step("setup"), Step("call"), Step("teardown")]
FAILED = [Step("setup"), Step("call", failed=True), Step("teardown")]
SKIPPED = [Step("setup", skipped=True), Step("teardown")]
NOT_SET_UP = [Step("setup", failed=True), Step("teardown")]
NOT_ENDED = [Step("setup"), Step("call"), Step("teardown", failed=True)]


def running(status: int, *tests: list[Step]) -> Callable[[list[str], list[object]], int]:
    """Returns a stand-in for pytest, which tells its plugin of these tests and ends with this
    status."""

    def run(words: list[str], plugins: list[object]) -> int:
        (count,) = plugins
        assert isinstance(count, Count)
        for step in (it for test in tests for it in test):
            count.pytest_runtest_logreport(step)
        return status

    return run


class CountedTest(unittest.TestCase):
    def counted(self, status: int, *tests: list[Step]) -> fixture.Ran:
        out = io.StringIO()
        with contextlib.redirect_stdout(out):
            ended = main(["test_a.py"], running(status, *tests))
        return fixture.Ran(ended, out.getvalue(), "")

    def test_each_test_counts_once(self) -> None:
        ran = self.counted(1, PASSED, FAILED, SKIPPED, PASSED, NOT_SET_UP)
        self.assertEqual(ran, (1, "2 passed, 2 failed, 1 skipped\n", ""))

    def test_what_fails_after_a_test_counts_too(self) -> None:
        self.assertEqual(self.counted(1, NOT_ENDED), (1, "1 passed, 1 failed, 0 skipped\n", ""))

    def test_nothing_failed(self) -> None:
        self.assertEqual(
            self.counted(0, PASSED, SKIPPED), (0, "1 passed, 0 failed, 1 skipped\n", "")
        )

    def test_a_run_that_breaks_off_or_tries_nothing_fails(self) -> None:
        self.assertEqual(self.counted(2, PASSED), (1, "1 passed, 1 failed, 0 skipped\n", ""))
        self.assertEqual(self.counted(5), (1, "0 passed, 1 failed, 0 skipped\n", ""))

    def test_a_module_that_cannot_be_read_fails(self) -> None:
        count = Count()
        count.pytest_collectreport(Step("", failed=True))
        self.assertEqual(count.end(2), "0 passed, 1 failed, 0 skipped")


if __name__ == "__main__":
    unittest.main()
