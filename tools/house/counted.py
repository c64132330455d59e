"""Runs tests by pytest, and counts them: the last line says what passed, failed and was skipped.
The reasons of what was skipped stand before it.

As a program: `python3 -B -m house.counted WORD..`, with pytest's own words. Exit status: 0 if
something was tried and nothing failed, else 1."""

from __future__ import annotations

import sys
import tempfile
from collections.abc import Callable
from typing import Protocol


class Report(Protocol):
    """What pytest says of a step of a test, or of a module that it reads."""

    failed: bool
    skipped: bool


class StepReport(Report, Protocol):
    """What pytest says of a step of a test: `setup`, `call` or `teardown`."""

    when: str


class Count:
    """A plugin of pytest that counts what passed, failed and was skipped."""

    def __init__(self) -> None:
        self.passed = self.failed = self.skipped = 0

    def pytest_runtest_logreport(self, report: StepReport) -> None:
        """Counts a test by its call, and what failed or was skipped before or after it."""
        self.passed += report.when == "call" and not (report.failed or report.skipped)
        self._count_rest(report)

    def pytest_collectreport(self, report: Report) -> None:
        """Counts a module that cannot be read, or that is skipped as a whole."""
        self._count_rest(report)

    def _count_rest(self, report: Report) -> None:
        self.failed += report.failed
        self.skipped += report.skipped

    def end(self, status: int) -> str:
        """Returns the last line of a run that ended with this status. A run that breaks off, or
        tries nothing, counts as one failed."""
        if status and not self.failed:
            self.failed = 1
        return f"{self.passed} passed, {self.failed} failed, {self.skipped} skipped"


def main(words: list[str], run: Callable[[list[str], list[object]], int]) -> int:
    """Runs pytest by `run` with these words, prints the last line, and returns the exit status.
    What tests write lies in a folder that does not stay."""
    count = Count()
    with tempfile.TemporaryDirectory(prefix="trials-") as room:
        usual = ["-q", "-rfEs", "--tb=short", "--no-header", "-p", "no:cacheprovider"]
        status = run([*usual, f"--basetemp={room}/tests", *words], [count])
    print(count.end(status), flush=True)
    return 1 if count.failed else 0


if __name__ == "__main__":
    import pytest

    sys.exit(main(sys.argv[1:], pytest.main))
