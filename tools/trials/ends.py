"""The program `gregorio` over the rows of what has to be written, and over a preloaded library that
makes its ends short or failing."""

from __future__ import annotations

import subprocess
from collections.abc import Sequence
from typing import Any

import pytest
from house.rows import Row, rows_of

from .runs import Ran, place_of, ran_of

SINKS, SOURCES = ([row for _, row in rows_of(it)] for it in ("sinks.tsv", "sources.tsv"))
# The program that reads with the largest limits.
LARGEST = place_of("run_largest")


def numbered(rows: list[Row]) -> pytest.MarkDecorator:
    """Returns the mark by which a trial is made with each row."""
    return pytest.mark.parametrize("row", rows, ids=[f"row {at}" for at, _ in enumerate(rows, 1)])


def wanted(row: Row) -> Ran:
    """Returns what has to come of a row."""
    return Ran(row.status, row.output, row.messages)


class Program:
    """The built program, started with a preloaded library."""

    def __init__(self, path: str, library: str) -> None:
        self.path, self.library = path, library

    def start(self, words: Sequence[str], how: dict[str, object], **ends: Any) -> Ran:
        """Runs it with the library set so and these ends."""
        settings = {name: str(value) for name, value in how.items()}
        surroundings = {"LD_PRELOAD": self.library, **settings}
        line = [self.path, *words]
        return ran_of(subprocess.run(line, env=surroundings, capture_output=True, **ends))

    def run(self, words: Sequence[str], given: bytes, **how: object) -> Ran:
        """Runs it on these bytes with the library set so."""
        return self.start(words, how, input=given, timeout=100)
