"""Rows of runs in the data of the crate `vectors`."""

from __future__ import annotations

import os
import re
from collections.abc import Sequence
from typing import TypeVar

from house.files import ROOT, crates_folder, read

FOLDER = os.path.join(crates_folder(ROOT), "vectors", "data")
# The tables whose rows are runs.
TABLES = ("rows", "canonical", "canonical_w12", "nabc_lines", "dump2")
USUAL = "65536,16384,4294967295"
_PLAIN = {"n": b"\n", "r": b"\r", "t": b"\t", "\\": b"\\"}
It = TypeVar("It")


def unescaped(column: str) -> bytes:
    """Returns the bytes of a column: `\\n`, `\\r`, `\\t`, `\\\\` and `\\xNN` are escapes."""
    parts = re.split(r"\\(x[0-9A-Fa-f]{2}|.)", column)
    return b"".join(_escape(it) if at % 2 else it.encode() for at, it in enumerate(parts))


def _escape(it: str) -> bytes:
    """Returns what an escape means, without its `\\`."""
    return bytes([int(it[1:], 16)]) if it[0] == "x" and len(it) == 3 else _PLAIN[it]


class Row:
    """A run: its arguments, limits and ending, its input, and what it has to write and answer."""

    def __init__(self, line: str) -> None:
        options, self.limits, self.ending, *texts, status = line.split("\t")
        self.words, self.status = options.split(), int(status)
        self.input, self.output, self.messages = (unescaped(it) for it in texts)

    def is_usual(self) -> bool:
        """Returns whether the program itself can make this run: under the usual limits, from a
        source that ends."""
        return (self.limits, self.ending) == (USUAL, "whole")


def rows_of(name: str) -> list[tuple[int, Row]]:
    """Returns the rows of a table, each with its line in the file, from 1."""
    lines = read(os.path.join(FOLDER, name)).split("\n")
    return [(at, Row(line)) for at, line in enumerate(lines, 1) if at > 1 and line]


def spread(items: Sequence[It], count: int) -> Sequence[It]:
    """Returns at most `count` of the items, at even distances."""
    step = max(-(-len(items) // count), 1)
    return items[::step]
