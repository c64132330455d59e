"""Runs rows of the data of `vectors` through a build of the program that nobody has proved
(`rt try`): a first answer for who has changed a crate, after a minute or two of one processor. It
proves nothing.

Usage: tools/try_unproved [COUNT]     at most COUNT rows, 60 if none is given, of all tables
Prints a line for each row that differs. The last line counts what passed and failed. Exit status: 0
if nothing failed, else 1."""

from __future__ import annotations

import os
import re
import subprocess
import sys
import tempfile
from collections.abc import Iterable

from house.files import ROOT
from house.rows import TABLES, Row, rows_of, spread

CASE = re.compile(r"case=(\S+) run=(\S+) status=(\d+) .*output=(\w+)")
# How many rows are passed before the next line says so.
STEP = 20


def put_case(folder: str, name: str, row: Row, words: list[str], written: bytes) -> None:
    """Makes a case of `rt try`: the row's input is its standard input, with these arguments and
    what it has to write to its standard output."""
    arguments = "\n".join(words).encode() + b"\n"
    for end, held in (("", row.input), (".args", arguments), (".stdout", written)):
        with open(os.path.join(folder, name + end), "wb") as file:
            file.write(held)


def put_cases(folder: str, rows: Iterable[tuple[str, Row]]) -> dict[str, Row]:
    """Makes a case for the output of each row, and one for its messages if it has any. Returns the
    row of each case by its name."""
    found = {}
    for name, row in rows:
        words = [it for it in row.words if it != "-S"]
        put_case(folder, name, row, [*words, "-S"], row.output)
        found[name] = row
        if row.messages:
            # What goes to one file by two ways is not in order: the output is thrown away here.
            ends = ["-o", "/dev/null", "-l", "/dev/stdout"]
            put_case(folder, f"{name}-messages", row, [*words, *ends], row.messages)
            found[f"{name}-messages"] = row
    return found


def passed_of(told: Iterable[str], cases: dict[str, Row]) -> int:
    """Reads what `rt try` says of the cases, says what differs as soon as it is known, and returns
    how many passed."""
    passed = 0
    said: list[str] = []
    for line in told:
        case = CASE.match(line)
        if not case:
            said.append(line)
            continue
        name, ended, status, output = case.groups()
        wanted = cases[name].status
        if (ended, output) == ("ended", "expected") and int(status) == wanted:
            passed += 1
        else:
            why = f"status {status}, and not {wanted}, or another output"
            print("".join(said), f"try_unproved: failed: {name}: {why}", sep="", flush=True)
        if passed % STEP == 0:
            print(f"try_unproved: {passed} of {len(cases)} runs agree", flush=True)
        said = []
    if not passed:
        print("".join(said), end="")
    return passed


def run(folder: str, cases: dict[str, Row]) -> int:
    """Runs the cases, and returns how many passed."""
    with subprocess.Popen(
        ["rt", "try", "--cases", folder],
        cwd=f"{ROOT}/crates/gregorio_cli",
        stdin=subprocess.DEVNULL,
        stdout=subprocess.DEVNULL,
        stderr=subprocess.PIPE,
        text=True,
        errors="replace",
    ) as ran:
        return passed_of(ran.stderr or [], cases)


def main(words: list[str]) -> int:
    """Runs at most as many rows as the first word says, or 60, and returns the exit status."""
    count = int(words[0]) if words else 60
    tables = ((table, rows_of(f"{table}.tsv")) for table in TABLES)
    named = [(f"{table}-{at}", row) for table, rows in tables for at, row in rows]
    usual = [it for it in named if it[1].is_usual()]
    with tempfile.TemporaryDirectory(prefix="try-unproved-") as folder:
        cases = put_cases(folder, spread(usual, count))
        takes = f"which takes a minute, then {len(cases)} runs"
        print(f"try_unproved: building the program with no proof, {takes}", flush=True)
        passed = run(folder, cases)
    print(f"{passed} passed, {len(cases) - passed} failed")
    return 0 if passed == len(cases) else 1


if __name__ == "__main__":
    sys.exit(main(sys.argv[1:]))
