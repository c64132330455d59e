"""Compares the package with tables of cases, and tries its calls. Prints how many trials passed and
failed last; the other tests stand beside this file.

Usage: python test_package.py TABLE..
"""
from __future__ import annotations

import doctest
import re
import sys
import threading
from collections.abc import Iterator
from pathlib import Path

import gregorio_chant
from gregorio_chant import Format, Kind, Message, Status

passed = failed = 0


def check(is_well: bool, what: str) -> None:
    global passed, failed
    if is_well:
        passed += 1
    else:
        failed += 1
        print(f"failed: {what}", file=sys.stderr)


def unescaped(column: str) -> bytes:
    """Returns the bytes of a column, in which a backslash begins `\\n`, `\\t`, `\\r`, `\\\\` or
    `\\xNN`."""

    def byte(found: re.Match[bytes]) -> bytes:
        code = found[1]
        return (
            bytes([int(code[1:], 16)])
            if code[:1] == b"x"
            else {b"n": b"\n", b"t": b"\t", b"r": b"\r"}.get(code, code)
        )

    return re.sub(rb"\\(x[0-9A-Fa-f]{2}|.)", byte, column.encode())


def cases(table: str) -> Iterator[list[str]]:
    """Yields the columns of each case of a whole input under the default limits."""
    for line in Path(table).read_text(encoding="utf-8").split("\n"):
        columns = line.split("\t")
        if len(columns) == 7 and columns[1:3] == ["65536,16384,4294967295", "whole"]:
            yield columns


def try_case(columns: list[str]) -> None:
    words, _, _, score, output, messages, status = columns
    wanted = Format.DUMP if "dump" in words else Format.GABC
    result = gregorio_chant.compile(unescaped(score), wanted, all_warnings="-W" in words)
    check(result.output.encode() == unescaped(output), f"output of {score}")
    check(result.messages_text.encode() == unescaped(messages), f"messages of {score}")
    check(result.status == int(status), f"status of {score}")
    check(
        len(list(result)) == result.messages_text.count("\n"), f"a message for each line of {score}"
    )


def try_calls() -> None:
    """Tries what the tables do not say: texts, formats, long answers, threads."""
    result = gregorio_chant.compile("%%\nA(f)é(/./)", "gabc")
    check(result.canonical == "%%\nA(f)é(//)\n" and result.status is Status.ERRORS, "a str")
    check(
        list(result)[-1] == Message(2, 8, Kind.ERROR, "E1", "character left out of the notes"),
        "a message",
    )
    for wrong in ("gtex", ""):
        try:
            gregorio_chant.compile("%%", wrong)
            check(False, "another format")
        except ValueError:
            check(True, "another format")
    long = gregorio_chant.compile("%%\n(" + "?" * 10_000 + ")")
    check(len(list(long)) == 10_001, "messages that are longer than the first buffer")
    answers: list[str] = []
    threads = [
        threading.Thread(target=lambda: answers.append(gregorio_chant.compile("%%\n(f)").canonical))
        for _ in range(4)
    ]
    for it in threads:
        it.start()
    for it in threads:
        it.join()
    check(answers == ["%%\n(f)\n"] * 4, "four threads")


def main(tables: list[str]) -> int:
    for table in tables:
        for columns in cases(table):
            try_case(columns)
    try_calls()
    examples = doctest.testmod(gregorio_chant)
    check(examples.attempted > 0 and examples.failed == 0, "the examples of the documentation")
    print(f"python: {passed} passed, {failed} failed")
    return int(failed != 0)


if __name__ == "__main__":
    sys.exit(main(sys.argv[1:]))
