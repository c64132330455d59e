"""Runs the program with files that cannot be opened, read or written, with streams that are closed,
over a full device, and over a pipe whose reader has gone."""

from __future__ import annotations

import os
import subprocess

import pytest

from .runs import CANNOT_READ, CANNOT_WRITE, Ran
from .work import BEGUN, CANNOT_OPEN, CANONICAL, FAULTY, SCORE, Work

# ---- files


def test_a_missing_input(work: Work) -> None:
    """No output and no messages are made."""
    words = ["-F", "gabc", "-o", "y.gabc", "-l", "list", "x.gabc"]
    assert work.run(*words) == Ran(4, b"", CANNOT_OPEN % b"x.gabc")
    assert not work.names()


def test_an_output_in_a_folder_that_is_not_there(work: Work) -> None:
    """No messages are made."""
    work.put("x.gabc", SCORE)
    words = ["-F", "gabc", "-o", "none/y.gabc", "-l", "list", "x.gabc"]
    assert work.run(*words) == Ran(4, b"", CANNOT_OPEN % b"none/y.gabc")
    assert work.names() == ["x.gabc"]


def test_messages_in_a_folder_that_is_not_there(work: Work) -> None:
    """The output is made, and is empty."""
    work.put("x.gabc", SCORE)
    words = ["-F", "gabc", "-o", "y.gabc", "-l", "none/list", "x.gabc"]
    assert work.run(*words) == Ran(4, b"", CANNOT_OPEN % b"none/list")
    assert work.held("y.gabc") == b""


def test_a_file_with_the_empty_name(work: Work) -> None:
    assert work.run("-F", "gabc", "-S", "") == Ran(4, b"", CANNOT_OPEN % b"")


def test_a_folder_as_input(work: Work) -> None:
    (work.folder / "folder").mkdir()
    assert work.run("-F", "gabc", "-o", "z.gabc", "folder") == Ran(4, b"", CANNOT_READ)
    assert work.held("z.gabc") == b""


def test_a_folder_as_output(work: Work) -> None:
    work.put("x.gabc", SCORE)
    (work.folder / "folder").mkdir()
    ran = work.run("-F", "gabc", "-o", "folder", "x.gabc")
    assert ran == Ran(4, b"", CANNOT_OPEN % b"folder")


# ---- streams that are closed


@pytest.mark.parametrize(
    "script, messages",
    [
        ('"$0" -F gabc -s -S >&-', CANNOT_WRITE),
        ('"$0" -h >&-', CANNOT_WRITE),
        ('"$0" -F gabc -s -S <&-', CANNOT_READ),
    ],
)
def test_a_closed_stream(work: Work, script: str, messages: bytes) -> None:
    work.given = SCORE
    assert work.shell(script) == Ran(4, b"", messages)


def test_no_file_of_messages_stands_for_a_closed_stream(work: Work) -> None:
    work.put("x.gabc", FAULTY)
    ran = work.shell('"$0" -F gabc -S -l list x.gabc <&- >&-')
    assert ran == Ran(4, b"", CANNOT_WRITE)
    assert work.held("list") == b""


def test_no_output_stands_for_a_closed_stream(work: Work) -> None:
    work.put("x.gabc", FAULTY)
    assert work.shell('"$0" -F gabc -o y.gabc x.gabc <&- >&- 2>&-').status == 4
    assert work.held("y.gabc") == BEGUN


@pytest.mark.parametrize("given, status, output", [(FAULTY, 4, BEGUN), (SCORE, 0, CANONICAL)])
def test_a_closed_standard_error(work: Work, given: bytes, status: int, output: bytes) -> None:
    """It ends a run if a message needs it."""
    work.given = given
    assert work.shell('"$0" -F gabc -s -o z.gabc 2>&-').status == status
    assert work.held("z.gabc") == output


# ---- a full device


@pytest.mark.skipif(not os.access("/dev/full", os.W_OK), reason="there is no /dev/full")
@pytest.mark.parametrize(
    "given, script, output, messages",
    [
        (SCORE, '"$0" -F gabc -s -o /dev/full', b"", CANNOT_WRITE),
        (SCORE, '"$0" -F gabc -s -S >/dev/full', b"", CANNOT_WRITE),
        (FAULTY, '"$0" -F gabc -s -l /dev/full', BEGUN, CANNOT_WRITE),
        (FAULTY, '"$0" -F gabc -s 2>/dev/full', BEGUN, b""),
    ],
    ids=["output", "standard output", "messages", "standard error"],
)
def test_a_full_device(
    work: Work, given: bytes, script: str, output: bytes, messages: bytes
) -> None:
    work.given = given
    assert work.shell(script) == Ran(4, output, messages)


# ---- a reader that closes the pipe


def test_a_reader_that_closes_the_pipe(work: Work) -> None:
    """The reader has gone before the program writes, since the program waits for its input until
    then."""
    pipe = subprocess.PIPE
    with subprocess.Popen(
        [work.program, "-F", "gabc", "-s", "-S"], stdin=pipe, stdout=pipe, stderr=pipe
    ) as child:
        assert child.stdout
        child.stdout.close()
        child.stdout = None
        _, messages = child.communicate(SCORE, timeout=60)
        assert (child.returncode, messages) == (4, CANNOT_WRITE)
