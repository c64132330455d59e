"""Tries the program over real ends: files that may not grow, pipes that are closed before their
end, a file system that fills, and slow ends. That full devices and closed streams end a run is
tried by `tools/try_program`."""

from __future__ import annotations

import os
import resource
import signal
import subprocess
import tempfile
import threading
import time
from collections.abc import Callable
from pathlib import Path
from typing import IO

import pytest
from house.rows import Row

from .ends import LARGEST, SINKS, numbered
from .runs import CANNOT_WRITE, GABC, LONG_SCORE, Ran, ran_of

MOUNT = """mount -t tmpfs -o size=64k none "$1" || exit 99
"$2" -F gabc -o "$1/out" "$3"
status=$?
cat "$1/out"
exit $status
"""


def test_program_is_built(program: str) -> None:
    assert os.access(program, os.X_OK)


def test_program_with_largest_limits_is_built() -> None:
    assert os.access(LARGEST, os.X_OK)


def limit_of_files(most: int) -> Callable[[], None]:
    """Returns what a child has to do that no file may grow beyond `most` bytes, and a write there
    fails."""

    def limit() -> None:
        signal.signal(signal.SIGXFSZ, signal.SIG_IGN)
        resource.setrlimit(resource.RLIMIT_FSIZE, (most, most))

    return limit


@numbered(SINKS)
def test_file_may_not_grow(program: str, room: Path, row: Row) -> None:
    made = room / "made"
    line = [program, *(it for it in row.words if it != "-S"), "-o", str(made)]
    for most in range(len(row.output)):
        ran = subprocess.run(
            line, input=row.input, capture_output=True, preexec_fn=limit_of_files(most), timeout=60
        )
        assert (ran.returncode, made.read_bytes()) == (4, row.output[:most])
        assert ran.stderr.endswith(CANNOT_WRITE)


def taken(source: IO[bytes], count: int) -> bytes:
    """Returns the next `count` bytes of a source, or fewer if it ends before."""
    got = b""
    while len(got) < count and (piece := os.read(source.fileno(), count - len(got))):
        got += piece
    return got


@pytest.mark.parametrize("count", [0, 1, 2, 18, 4096, 65536, 65537, 200000])
def test_pipe_is_closed(program: str, count: int) -> None:
    """The reader goes once it has `count` bytes."""
    pipe = subprocess.PIPE
    with tempfile.TemporaryFile() as given:
        given.write(LONG_SCORE)
        given.seek(0)
        with subprocess.Popen(
            [program, *GABC], stdin=given, stdout=pipe, stderr=pipe, bufsize=0
        ) as child:
            assert child.stdout and child.stderr
            got = taken(child.stdout, count)
            child.stdout.close()
            told = child.stderr.read()
            assert Ran(child.wait(60), got, told) == Ran(4, LONG_SCORE[:count], CANNOT_WRITE)


def test_file_system_fills(program: str, room: Path) -> None:
    folder, score = room / "small", room / "long.gabc"
    folder.mkdir()
    score.write_bytes(LONG_SCORE)
    as_root = [] if os.geteuid() == 0 else ["--map-root-user"]
    words = ["sh", "-c", MOUNT, "sh", str(folder), program, str(score)]
    try:
        ran = ran_of(
            subprocess.run(
                ["unshare", *as_root, "--mount", *words], capture_output=True, timeout=60
            )
        )
    except OSError as error:
        pytest.skip(f"there is no unshare: {error}")
    if ran.status not in range(6):
        pytest.skip(f"none is mounted here: {ran.messages.decode(errors='replace').strip()}")
    assert 0 < len(ran.output) <= 65536 and LONG_SCORE.startswith(ran.output)
    assert (ran.status, ran.messages) == (4, CANNOT_WRITE)


def feed_slowly(sink: IO[bytes]) -> None:
    """Writes the long score, and waits between its pieces."""
    for at in range(0, len(LONG_SCORE), 50000):
        sink.write(LONG_SCORE[at : at + 50000])
        sink.flush()
        time.sleep(0.05)
    sink.close()


def test_slow_writer_and_slower_reader(program: str) -> None:
    """The writer waits between its pieces, and the reader takes little at a time and waits
    longer."""
    pipe = subprocess.PIPE
    with subprocess.Popen(
        [program, *GABC], stdin=pipe, stdout=pipe, stderr=pipe, bufsize=0
    ) as child:
        assert child.stdin and child.stdout and child.stderr
        feeder = threading.Thread(target=feed_slowly, args=(child.stdin,))
        feeder.start()
        got = b""
        while piece := os.read(child.stdout.fileno(), 8000):
            got += piece
            time.sleep(0.02)
        feeder.join()
        assert Ran(child.wait(60), got, child.stderr.read()) == Ran(0, LONG_SCORE, b"")
