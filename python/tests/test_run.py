"""Tries runs in pieces: the tables of runs, states that are kept and bent, what is refused, and
what memory a step wants."""
from __future__ import annotations

import doctest
import io
import os
import random
import subprocess
import sys
import threading
import tracemalloc
import unittest
from collections.abc import Callable, Iterable, Iterator

from support import EXAMPLES, ROOT, unescaped

from gregorio_chant import (
    Format,
    Run,
    RunOverError,
    StateError,
    Status,
    Step,
    check,
    compile,
    pieces,
)
from gregorio_chant._native import memory, runs

SCORE = ("name: a;\n%%\n(c4) " + "Ky(f)ri(gfg)e(e.) " * 20_000).encode()


class Case:
    """A run of a table: what it is told, and what it has to answer."""

    def __init__(self, columns: list[str]) -> None:
        words, _, self.ending, score, output, messages, status = columns
        self.format = Format.DUMP if "dump" in words else Format.GABC
        self.all_warnings = "-W" in words
        self.score, self.output, self.messages = (
            unescaped(score),
            unescaped(output),
            unescaped(messages),
        )
        self.status = Status(int(status))


def cases() -> Iterator[Case]:
    """Yields the runs of the tables that have the default limits."""
    for table in sorted((ROOT / "crates" / "vectors" / "data").glob("*.tsv")):
        for line in table.read_text(encoding="utf-8").split("\n"):
            columns = line.split("\t")
            if (
                len(columns) == 7
                and columns[1] == "65536,16384,4294967295"
                and columns[2] in ("whole", "broken")
            ):
                yield Case(columns)


def cut(score: bytes, size: int) -> list[bytes]:
    return [score[it : it + size] for it in range(0, len(score), size)]


def joined(steps: Iterable[Step]) -> tuple[bytes, bytes, Status | None]:
    """Returns the output and the messages of all steps, and the last status."""
    all_steps = list(steps)
    return (
        "".join(it.output for it in all_steps).encode(),
        "".join(it.messages_text for it in all_steps).encode(),
        all_steps[-1].status,
    )


class Runs(unittest.TestCase):
    def steps_of(self, case: Case, size: int, restores: bool) -> Iterator[Step]:
        """Yields the steps of a run in pieces of `size` bytes, which is restored after each if
        `restores`."""
        run = Run(case.format, all_warnings=case.all_warnings)
        for piece in cut(case.score, size):
            step = run.feed(piece)
            yield step
            if step.status is not None:
                return
            if restores:
                run = Run.restore(run.state, case.format, all_warnings=case.all_warnings)
        yield run.end() if case.ending == "whole" else run.broken()

    def test_tables(self) -> None:
        tried = 0
        for case in cases():
            for size, restores in ((1, False), (7, True), (4096, False)):
                self.assertEqual(
                    joined(self.steps_of(case, size, restores)),
                    (case.output, case.messages, case.status),
                    case.score,
                )
            tried += 1
        self.assertGreater(tried, 500)

    def test_examples(self) -> None:
        for name in sorted(EXAMPLES.glob("*.gabc")):
            for format in Format:
                result = compile(name.read_bytes(), format)
                with name.open("rb") as file:
                    self.assertEqual(
                        joined(Run(format).steps(pieces(file, 100))),
                        (result.output.encode(), result.messages_text.encode(), result.status),
                    )

    def test_documentation(self) -> None:
        tried = doctest.testmod(runs)
        self.assertGreater(tried.attempted, 0)
        self.assertEqual(tried.failed, 0)

    def test_kinds_of_bytes(self) -> None:
        wanted = joined(Run().steps([b"%%\n(c4f)"]))
        gaps = memoryview(bytes(byte for it in b"%%\n(c4f)" for byte in (it, 0)))[::2]
        score = b"%%\n(c4f)"
        kinds: list[bytes | bytearray | memoryview] = [
            bytearray(score),
            memoryview(score),
            memoryview(bytearray(score)),
            gaps,
        ]
        for piece in kinds:
            self.assertEqual(joined(Run().steps([piece])), wanted)
        for wrong in ("%%", 5, None, [1]):
            with self.assertRaisesRegex(TypeError, "a piece is bytes, not "):
                Run().feed(wrong)  # type: ignore[arg-type]
        with self.assertRaises(ValueError):
            Run("gtex")

    def test_messages_of_a_step(self) -> None:
        steps = list(Run().steps([b"%%\n(c4) a(&", b"f)"]))
        self.assertEqual([it.code for step in steps for it in step], ["W1", "E1"])
        self.assertEqual([it.status for it in steps], [None, None, Status.ERRORS])
        self.assertNotIn("%%", repr(steps))

    def test_long_answers(self) -> None:
        """Texts that are longer than the rooms that a step has at first, and a state too."""
        score = b"%%\n(c4" + b"?" * 10_000 + b") a(f)" + b"b(" + b"f" * 10_000 + b")"
        for format in Format:
            result = compile(score, format)
            for size in (1000, len(score)):
                self.assertEqual(
                    joined(Run(format).steps(cut(score, size)))[0], result.output.encode()
                )

    def test_over(self) -> None:
        fatal, ended, broken = Run(), Run(), Run()
        self.assertIs(fatal.feed(b"a\xff").status, Status.FATAL)
        self.assertIs(ended.end().status, Status.FATAL)
        self.assertIs(broken.broken().status, Status.BROKEN)
        for run in (fatal, ended, broken):
            self.assertIsNotNone(run.status)
            steps: list[Callable[[], object]] = [
                lambda: run.feed(b""),
                run.end,
                run.broken,
                lambda: run.state,
            ]
            for step in steps:
                with self.assertRaisesRegex(RunOverError, "the run is over"):
                    step()

    def test_broken_source(self) -> None:
        def failing() -> Iterator[bytes]:
            yield b"%%\n(c4) a(f) b(g"
            raise ConnectionError("gone")

        run = Run(all_warnings=False)
        with self.assertRaises(ConnectionError):
            list(run.steps(failing()))
        self.assertIsNone(run.status)
        last = run.broken()
        self.assertIs(run.status, Status.BROKEN)
        self.assertEqual(last.messages, ())


class States(unittest.TestCase):
    def test_a_state_is_enough(self) -> None:
        """A run is ended twice from one state, and in another process."""
        score = (EXAMPLES / "introit.gabc").read_bytes()
        wanted = compile(score).output
        run = Run()
        first = run.feed(score[:100]).output
        state = run.state
        for _ in range(2):
            self.assertEqual(
                first + "".join(it.output for it in Run.restore(state).steps([score[100:]])), wanted
            )
        program = (
            "import sys\nfrom gregorio_chant import Run\nrun ="
            " Run.restore(bytes.fromhex(sys.argv[1]))\nfor it in"
            " run.steps([sys.stdin.buffer.read()]): sys.stdout.buffer.write(it.output.encode())"
        )
        other = subprocess.run(
            [sys.executable, "-c", program, state.hex()],
            input=score[100:],
            capture_output=True,
            check=True,
            timeout=60,
            cwd="/",
        )
        self.assertEqual(first.encode() + other.stdout, wanted.encode())

    def test_other_bytes(self) -> None:
        run = Run("dump", all_warnings=False)
        run.feed(b"name: a;\n%%\n(c4) Ky(f)ri")
        state = run.state
        self.assertEqual(Run.restore(state, "dump", all_warnings=False).state, state)
        for other in (b"", b"GSAV", state[:-1], state + b"\0", b"X" + state[1:], bytes(100_000)):
            with self.assertRaisesRegex(StateError, "the bytes are no state of a run"):
                Run.restore(other, "dump", all_warnings=False)
        for format, all_warnings in (("gabc", False), ("dump", True), ("gabc", True)):
            with self.assertRaisesRegex(
                ValueError,
                "the state is one of another format, of other warnings or of other limits",
            ):
                Run.restore(state, format, all_warnings=all_warnings)

    def test_what_is_no_state_and_no_truth(self) -> None:
        for wrong in (5, None, "GSAV", [0]):
            with self.assertRaisesRegex(TypeError, "a state is bytes, not "):
                Run.restore(wrong)  # type: ignore[arg-type]
        for wrong in (2, None, "yes"):
            with self.assertRaisesRegex(TypeError, "all_warnings is True or False, not "):
                Run(all_warnings=wrong)  # type: ignore[arg-type]

    def test_bent_states(self) -> None:
        """Each bent state is refused, or read as another one."""
        run = Run()
        run.feed(b"name: a;\ndef-m1: x;\n%%\n(c4) Ky(f)ri<i>(gh")
        state = run.state
        bend = random.Random(1)
        refused = 0
        for at in range(len(state)):
            bent = bytearray(state)
            bent[at] ^= bend.randrange(1, 256)
            try:
                Run.restore(bent).end()
            except StateError:
                refused += 1
        self.assertGreater(refused, 10)

    def test_threads(self) -> None:
        scores = [f"%%\n(c4) {'abcdefgh'[it]}({'abcdefgh'[it]})".encode() * 50 for it in range(8)]
        wanted = [compile(it).output.encode() for it in scores]
        wrong: list[int] = []

        def run(number: int) -> None:
            wrong.extend(
                number
                for _ in range(20)
                if joined(Run().steps(cut(scores[number], 40)))[0] != wanted[number]
            )

        threads = [threading.Thread(target=run, args=(it,)) for it in range(8)]
        for it in threads:
            it.start()
        for it in threads:
            it.join()
        self.assertEqual(wrong, [])


class Memory(unittest.TestCase):
    def peak(self, made: Iterable[object]) -> int:
        """Returns how many bytes are held at once besides what was before, while what is `made` is
        gone through."""
        tracemalloc.start()
        for _ in made:
            pass
        _, peak = tracemalloc.get_traced_memory()
        tracemalloc.stop()
        return peak

    def kinds(self) -> list[bytes | bytearray | memoryview]:
        return [SCORE, bytearray(SCORE), memoryview(SCORE), memoryview(bytearray(SCORE))[1:-1]]

    def test_no_score_is_copied(self) -> None:
        """After the first call the text of the output is all that is made, and of a check
        nothing."""
        for score in self.kinds():
            compile(score)
            self.assertLess(
                self.peak(compile(it) for it in [score]), len(SCORE) + 20_000, type(score)
            )
            check(score)
            self.assertLess(self.peak(check(it) for it in [score]), 20_000, type(score))

    def test_no_piece_is_copied(self) -> None:
        for score in self.kinds():
            list(Run().steps([score]))
            self.assertLess(self.peak(Run().steps([score])), len(SCORE) + 30_000, type(score))

    def test_memory_does_not_grow(self) -> None:
        """A file is read and written within what one piece wants."""
        for _ in range(2):
            peak = self.peak(Run().steps(pieces(io.BytesIO(SCORE), 4096)))
        self.assertLess(peak, 60_000)

    def test_bytes_stay_where_they_are(self) -> None:
        """A `bytearray` keeps its length as long as it is borrowed, and is free again after a
        call."""
        score = bytearray(b"%%\n(c4f)")
        with memory.Borrowed(score), self.assertRaises(BufferError):
            score.append(0)
        compile(score)
        score.append(32)
        compile(score)


class Pieces(unittest.TestCase):
    def test_files(self) -> None:
        self.assertEqual(
            [bytes(it) for it in pieces(io.BytesIO(b"abcdefg"), 3)], [b"abc", b"def", b"g"]
        )
        self.assertEqual(list(pieces(io.BytesIO(b""))), [])
        with self.assertRaises(ValueError):
            next(pieces(io.BytesIO(b"a"), 0))

    def test_pipes(self) -> None:
        """What has come is a piece, and nothing more is waited for."""
        end, start = os.pipe()
        with open(end, "rb") as file:
            read = pieces(file)
            os.write(start, b"abc")
            self.assertEqual(bytes(next(read)), b"abc")
            os.write(start, b"de")
            self.assertEqual(bytes(next(read)), b"de")
            os.close(start)
            self.assertEqual(list(read), [])

    def test_nothing_yet(self) -> None:
        end, start = os.pipe()
        os.set_blocking(end, False)
        with open(end, "rb", buffering=0) as file, open(start, "wb"):
            with self.assertRaises(BlockingIOError):
                next(pieces(file))


if __name__ == "__main__":
    unittest.main()
