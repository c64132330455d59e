"""Checks a folder of many large scores, with a bar, and by one thread and by four."""
from __future__ import annotations

import os
import random
import shutil
import subprocess
import sys
import tempfile
import time
import unittest
from pathlib import Path

from support import command, has, in_terminal

from gregorio_chant import Status, check

SCORES = 1_000
BYTES = 100_000
TRIES = 3
# How many of the ten folders are read for the times, from which gain by processes on the processors
# count as free, and which gain by four threads is asked for: the command itself begins and ends by
# one, and scores are read so fast that this counts.
PARTS = 9
FREE = 2.5
GAIN = 1.4
WORDS = [
    "Ky(f)ri(gfg)e(e.)",
    "e(h)lé(ixi)i(ghGF)son(f.) (,)",
    "<i>Chri</i>(fg!hi)ste(h) *(;)",
    "al(f/gh)le(g_')lú(hiwj)ia(h.) (::)",
]


def generated(chance: random.Random, number: int) -> bytes:
    """Returns a score of this many bytes or a few less, in which nothing is found."""
    lines = [" ".join(chance.choices(WORDS, k=20)) for _ in range(200)]
    score = f"name: Score {number};\nmode: {number % 8 + 1};\n%%\n(c4) {' '.join(lines)}".encode()
    return score[: BYTES - 6].rsplit(b" ", 1)[0] + b" a(f)\n"


class Many(unittest.TestCase):
    folder: Path

    @classmethod
    def setUpClass(cls) -> None:
        cls.folder = Path(tempfile.mkdtemp(prefix="gregorio-chant-"))
        cls.addClassCleanup(shutil.rmtree, cls.folder)
        chance = random.Random(20)
        for number in range(SCORES):
            file = cls.folder / str(number % 10) / f"{number:04}.gabc"
            file.parent.mkdir(exist_ok=True)
            file.write_bytes(generated(chance, number))

    def test_scores(self) -> None:
        score = (self.folder / "7" / "0987.gabc").read_bytes()
        self.assertTrue(BYTES - 100 < len(score) <= BYTES)
        self.assertEqual(check(score).status, Status.WHOLE)

    @unittest.skipUnless(has("rich"), "there is no rich")
    def test_bar(self) -> None:
        status, shown = in_terminal("check", self.folder)
        self.assertEqual(status, 0)
        self.assertRegex(shown, "checking.*[1-9][0-9]*/1000")
        self.assertIn("1,000 files: nothing found", shown)

    def seconds(self, jobs: int) -> float:
        """Returns how long a part of the folder takes."""
        parts = [self.folder / str(it) for it in range(PARTS)]
        begin = time.monotonic()
        ran = command("check", "--output-format", "lines", "--jobs", str(jobs), *parts)
        self.assertEqual((ran.returncode, ran.stdout), (0, b""), ran.stderr)
        self.assertEqual(
            ran.stderr, f"gregorio-chant: {PARTS * SCORES // 10} files: nothing found\n".encode()
        )
        return time.monotonic() - begin

    def seconds_by_processes(self, count: int) -> float:
        """Returns how long so many processes take, each of which reads a part of the folder by
        itself."""
        words = [
            sys.executable,
            "-m",
            "gregorio_chant",
            "check",
            "--quiet",
            "--jobs",
            "1",
            "--output-format",
            "lines",
            str(self.folder / "0"),
        ]
        begin = time.monotonic()
        running = [subprocess.Popen(words) for _ in range(count)]
        self.assertEqual([it.wait() for it in running], [0] * count)
        return time.monotonic() - begin

    def test_four_threads(self) -> None:
        if len(os.sched_getaffinity(0)) < 4:
            self.skipTest("there are fewer than four processors")
        tried = []
        for _ in range(TRIES):
            by_one, by_four = self.seconds(1), self.seconds(4)
            if by_one >= GAIN * by_four:
                return
            tried.append(
                (by_one, by_four, 4 * self.seconds_by_processes(1) / self.seconds_by_processes(4))
            )
        gain = min(by_processes for _, _, by_processes in tried)
        if gain < FREE:
            self.skipTest(
                f"the processors are busy: four processes do only {gain:.1f} times the work of one"
            )
        self.fail(
            "seconds by one thread and by four, and how many times the work of one process four"
            f" do: {tried}"
        )
