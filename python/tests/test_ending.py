"""Tries signals at any moment of each command: it ends at once with its status, says nothing, and
leaves nothing half written and no process."""
from __future__ import annotations

import os
import random
import signal
import subprocess
import sys
import time
import unittest
from collections.abc import Iterator
from pathlib import Path

from support import CANONICAL, FAULTY, SCORE, InFolder, has, processes_of

# At so many moments each command is interrupted; with GREGORIO_LONG=1 forty.
MOMENTS = 40 if os.environ.get("GREGORIO_LONG") else 3
# How long a command may go on after a signal, in seconds, and how often one that takes longer is
# tried again at the same moment: others may have had the processors. What does not end at once ends
# late each time.
PATIENCE = 2.0
TRIES = 5
# How long what is killed may take to be gone on a busy machine, in seconds.
MOST_TO_GO = 60.0
_COMMANDS: dict[str, tuple[str, ...]] = {
    "check": ("check", "--output-format", "lines", "s"),
    "rules": ("check", "--rules", "--output-format", "lines", "s"),
    "fix": ("check", "--fix", "s"),
    "format": ("format", "--canonical", "s"),
    "format alone": ("format", "--canonical", "--jobs", "1", "s"),
    "format stdin": ("format", "-"),
    "show": ("show", "-o", "page.html", "s"),
    "show folder": ("show", "-o", "pages/", "s"),
    "index": ("index", "s"),
    "find": ("find", "--text", "e", "s"),
    "neumes": ("neumes", "--jobs", "4", "s"),
    "server": ("server",),
    "explain": ("explain", "--all"),
    "version": ("version",),
}
_NEED = {
    "check text": (("check", "s"), "rich"),
    "export": (("export", "--to", "midi", "--folder", "midi", "s"), "mido"),
    "page": (("page",), "uvicorn"),
    "watch": (("show", "--watch", "-o", "page.html", "s"), "watchdog"),
}
# A process begins when the one that made it has ended already, and prints a line if it goes on.
_ORPHAN = """
import os, time
from multiprocessing import get_context
from gregorio_chant.work.ending import end_with_parent
def outlive(parent):
    while os.getppid() == parent:
        time.sleep(0.001)
    end_with_parent()
    print("it goes on", flush=True)
get_context("fork").Process(target=outlive, args=(os.getpid(),)).start()
os._exit(0)
"""
# Signals come when all is done, while a thread is still there that blocks none.
_LATE = """
import os, signal, threading
from gregorio_chant.work.ending import end_at_signals, leave_signals
end_at_signals()
threading.Thread(target=threading.Event().wait, daemon=True).start()
leave_signals()
for it in (signal.SIGINT, signal.SIGTERM, signal.SIGHUP):
    os.kill(os.getpid(), it)
"""
# The bit of SIGTERM in the masks of /proc.
_TERM = 1 << (signal.SIGTERM - 1)


def catches_signals(process: subprocess.Popen[bytes]) -> bool:
    """Returns whether the process is so far that a signal does what the command wants: before that,
    Python itself begins."""
    status = Path(f"/proc/{process.pid}/status").read_text(encoding="ascii")
    return bool(int(status.partition("SigCgt:")[2].split()[0], 16) & _TERM)


@unittest.skipUnless(sys.platform == "linux", "it looks into /proc")
class Signals(InFolder):
    def setUp(self) -> None:
        super().setUp()
        self.chance = random.Random(83)
        os.mkdir("midi")
        self.fill()

    def fill(self) -> None:
        for number in range(80):
            self.put(f"s/{number:03}.gabc", FAULTY.replace(" ", "  ") if number % 4 == 0 else SCORE)

    def interrupt(self, words: tuple[str, ...], number: signal.Signals, wait: float) -> float:
        """Sends a signal so long after the command has begun, and looks at what is left. Returns
        how long the command went on, in seconds; 0 if it had done all before."""
        run = subprocess.Popen(
            [sys.executable, "-m", "gregorio_chant", *words],
            stdin=subprocess.PIPE,
            stdout=subprocess.DEVNULL,
            stderr=subprocess.PIPE,
            start_new_session=True,
        )
        while run.poll() is None and not catches_signals(run):
            time.sleep(0.001)
        time.sleep(wait)
        begin = time.monotonic()
        if number is signal.SIGINT:
            os.killpg(run.pid, number)
        else:
            run.send_signal(number)
        _, told = run.communicate(timeout=60)
        seconds = time.monotonic() - begin
        self.assertNotIn(b"Traceback", told, words)
        self.assertNotIn(b"Exception", told, words)
        if run.returncode not in (0, 1, 4):
            self.assertEqual(run.returncode, 128 + number, (words, wait, told))
        else:
            seconds = 0.0
        end = time.monotonic() + MOST_TO_GO
        while (left := processes_of(run.pid)) and time.monotonic() < end:
            time.sleep(0.01)
        self.assertEqual(left, [], words)
        self.check_files()
        return seconds

    def check_files(self) -> None:
        for it in Path(".").rglob("*"):
            self.assertFalse(it.name.startswith(".gregorio-chant."), it)
            if it.suffix == ".html":
                self.assertTrue(it.read_text(encoding="utf-8").rstrip().endswith("</html>"), it)
            elif it.suffix == ".mid":
                self.assertEqual(it.read_bytes()[-3:], b"\xff\x2f\x00", it)
            elif it.suffix == ".gabc":
                self.assertIn(it.read_text(encoding="utf-8")[-1:], "\n", it)
        self.assertLessEqual(
            {it.read_text(encoding="utf-8") for it in Path("s").glob("*.gabc")}
            - {SCORE, CANONICAL},
            _FAULTY,
        )

    def try_all(self, words: tuple[str, ...]) -> None:
        for moment in range(MOMENTS):
            wait = self.chance.uniform(0, 0.6) if moment else self.chance.uniform(0, 0.05)
            number = signal.SIGINT if moment % 2 == 0 else signal.SIGTERM
            self.assertLess(min(self.times(words, number, wait)), PATIENCE, (words, wait))

    def times(self, words: tuple[str, ...], number: signal.Signals, wait: float) -> Iterator[float]:
        """Yields how long the command went on each time that it was interrupted so, until that is
        soon enough."""
        for _ in range(TRIES):
            self.fill()
            seconds = self.interrupt(words, number, wait)
            yield seconds
            if seconds < PATIENCE:
                return

    def test_commands(self) -> None:
        for name, words in _COMMANDS.items():
            with self.subTest(name):
                self.try_all(words)

    def test_commands_that_stand_on_packages(self) -> None:
        for name, (words, package) in _NEED.items():
            if has(package):
                with self.subTest(name):
                    self.try_all(words)

    def ran(self, script: str) -> tuple[int, bytes, bytes]:
        """Runs a script, and returns its status, and what it and the processes that it made wrote,
        once all have ended."""
        run = subprocess.run([sys.executable, "-c", script], capture_output=True, timeout=60)
        return run.returncode, run.stdout, run.stderr

    def test_parent_that_has_ended(self) -> None:
        """A process ends with the one that made it, also if it begins only after that."""
        self.assertEqual(self.ran(_ORPHAN), (0, b"", b""))

    def test_after_everything(self) -> None:
        """Once all is done no signal changes the status."""
        self.assertEqual(self.ran(_LATE), (0, b"", b""))

    def test_before_anything(self) -> None:
        """SIGTERM ends the command also while Python begins, and what was ignored is ignored."""
        run = subprocess.Popen(
            [sys.executable, "-m", "gregorio_chant", "server"],
            stdin=subprocess.PIPE,
            stderr=subprocess.PIPE,
        )
        run.terminate()
        self.assertEqual(
            (
                run.communicate(timeout=60)[1],
                run.returncode in (-signal.SIGTERM, 128 + signal.SIGTERM),
            ),
            (b"", True),
        )
        ignored = signal.signal(signal.SIGINT, signal.SIG_IGN)
        try:
            run = subprocess.Popen(
                [sys.executable, "-m", "gregorio_chant", "format", "-"],
                stdin=subprocess.PIPE,
                stdout=subprocess.PIPE,
            )
        finally:
            signal.signal(signal.SIGINT, ignored)
        while run.poll() is None and not catches_signals(run):
            time.sleep(0.001)
        run.send_signal(signal.SIGINT)
        self.assertEqual(run.communicate(SCORE.encode())[0], SCORE.encode())


# What stands in a faulty score: as it was, formatted, and repaired.
_FAULTY = {FAULTY.replace(" ", "  "), FAULTY}


if __name__ == "__main__":
    unittest.main()
