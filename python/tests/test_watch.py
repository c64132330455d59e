"""Tries `show --watch`: it writes again when what is shown changes, and not when anything else
does."""
from __future__ import annotations

import os
import signal
import subprocess
import sys
import threading
import time
import unittest
from collections.abc import Callable
from pathlib import Path

from support import FAULTY, SCORE, InFolder, command, has, without

# How long a page may take on a busy machine, and how long nothing has to come that it is still, in
# seconds.
MOST_TIME = 120.0
QUIET = 0.6


@unittest.skipUnless(has("watchdog"), "there is no watchdog")
class Watching(InFolder):
    def watch(self, *words: str) -> None:
        """Starts the command, and waits until it has written."""
        self.running = subprocess.Popen(
            [sys.executable, "-m", "gregorio_chant", "show", "--watch", *words],
            stdout=subprocess.PIPE,
            stderr=subprocess.PIPE,
        )
        self.addCleanup(self.stop)
        self.told: list[str] = []
        self.reader = threading.Thread(target=self._read)
        self.reader.start()
        self.wait("wrote")

    def _read(self) -> None:
        assert self.running.stderr is not None
        self.told += (
            line.decode().removeprefix("gregorio-chant: ").rstrip("\n")
            for line in iter(self.running.stderr.readline, b"")
        )

    def stop(self) -> None:
        """Ends it as Control-C does."""
        self.running.send_signal(signal.SIGINT)
        self.assertEqual(self.running.wait(60), 130)
        self.reader.join(60)
        for it in (self.running.stdout, self.running.stderr):
            assert it is not None
            it.close()

    def wait(self, begin: str) -> str:
        """Waits for a line that begins so, forgets it and those before it, and returns it."""
        end = time.monotonic() + MOST_TIME
        while True:
            for at, it in enumerate(self.told):
                if it.startswith(begin):
                    del self.told[: at + 1]
                    return it
            self.assertLess(time.monotonic(), end, self.told)
            time.sleep(0.02)

    def await_page(self, is_so: Callable[[str], bool], page: str = "page.html") -> None:
        """Waits until a page is so. One change of a file is told in several pieces: if they come
        apart, the page is written once for each, and the first time perhaps before all is there."""
        end = time.monotonic() + MOST_TIME
        while not is_so(text := Path(page).read_text()):
            self.assertLess(time.monotonic(), end, (text, self.told))
            time.sleep(0.02)

    def calm(self) -> None:
        """Waits until what came before has been written, also the later pieces of a change, and
        forgets what was told of it."""
        before = -1
        while before != len(self.told):
            before = len(self.told)
            time.sleep(QUIET)
        self.told.clear()

    def assert_still(self) -> None:
        time.sleep(QUIET)
        self.assertEqual(self.told, [])

    def test_file(self) -> None:
        """A score that is written, or put in the place of the old one, is shown anew; other files
        change nothing, and if there is no score the page stays."""
        self.put("a.gabc", SCORE)
        self.watch("-o", "page.html", "a.gabc")
        self.assertEqual(Path("page.html").read_bytes(), command("show", "a.gabc").stdout)
        self.put("a.gabc", FAULTY)
        self.wait("wrote page.html")
        shown = command("show", "a.gabc").stdout.decode()
        self.assertIn("left out of the notes", shown)
        self.await_page(lambda page: page == shown)
        self.put("beside", SCORE)
        os.replace("beside", "a.gabc")
        self.await_page(lambda page: "Nothing was found" in page)
        self.calm()
        self.put("b.gabc", FAULTY)
        self.put("other.txt", "x")
        Path("a.gabc").read_bytes()
        self.assert_still()
        os.unlink("a.gabc")
        self.wait("cannot read a.gabc")
        self.assert_still()
        self.assertIn("Nothing was found", Path("page.html").read_text())
        self.put("a.gabc", FAULTY)
        self.wait("wrote")
        self.await_page(lambda page: "left out of the notes" in page)

    def test_link(self) -> None:
        self.put("in/a.gabc", SCORE)
        Path("a.gabc").symlink_to("in/a.gabc")
        self.watch("--svg", "-o", "a.svg", "a.gabc")
        self.put("in/a.gabc", FAULTY)
        self.wait("wrote a.svg")
        self.await_page(lambda picture: "E1" in picture, "a.svg")

    def test_folder(self) -> None:
        """Scores that come and go below a folder count, and its own pages do not."""
        self.put("scores/a.gabc", SCORE)
        self.watch("-o", "scores/pages/", "scores")
        self.assert_still()
        self.put("scores/in/b.gabc", FAULTY)
        self.wait("wrote")
        self.await_page(lambda index: "b.gabc" in index, "scores/pages/index.html")
        Path("scores/in").rename("gone")
        self.wait("1 file: nothing found")
        self.await_page(lambda index: "b.gabc" not in index, "scores/pages/index.html")

    def test_settings(self) -> None:
        """Settings are read anew; what is wrong in them is told, and it goes on."""
        self.put("a.gabc", FAULTY)
        self.watch("-o", "page.html", "a.gabc")
        self.put("gregorio-chant.toml", "ignore = ['E1']\n")
        self.wait("wrote")
        self.await_page(lambda page: "Nothing was found" in page)
        self.put("gregorio-chant.toml", "ignor = ['E1']\n")
        self.assertIn("ignor: unknown key", self.wait(str(Path("gregorio-chant.toml").resolve())))
        self.put("gregorio-chant.toml", "")
        self.wait("wrote")
        self.await_page(lambda page: "Nothing was found" not in page)


class Words(InFolder):
    @unittest.skipUnless(has("watchdog"), "there is no watchdog")
    def test_refused(self) -> None:
        self.put("a.gabc", SCORE)
        for words in (
            ("a.gabc",),
            ("-o", "page.html", "-"),
            ("-o", "page.html"),
            ("-o", "a.gabc", "a.gabc"),
        ):
            self.assertEqual(
                command("show", "--watch", *words, data=SCORE.encode()).returncode, 3, words
            )
        self.assertEqual(command("show", "--watch", "-o", "page.html", "no/a.gabc").returncode, 4)
        self.assertEqual(Path("a.gabc").read_text(), SCORE)

    @unittest.skipUnless(has("watchdog"), "there is no watchdog")
    def test_missing(self) -> None:
        self.put("a.gabc", SCORE)
        ran = command(
            "show",
            "--watch",
            "-o",
            "page.html",
            "a.gabc",
            environment=without(self.room, "watchdog"),
        )
        told = (
            b"gregorio-chant: show --watch needs the package watchdog: apt install python3-watchdog"
            b" in Debian, else pip install watchdog\n"
        )
        self.assertEqual((ran.returncode, ran.stdout, ran.stderr), (3, b"", told))


if __name__ == "__main__":
    unittest.main()
