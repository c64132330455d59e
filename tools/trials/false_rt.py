"""A small repository in a path with blanks, with the project's own scripts, and a false `rt`, so
that nothing is proved."""

from __future__ import annotations

import os
import shutil
import subprocess
import time
from pathlib import Path
from typing import NamedTuple

from house.files import ROOT

HERE = Path(__file__).resolve().parent
LISTED = """\
# crates in no order
gregorio_cli: low middle
aside: low
middle: low memchr
low:
gregorio_c staticlib: middle
"""
COPIED = ["bin/gregorio", "docs/gregorio.1"]
COPIED += ["tools/crates.bash", "tools/check_canonical", "tools/origin.bash", "tools/archive.bash"]
COPIED += ["tools/build_c", "tools/quick_test"]
# What scripts do not get of the surroundings: by the second they would find the project's modules.
UNSET = ("CDPATH", "PYTHONPATH")
# What a build of the program asks of `rt`.
BUILD = ["lib low", "lib middle", "run gregorio_cli"]


class Said(NamedTuple):
    """What a script asked of `rt`, its exit status, and what it wrote."""

    calls: list[str]
    status: int
    out: str
    messages: str


class FalseRepository:
    """The repository, in the folder `top` below `room`. What is not set by `touch` is old."""

    def __init__(self, room: Path) -> None:
        self.room, self.top = room, room / "a path  with blanks"
        for name in COPIED:
            self.put(name, "")
            shutil.copy(os.path.join(ROOT, name), self.top / name)
        self.put("crates.txt", LISTED)
        for crate in ("gregorio_cli", "gregorio_c", "aside", "middle", "low"):
            self.put(f"crates/{crate}/src/lib.rt", f"// {crate}\n")
            self.put(f"crates/{crate}/specs/Lib.antt", f"-- {crate}\n")
        self.put("crates/low/proofs/inner/Lemma.antt", "-- a lemma\n")
        self.put_script("../tools/rt", (HERE / "false_rt.bash").read_text())
        self.wrapper = str(self.top / "bin" / "gregorio")
        self.make_old()

    def put(self, name: str, text: str) -> None:
        """Writes a file of the repository."""
        path = self.top / name
        path.parent.mkdir(parents=True, exist_ok=True)
        path.write_text(text)

    def put_script(self, name: str, text: str) -> None:
        """Writes a script of the repository."""
        self.put(name, text)
        (self.top / name).chmod(0o755)

    def set(self, name: str, text: str = "") -> None:
        """Writes a file of those that say what the false `rt` does."""
        (self.room / name).write_text(text)

    def unset(self, name: str) -> None:
        """Removes such a file."""
        (self.room / name).unlink()

    def make_old(self) -> None:
        """Makes all files and folders of the repository an hour old."""
        then = time.time() - 3600
        for path in (self.top, *self.top.rglob("*")):
            os.utime(path, (then, then))

    def touch(self, *names: str) -> None:
        """Makes files newer than all that is built."""
        time.sleep(0.02)
        for name in names:
            (self.top / name).touch()

    def run(self, path: str, *words: str, folder: Path | None = None, **settings: str) -> Said:
        """Runs a script with these words and the input `input`, in this folder, or one that is none
        of the repository."""
        self.set("calls")
        kept = {name: it for name, it in os.environ.items() if name not in UNSET}
        found = f"{self.room}/tools:{os.environ['PATH']}"
        surroundings = {**kept, "ROOM": str(self.room), "PATH": found, **settings}
        with open(self.room / "messages", "wb") as messages:
            ran = subprocess.run(
                [path, *words],
                cwd=folder or self.room,
                env=surroundings,
                input=b"input\n",
                stdout=subprocess.PIPE,
                stderr=messages,
                timeout=100,
            )
        calls = (self.room / "calls").read_text().splitlines()
        told = (self.room / "messages").read_text()
        return Said(calls, ran.returncode, ran.stdout.decode(), told)

    def run_wrapper(self, *words: str, **settings: str) -> Said:
        """Runs the wrapper from elsewhere."""
        return self.run(self.wrapper, *words, folder=None, **settings)
