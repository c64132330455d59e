"""Proves and builds a program, and runs it in the folder of its crate, as `rt run` does. That keeps
the folders of the crates below to itself, so that nothing else that uses one could run beside it.
Here these are left to others once they are built.

As a program: `row_program.py NAME JOBS`, where NAME is the crate. Up to JOBS modules of the proof
are checked side by side. The status is 0 if the program is proved and built, else 1: what its run
says does not count, since its data do not lie where it runs."""

from __future__ import annotations

import os
import sys
from typing import Protocol, cast

from house.files import ROOT
from house.gate_libraries import are_built
from house.kit import Crate, crate_named, load


class Program(Crate, Protocol):
    """A crate that is a program."""

    # The folders that it keeps to itself until it is built.
    held: list[int]

    def run(self, flags: list[str], arguments: list[str]) -> int:
        """Proves and builds it, runs it with the arguments, and returns an exit status."""


def main(words: list[str]) -> int:
    """Proves, builds and runs the program, after which a stamp is there if it is proved and built.
    Returns the exit status."""
    name, jobs = words
    crate = cast(Program, crate_named(load("rt"), ROOT, name))
    if not are_built(crate, False):
        return 1
    os.makedirs(f"{crate.folder}/out", exist_ok=True)
    crate.held = []
    crate.run(["--jobs", jobs], [])
    return not os.path.exists(f"{crate.folder}/out/{name}.stamp")


if __name__ == "__main__":
    sys.exit(main(sys.argv[1:]))
