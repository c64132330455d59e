"""Runs of built programs, and the libraries that they are started with."""

from __future__ import annotations

import os
import shutil
import subprocess
import sys
from pathlib import Path
from typing import NamedTuple

import pytest
from house.files import ROOT, crates_folder, files_below

# What the program says before it ends with status 4.
CANNOT_READ, CANNOT_WRITE = b"gregorio: cannot read\n", b"gregorio: cannot write\n"
# The words by which standard input is written in canonical form.
GABC = ("-F", "gabc", "-s")
# A score of about 300 kB in canonical form.
LONG_SCORE = b"%%\n" + b"Ky(f)ri(gfg)e(e.)\n" * 16000


class Ran(NamedTuple):
    """The exit status of a run, and the bytes of its standard output and standard error."""

    status: int
    output: bytes
    messages: bytes


def ran_of(ended: subprocess.CompletedProcess[bytes]) -> Ran:
    """Returns what came of a process whose ends were kept."""
    return Ran(ended.returncode, ended.stdout, ended.stderr)


def numbers_of(report: str) -> list[int]:
    """Returns the numbers of a file that a preloaded library wrote: each has a name before it."""
    with open(report, encoding="ascii") as it:
        return [int(word) for word in it.read().split()[1::2]]


def place_of(crate: str) -> str:
    """Returns the path where the program of a crate stands once it is built."""
    return os.path.join(crates_folder(ROOT), crate, "out", crate)


def built(crate: str) -> str:
    """Returns the path of the program of a crate. Builds it first if it is not built, or a source
    of the crate is newer. No more is tried if it cannot be built."""
    folder, program = os.path.join(crates_folder(ROOT), crate), place_of(crate)
    times = [os.path.getmtime(it) for it in files_below(os.path.join(folder, "src"))]
    if not os.path.exists(program) or max(times) > os.path.getmtime(program):
        print(f"building {crate}", file=sys.stderr, flush=True)
        none = subprocess.DEVNULL
        subprocess.run(["rt", "run"], cwd=folder, stdin=none, stdout=none, stderr=none)
    if not os.path.exists(program):
        pytest.exit(f"{crate} is not built", 1)
    return program


def preloaded(name: str, folder: Path) -> str:
    """Compiles the library `tools/preload/NAME.c` into a folder, and returns its path. Skips what
    wants it if there is no C compiler."""
    compiler = os.environ.get("CC", "cc")
    if not shutil.which(compiler):
        pytest.skip("there is no C compiler")
    library = str(folder / f"{name}.so")
    flags = ["-std=gnu11", "-Wall", "-Wextra", "-Werror", "-O1", "-shared", "-fPIC"]
    source = os.path.join(ROOT, "tools", "preload", f"{name}.c")
    subprocess.run([compiler, *flags, "-o", library, source], check=True)
    return library
