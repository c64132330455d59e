"""Proves and builds the library for C, and keeps the module of LLVM that it is compiled of beside
it. The prover is called as for the library alone, with a folder of the kit's compilers whose
`clang` keeps the module before it compiles it.

As a program: `library_module.py FILE JOBS`, by its whole path. Up to JOBS modules of the proof are
checked side by side. The status is 0 if the library stands, and FILE is its module; else 1."""

from __future__ import annotations

import os
import shutil
import sys
import tempfile

from house.files import ROOT
from house.gate_libraries import are_built
from house.kit import Crate, crate_named, load

CRATE = "gregorio_c"
_CLANG = """#!/bin/sh
[ ! -e module.bc ] || cp -- module.bc "{module}" || exit
exec "{kit}/toolchain/bin/clang" "$@"
"""


def stand_in(kit: str, folder: str, module: str) -> str:
    """Makes a folder of the kit's compilers whose `clang` copies the module that it is given to
    this file first, and returns its path."""
    made = os.path.join(folder, "toolchain")
    os.makedirs(f"{made}/bin")
    os.symlink(f"{kit}/toolchain/lib", f"{made}/lib")
    for name in os.listdir(f"{kit}/toolchain/bin"):
        if name != "clang":
            os.symlink(f"{kit}/toolchain/bin/{name}", f"{made}/bin/{name}")
    with open(f"{made}/bin/clang", "w", encoding="utf-8") as it:
        it.write(_CLANG.format(kit=kit, module=module))
    os.chmod(f"{made}/bin/clang", 0o755)
    return made


def build(crate: Crate, kit: str, module: str, jobs: str) -> bool:
    """Proves and builds the library's archive by the stand-in, `jobs` modules of the proof side by
    side, and returns whether both stand."""
    call = crate.call
    with tempfile.TemporaryDirectory() as folder:
        compilers = stand_in(kit, folder, module)

        def call_of_stand_in(*given: str) -> int:
            return call(*(compilers if it == f"{kit}/toolchain" else it for it in given))

        setattr(crate, "call", call_of_stand_in)
        return not crate.build_static(["--jobs", jobs]) and os.path.exists(module)


def main(words: list[str]) -> int:
    """Proves and builds the library, writes its module into the file, and returns the exit
    status."""
    file, jobs = words
    rt = load("rt")
    crate = crate_named(rt, ROOT, CRATE)
    with tempfile.TemporaryDirectory() as folder:
        made = f"{folder}/module.bc"
        if not (are_built(crate, True) and build(crate, rt.rtlib.KIT, made, jobs)):
            return 1
        shutil.move(made, file)
    return 0


if __name__ == "__main__":
    sys.exit(main(sys.argv[1:]))
