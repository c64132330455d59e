"""The command `rt` of the Rattle kit: run as a command, and its own modules, by which it calls the
prover and shares the processors."""

from __future__ import annotations

import importlib.machinery
import os
import shutil
import subprocess
import sys
import types
from typing import Any, Protocol


class Crate(Protocol):
    """What these tools ask of a crate, as the kit's `rt` has it. What builds it returns an exit
    status."""

    name: str
    folder: str
    rlib: str

    def below(self) -> list[Crate]:
        """Returns the crates on which it stands."""

    def count(self, part: bytes) -> int:
        """Returns how often the bytes stand in its sources."""

    def call(self, *words: str) -> int:
        """Calls the prover."""

    def build_rlib(self, flags: list[str], anew: bool) -> int:
        """Builds it as a library of statements."""

    def build_static(self, flags: list[str]) -> int:
        """Proves it, and builds it as a static library."""


def run_rt(*words: str, folder: str | None = None) -> subprocess.CompletedProcess[str]:
    """Runs `rt` with these words, in this folder, and keeps what it says."""
    return subprocess.run(["rt", *words], cwd=folder, capture_output=True, text=True)


def version() -> str:
    """Returns the kit's own line. Raises `CalledProcessError`."""
    ran = run_rt("version")
    ran.check_returncode()
    return ran.stdout.strip()


def load(name: str) -> Any:
    """Loads the kit's `rt` as a module of this name. Ends if it is not on the path."""
    path = os.path.realpath(shutil.which("rt") or sys.exit("house: rt is not on the path"))
    module = types.ModuleType(name)
    module.__file__ = path
    importlib.machinery.SourceFileLoader(name, path).exec_module(module)
    module.rtlib.guarded()
    return module


def crate_named(rt: Any, root: str, name: str) -> Crate:
    """Returns the crate of this name of the repository at `root`, by the kit's `rt`."""
    found: Crate = next(it for it in rt.rtlib.crates_below(root) if it.name == name)
    return found
