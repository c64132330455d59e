"""Stands in for the kit's `rt` in the tests of wrong bodies: crates, and a prover that refuses what
it is told to refuse."""

from __future__ import annotations

import os
import subprocess
from collections.abc import Sequence
from types import SimpleNamespace
from typing import Any


class FalseCrate:
    """A crate of the repository at `root`, on top of others. Nothing of it is ever built."""

    def __init__(self, root: str, name: str, below: Sequence[FalseCrate] = ()) -> None:
        self.name, self.folder, self._below = name, f"{root}/crates/{name}", [*below]
        self.rlib = f"{self.folder}/out/rlib"

    def below(self) -> list[Any]:
        return self._below

    def count(self, part: bytes) -> int:
        return 1

    def call(self, *words: str) -> int:
        return 1

    def build_rlib(self, flags: list[str], anew: bool) -> int:
        return 1

    def build_static(self, flags: list[str]) -> int:
        return 1


class FalseKit:
    """Refuses an edit by the goal that `goals` gives for its new text, and a crate without edits
    unless it `is_proved`. `tried` has the new texts of each check."""

    def __init__(self, crates: list[FalseCrate]) -> None:
        self.goals: dict[str, str] = {}
        self.is_proved = True
        self.tried: list[list[str]] = []
        self.rtlib = SimpleNamespace(ALLOW_C="RT_ALLOW_C", crates_below=lambda root: crates)

    def checked(
        self, crate: Any, texts: dict[str, str], flags: list[str], kept: str
    ) -> subprocess.CompletedProcess[str]:
        assert os.path.isdir(kept)
        told = []
        for path, text in texts.items():
            for number, line in enumerate(text.split("\n"), 1):
                goal = self.goals.get(line.strip())
                if goal:
                    told.append(f"note: {path}:{number}:5: it is not proved (`{goal}`)")
        lines = [line.strip() for text in texts.values() for line in text.split("\n")]
        self.tried.append([it for it in lines if it.startswith("wrong")])
        is_refused = bool(told) or not texts and not self.is_proved
        said = "\n".join([*told, "logic=not-proved" if is_refused else "logic=proved"])
        return subprocess.CompletedProcess([], 1 if is_refused else 0, said, "")

    def need(self, crate: Any) -> float:
        return 1.0

    def in_lanes(self, tasks: dict[Any, Any]) -> dict[Any, list[str]]:
        return {key: run({}, 1) for key, (_, _, _, run) in tasks.items()}
