"""Tries the wrong bodies of a crate: many edits at once, and by itself what is not refused so."""

from __future__ import annotations

import os
import shutil
import subprocess
from typing import Any, Protocol

from house.edits import Edit, batches_of, edited, paths_of, write_clauses
from house.kit import Crate
from house.refused_record import Record, Sums, drawn
from house.verdicts import clause_of, refused_of, said_of_clause, signs_of

# How much of the memory of a crate's check one of its edited functions takes (measured: a third at
# most).
NEED = 0.35
# A crate's batch that may be tried.
Batch = tuple["Trial", list[Edit]]


class Prover(Protocol):
    """What is asked of the kit's `rt`."""

    def checked(
        self, crate: Crate, texts: dict[str, str], flags: list[str], kept: str
    ) -> subprocess.CompletedProcess[str]:
        """Checks a copy of the crate with these texts, over what `kept` holds."""

    def need(self, crate: Crate) -> float:
        """Returns the most memory that a check of the crate is likely to take, in bytes."""

    def in_lanes(self, tasks: dict[Any, Any]) -> dict[Any, list[str]]:
        """Runs tasks side by side, and returns what each gave."""


class Trial:
    """The edits of one crate, its record, and the folder of the work that is kept from one check to
    the next."""

    def __init__(
        self, rt: Prover, crate: Crate, edits: list[Edit], record: Record, kept: str
    ) -> None:
        self.rt, self.crate, self.record, self.kept = rt, crate, record, kept
        self.batches = batches_of([it for it in edits if not it.why])
        self.wanted = [it for it in self.batches if not record.has(it)]
        # The clauses by which each edit was refused.
        self.found: dict[Edit, list[str]] = {}
        self._proved: dict[tuple[str, ...], bool] = {}

    def run(self, is_new: bool) -> list[str]:
        """Tries the batches that are wanted, notes each in the record, and returns what to say of
        each edit that is not refused."""
        before = f"{self.crate.folder}/out/incremental"
        if not is_new and os.path.isdir(before):
            shutil.copytree(before, self.kept)
        else:
            os.makedirs(self.kept)
        wrong = []
        for batch in self.wanted:
            told = self._try_batch(batch) if batch[0].function else self._try_alone(batch[0])
            self.record.note(batch, not told)
            self.record.write(self.batches)
            wrong += told
        shutil.rmtree(self.kept)
        return wrong

    def _check(self, edits: list[Edit], paths: tuple[str, ...]) -> subprocess.CompletedProcess[str]:
        """Checks the crate with these edits, of its functions those at the paths and what they
        call."""
        only = [] if "lib" in paths else [word for it in paths for word in ("--only", it)]
        flags = ["--jobs", "1", *only]
        return self.rt.checked(self.crate, edited(self.crate, edits), flags, self.kept)

    def _try_batch(self, batch: list[Edit]) -> list[str]:
        """Tries a batch, then what it left as another, and what that leaves one by one. Returns
        what to say of each edit that is not refused."""
        ran = self._check(batch, paths_of(batch))
        refused = refused_of(batch, ran.stdout) if ran.returncode == 1 else {}
        self.found |= refused
        left = [it for it in batch if it not in refused]
        if refused and len(left) > 1:
            return self._try_batch(left)
        return [said for it in left for said in self._try_alone(it)]

    def _is_proved(self, paths: tuple[str, ...]) -> bool:
        if paths not in self._proved:
            self._proved[paths] = not self._check([], paths).returncode
        return self._proved[paths]

    def _try_alone(self, edit: Edit) -> list[str]:
        """Tries an edit by itself: it is refused where anything is that is proved without it."""
        paths = paths_of([edit])
        if not self._is_proved(paths):
            return [f"{edit.name}: not tried, since the crate itself is not proved"]
        ran = self._check([edit], paths)
        told = [clause_of(why) for _, why in signs_of(ran.stdout)]
        if ran.returncode == 1 and told:
            print(f"try_wrong_bodies: {edit.name}: refused by itself", flush=True)
            self.found[edit] = told
            return []
        said = "still proved"
        if ran.returncode:
            said = "not read by the prover, or a proof names what is no longer there"
        first = ran.stdout.split("\n")[:6]
        return ["\n".join([f"{edit.name}: not refused: {said}", *first])]


def trials_of(rt: Prover, sums: Sums, edits: dict[Crate, list[Edit]], room: str) -> list[Trial]:
    """Returns the trials of these edits, each with the batches that its record lacks; each keeps
    its work in a folder of its own in `room`."""
    return [
        Trial(rt, crate, those, Record(sums, crate), f"{room}/{crate.name}")
        for crate, those in edits.items()
    ]


def want_more(trials: list[Trial], sums: Sums, crates: list[Crate], is_all: bool) -> None:
    """Adds to what is wanted one more batch of all crates, or every one, and says what is not
    tried."""
    known = [(trial, it) for trial in trials for it in trial.batches if trial.record.has(it)]
    more = known if is_all else drawn(sums, crates, known)
    for trial, batch in more:
        trial.wanted.append(batch)
    left = sum(len(batch) for _, batch in known) - sum(len(batch) for _, batch in more)
    if left:
        names = ", ".join(batch[0].name for _, batch in more)
        print(
            f"try_wrong_bodies: {left} edits are not tried: their records say that they were"
            f" refused; tried in spite of its record: the batch of {names}",
            flush=True,
        )


def try_all(rt: Prover, trials: list[Trial], flags: set[str]) -> list[str]:
    """Tries the batches that are wanted, crates side by side, and returns what to say of each edit
    that is not refused."""

    def work_of(trial: Trial) -> Any:
        return lambda given, jobs: trial.run("--from-nothing" in flags)

    tasks: dict[tuple[str, str], tuple[list[str], int, float, Any]] = {}
    for trial in (it for it in trials if it.wanted):
        crate = trial.crate
        need = NEED * rt.need(crate)
        tasks[crate.name, "edits"] = [], crate.count(rb"\n"), need, work_of(trial)
    wrong = [said for told in rt.in_lanes(tasks).values() for said in told]
    found = [(edit, named) for trial in trials for edit, named in trial.found.items()]
    others = [said for edit, named in found for said in said_of_clause(edit, named)]
    for trial in trials if "--write" in flags else ():
        write_clauses(trial.crate, trial.found)
    if "--strict" in flags:
        return wrong + others
    for said in others:
        print(f"try_wrong_bodies: {said}", flush=True)
    return wrong
