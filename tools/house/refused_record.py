"""The record of the wrong bodies that the prover has refused: `crates/CRATE/wrong_bodies.lock`, for
`tools/try_wrong_bodies`, which alone writes it.

A line of the record stands for a batch of edits that were all refused: a checksum, how many edits
the batch has, the name of the first, and the kits by which they were refused. The checksum is that
of all on which the verdicts rest: the edits; what the proofs of the crate rest on (`resting`); the
lines of `crates.txt` of the crate and of those below it. If one of these changes, or for another
kit, the line says nothing, and the batch is tried again. A kit that a line names stays there: two
machines with two kits keep one record.

A record can be wrong: somebody may have written it by hand. So each run also tries one batch that
the record has, and which one it is hangs on all sources and edits of the tree (`drawn`)."""

from __future__ import annotations

import hashlib
import os
from collections.abc import Iterable, Sequence
from typing import TypeVar

from house.edits import Edit
from house.files import crate_lines, files_below
from house.kit import Crate
from house.resting import Resting

NAME = "wrong_bodies.lock"
# The number of the way in which a verdict is found. Whoever changes what counts as refused gives it
# the next one.
WAY = 2
HEAD = (
    "# Written by tools/try_wrong_bodies: batches of edits that were all refused, each by the"
    " checksum of what that rests on, and by which kits. Not to be edited.\n"
)
It = TypeVar("It")


def sum_of(parts: Iterable[str | bytes]) -> str:
    """Returns the checksum of the texts, each with its length before it, so that no two lists of
    texts have the same one by being joined."""
    total = hashlib.sha256()
    for part in parts:
        part = part if isinstance(part, bytes) else part.encode()
        total.update(b"%d:" % len(part) + part)
    return total.hexdigest()


def sum_of_files(root: str, folder: str, names: Iterable[str]) -> str:
    """Returns the checksum of the files with these names in the folder, and below them, by their
    paths from `root`."""
    parts: list[str | bytes] = []
    for name in names:
        own = f"{folder}/{name}"
        for path in [own] if os.path.isfile(own) else sorted(files_below(own)):
            with open(path, "rb") as file:
                parts += [os.path.relpath(path, root), file.read()]
    return sum_of(parts)


class Sums:
    """The checksums of the crates of a repository, by which its records are kept. `kit` is the
    kit's own line."""

    def __init__(self, root: str, kit: str) -> None:
        self.root, self.kit = root, kit
        # The kit's name: the first word of its line.
        self.name = kit.split()[0]
        self._lines = crate_lines(root)
        self._resting = Resting(root)
        self._whole: dict[str, str] = {}
        self._rested: dict[str, str] = {}

    def of_crate(self, crate: Crate) -> str:
        """Returns the checksum of the sources of the crate, without the crates below it."""
        if crate.name not in self._whole:
            files = sum_of_files(self.root, crate.folder, ("src", "specs", "proofs"))
            parts = [crate.name, self._lines.get(crate.name, ""), files]
            self._whole[crate.name] = sum_of(parts)
        return self._whole[crate.name]

    def of_resting(self, crate: Crate) -> str:
        """Returns the checksum of what the proofs of the crate rest on."""
        if crate.name not in self._rested:
            below = sorted(it.name for it in crate.below())
            lines = [f"{it}:{self._lines.get(it, '')}" for it in [crate.name, *below]]
            files = [part for file in self._resting.of(crate.name, below) for part in file]
            self._rested[crate.name] = sum_of([*lines, *files])
        return self._rested[crate.name]

    def of_batch(self, crate: Crate, batch: Sequence[Edit]) -> str:
        """Returns the checksum of all on which the verdicts on a batch of edits of the crate
        rest."""
        edits = sorted(repr((it.key, it.file, it.within, it.by, it.pairs)) for it in batch)
        return sum_of([str(WAY), self.of_resting(crate), *edits])

    def of_tree(self, crates: Iterable[Crate]) -> str:
        """Returns the checksum of these crates with their edits."""
        all_crates, name = list(crates), "wrong_bodies.toml"
        with_edits = [it for it in all_crates if os.path.isfile(f"{it.folder}/{name}")]
        edits = [sum_of_files(self.root, it.folder, (name,)) for it in with_edits]
        return sum_of([self.kit, *(self.of_crate(it) for it in all_crates), *edits])


class Record:
    """The record of one crate: which of its batches were refused whole, as the sources are now."""

    def __init__(self, sums: Sums, crate: Crate) -> None:
        self.sums, self.crate, self.path = sums, crate, f"{crate.folder}/{NAME}"
        # The kits by which each batch was refused, by its checksum.
        self.kept: dict[str, set[str]] = {}
        if os.path.isfile(self.path):
            with open(self.path, encoding="utf-8") as file:
                lines = [it.split() for it in file if it.strip() and not it.startswith("#")]
            self.kept = {words[0]: set(words[3:]) for words in lines}

    def has(self, batch: Sequence[Edit]) -> bool:
        """Returns whether the record says that the batch was refused."""
        return self.sums.name in self.kept.get(self.sums.of_batch(self.crate, batch), ())

    def note(self, batch: Sequence[Edit], is_refused: bool) -> None:
        """Notes whether the whole batch was refused."""
        kits = self.kept.setdefault(self.sums.of_batch(self.crate, batch), set())
        (kits.add if is_refused else kits.discard)(self.sums.name)

    def write(self, batches: Iterable[Sequence[Edit]]) -> None:
        """Writes the record of these batches, all that the crate has: no line stays for what is no
        batch any more."""
        lines = []
        for batch in batches:
            of_batch = self.sums.of_batch(self.crate, batch)
            if kits := sorted(self.kept.get(of_batch, ())):
                lines.append(f"{of_batch} {len(batch)} {batch[0].key} {' '.join(kits)}\n")
        with open(self.path, "w", encoding="utf-8") as file:
            file.writelines([HEAD, *sorted(lines)])


def drawn(sums: Sums, crates: Iterable[Crate], batches: Sequence[It]) -> Sequence[It]:
    """Returns one of these batches, drawn by the checksum of the crates and their edits, in a list,
    or none if there is none."""
    at = int(sums.of_tree(crates), 16) % max(len(batches), 1)
    return batches[at : at + 1]
