"""Lists the proofs of a crate that `grind` finds from the lemmas that they name: those of more than
one line, in crates/CRATE/proofs.

Usage: tools/shorten_proofs [--write] CRATE [FILE ..]
  FILE is a path below the crate's proofs/, as order/FindingsLieWithin.antt

A proof is tried as a whole, and that of an induction clause by clause, with the calls of itself as
they stand. What is tried stands in a copy of the declaration beside it, under another name: so all
is tried in one check, and what is refused stops nothing else. The crate has to be proved; the check
takes over what earlier ones kept. Nothing may be edited meanwhile, and the files are put back as
they were.

With --write the shorter proofs are put in. `tools/believe --check-dead` then names the lemmas that
only the longer ones needed, `rt tidy` drops imports, and `rt check` has to prove the crate again.

Prints a line for each proof, with the lines that it saves, and last how many were tried and what
they save. The status is 0 where the check ran, else 2."""

from __future__ import annotations

import os
import re
import sys

from house.files import ROOT, crates_folder, read, write
from house.kit import run_rt
from house.shorter import CrateProofs, Trial, with_arith, with_copies

WIDTH = 150
USAGE = "Usage: tools/shorten_proofs [--write] CRATE [FILE ..]"
_TOLD = re.compile(r"(?m)^(?:\./)?(proofs/\S+?\.antt):(\d+):\d+: (?:error|note: `\w+` has chosen)")


def check(folder: str) -> dict[str, set[int]]:
    """Checks the crate, and returns the lines of its proofs, from 1, at which something is refused,
    or a tactic has chosen a value."""
    ran = run_rt("check", "--allow-holes", folder=folder)
    said = ran.stdout + ran.stderr
    if "modules loaded=" not in said:
        sys.stderr.write(said[-2000:])
        raise SystemExit(2)
    found: dict[str, set[int]] = {}
    for path, line in _TOLD.findall(said):
        found.setdefault(os.path.join(folder, path), set()).add(int(line))
    return found


def refused_among(
    folder: str, texts: dict[str, str], trials: dict[str, list[Trial]]
) -> tuple[dict[str, list[Trial]], set[str]]:
    """Returns those trials that the prover refuses, for each file, and the files that it did not
    read, or does not take without them either."""
    spans: dict[str, list[tuple[int, int]]] = {}
    try:
        for path, some in trials.items():
            written, spans[path] = with_copies(texts[path].split("\n"), some)
            write(path, "\n".join(written))
        refused = check(folder)
    finally:
        for path in trials:
            write(path, texts[path])
    found: dict[str, list[Trial]] = {}
    unread = set(refused) - set(trials)
    for path, some in trials.items():
        lines = refused.get(path, set())
        ranges = [set(range(first, last + 1)) for first, last in spans[path]]
        found[path] = [it for it, own in zip(some, ranges) if lines & own]
        if lines.difference(*ranges):
            unread.add(path)
    return found, unread


def tried(crate: CrateProofs) -> tuple[int, dict[str, list[Trial]]]:
    """Returns how many proofs were tried, and for each file those that the prover takes. An error
    can hide others, in its file and in what rests on it: so all are tried again without what was
    refused, until nothing is."""
    texts = {it.path: read(it.path) for it in crate.files}
    trials: dict[str, list[Trial]] = {}
    for file in crate.files:
        found = crate.trials(file, texts[file.path].split("\n"))
        some = [it for it in found if len(it.line) <= WIDTH]
        if some:
            trials[file.path] = some
    number = sum(map(len, trials.values()))
    while True:
        refused, unread = refused_among(crate.folder, texts, trials)
        for path in unread & set(trials):
            if not refused[path]:
                name = os.path.relpath(path, crate.folder)
                print(f"shorten_proofs: {name} is left out: it is not proved", file=sys.stderr)
                refused[path] = trials[path]
        if not any(refused.values()):
            if unread:
                raise SystemExit("shorten_proofs: the crate is not proved")
            return number, trials
        for path, some in refused.items():
            trials[path] = [it for it in trials[path] if it not in some]


def put_in(path: str, trials: list[Trial]) -> None:
    """Puts the shorter proofs into a file."""
    lines = read(path).split("\n")
    for it in sorted(trials, key=lambda it: -it.begin):
        lines[it.begin : it.end] = [it.line]
    write(path, "\n".join(with_arith(lines)))


def main(words: list[str], root: str = ROOT) -> int:
    """Does what these arguments say for the repository at `root`, and returns the exit status."""
    names = [it for it in words if it != "--write"]
    is_named = names and not names[0].startswith("-")
    if not is_named or not os.path.isdir(os.path.join(crates_folder(root), names[0])):
        print(USAGE, file=sys.stderr)
        return 2
    crate = CrateProofs(root, names[0], names[1:])
    number, taken = tried(crate)
    for path, trials in taken.items():
        for it in trials:
            where = f"{os.path.relpath(path, crate.folder)}:{it.begin + 1}"
            name = it.declaration.name
            print(f"{where}: {name} is shorter by {it.saved()}: {it.line.strip()}")
        if trials and "--write" in words:
            put_in(path, trials)
    saved = [it.saved() for trials in taken.values() for it in trials]
    print(f"{number} proofs tried, {len(saved)} are shorter, by {sum(saved)} lines")
    return 0


if __name__ == "__main__":
    sys.exit(main(sys.argv[1:]))
