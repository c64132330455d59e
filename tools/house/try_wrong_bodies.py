"""Tries the wrong bodies: edits of the code that the prover has to refuse, those of a crate in
`crates/CRATE/wrong_bodies.toml`.

Usage: tools/try_wrong_bodies [--all] [--from-nothing] [--strict] [--write] [CRATE ..]
       tools/try_wrong_bodies --check         says only which cannot be applied, and tries none

Tried are the batches of edits on which the record of the crate, `wrong_bodies.lock`, says nothing
as the sources are now, and one more that it has, drawn by the checksum of all sources and edits, so
that a record that is not true is found; with `--all` every one. The record is written anew: this
tool alone does that.

Each edit is a table with its name. `file` is the path below the crate, `in` names a function there,
if it stands, and `old` and `new` are texts or lists of as many texts. Each old text stands once in
the file, or in that function, and in no clause. `by` names the function or module that has to
refuse an edit of a table, which stands in no function: as `laws::NAME`. `refused` is the clause
that refuses it: a name of an `ensures`; `ensures` where it has none; `invariant` of a loop or a
type; `requires of NAME` at a call. Where the prover names others alone, a line says so, and with
`--strict` the edit fails. `--write` writes the first clause that the prover names where none
stands.

The edits of a crate are tried many at once, over what earlier checks kept, or with --from-nothing
over nothing but the libraries that the gate has built. A proof rests on the contracts of what a
function calls, and not on their bodies, so one edit cannot refuse another. No batch has two edits
in one function. An edit is refused where the prover says of its own function what is not proved. A
batch says something only where the prover reads it, and refuses nothing else. What is not refused
so, and what stands outside the body of a function, is tried by itself, where all is proved without
it. Checked are the functions that are edited, and what they call.

Prints a line for each edit that is not refused, and last how many were. The status is 0 where all
were, and 2 where nothing could be tried."""

from __future__ import annotations

import os
import sys
import tempfile

from house.edits import Edit, edits_of
from house.files import ROOT
from house.gate_libraries import are_built
from house.kit import Crate, load, version
from house.refused_record import Sums
from house.trials import trials_of, try_all, want_more

FLAGS = {"--all", "--from-nothing", "--strict", "--write", "--check"}


def tell(lines: list[str]) -> None:
    """Prints the lines as those of this tool."""
    for said in lines:
        print(f"try_wrong_bodies: {said}")


def check(edits: dict[Crate, list[Edit]], wrong: list[str]) -> int:
    """Says which edits cannot be applied, and returns the exit status."""
    tell(wrong)
    print(f"{sum(map(len, edits.values()))} edits, {len(wrong)} cannot be applied")
    return 1 if wrong else 0


def main(words: list[str], root: str = ROOT) -> int:
    """Does what these arguments say for the repository at `root`, and returns the exit status."""
    flags = {it for it in words if it.startswith("--")}
    if flags - FLAGS:
        sys.exit(__doc__)
    names = [it for it in words if it not in flags]
    os.chdir(root)
    rt = load("rt")
    os.environ.pop(rt.rtlib.ALLOW_C, None)
    crates: list[Crate] = rt.rtlib.crates_below(root)
    found = {it: edits_of(it) for it in crates if not names or it.name in names}
    edits = {crate: those for crate, those in found.items() if those}
    all_edits = [(it, edit) for it, those in edits.items() for edit in those]
    wrong = [f"{edit.name}: cannot be applied: {edit.why}" for _, edit in all_edits if edit.why]
    if "--check" in flags:
        return check(edits, wrong)
    with tempfile.TemporaryDirectory(prefix="wrong-bodies-") as room:
        sums = Sums(root, version())
        trials = trials_of(rt, sums, edits, room)
        want_more(trials, sums, crates, "--all" in flags)
        wanted = [it for it in trials if it.wanted]
        is_new = "--from-nothing" in flags
        lacking = [it.crate.name for it in wanted if not are_built(it.crate, is_new)]
        if lacking or not edits:
            below = " ".join(lacking)
            print(
                f"try_wrong_bodies: nothing tried: no edit, or no library below {below}",
                file=sys.stderr,
            )
            return 2
        tried = len(wrong) + sum(len(batch) for it in trials for batch in it.wanted)
        wrong += try_all(rt, trials, flags)
    tell(wrong)
    print(f"wrong bodies: {tried - len(wrong)} passed, {len(wrong)} failed")
    return 1 if wrong else 0


if __name__ == "__main__":
    sys.exit(main(sys.argv[1:]))
