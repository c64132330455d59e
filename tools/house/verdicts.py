"""What the prover refused, by what it said: which edit of a batch, and by which clause."""

from __future__ import annotations

import re

from house.edits import Edit

NOT_PROVED = re.compile(r"(?m)^note: (?:\./)?(src/\S+\.rt):(\d+):\d+: it is not proved (.*)")
REFUSED = re.compile(r"(?m)^(?:\./)?(proofs/\S+)/\w+\.antt:\d+:\d+: error: (.*)")
# The name of a goal, as the prover says it: in brackets at its place in the source, or at the start
# of what is wrong with an answer.
GOAL = re.compile(r"\(`([^`]+)`\)|^`([^`]+)`")
# What is refused where an edit takes a name away: it says little of the contract.
NAMES = re.compile(r"has no field|is not in scope|has no `|was not admitted")
# The file and the line of what was refused, or the folder of its proof and 0; and why.
Sign = tuple[tuple[str, int], str]


def clause_of(why: str) -> str:
    """Returns the clause that a goal of this message asks for, or nothing where it names no
    goal."""
    found = GOAL.search(why)
    goal = found[1] or found[2] if found else ""
    if not goal:
        return ""
    call = re.match(r"([^-]+)(?:-.*)?-requires(?:-.*)?$", goal)
    if call:
        return f"requires of {call[1]}"
    if goal.startswith(("loop-", "invariant_of-")):
        return "invariant"
    named = re.search(r"-clause-([\w-]+)$", goal)
    return named[1] if named else "ensures" if goal.startswith("returns") else goal


def all_signs(said: str) -> list[Sign]:
    """Returns all that the prover refused."""
    told = [((file, int(line)), why) for file, line, why in NOT_PROVED.findall(said)]
    return told + [((folder, 0), why) for folder, why in REFUSED.findall(said)]


def signs_of(said: str) -> list[Sign]:
    """Returns what the prover refused, where it read what it was to check, but for names that an
    edit took away."""
    if not re.search(r"(?m)^(logic=not-proved|only=)", said):
        return []
    return [it for it in all_signs(said) if it[0][1] or not NAMES.search(it[1])]


def refused_of(batch: list[Edit], said: str) -> dict[Edit, list[str]]:
    """Returns the edits of the batch that the prover refused, each with the clauses that it named:
    none where it refused what belongs to no edit of the batch."""
    refused: dict[Edit, list[str]] = {}
    if not all(any(it.holds(place) for it in batch) for place, _ in all_signs(said)):
        return refused
    for place, why in signs_of(said):
        owners = [it for it in batch if it.holds(place)]
        if len(owners) == 1:
            refused.setdefault(owners[0], []).append(clause_of(why))
    return refused


def said_of_clause(edit: Edit, named: list[str]) -> list[str]:
    """Returns what to say where the clause of the edit is not among those that the prover
    named."""
    if not edit.clause or edit.clause in named:
        return []
    told = ", ".join(sorted({*named} - {""})) or "no clause with a name"
    return [f"{edit.name}: refused by {told}, and not by {edit.clause}"]
