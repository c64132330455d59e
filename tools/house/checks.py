"""Looks at what the sources say for their readers, and compares it with what is written elsewhere:
each check yields a line for what is not as it has to be."""

from __future__ import annotations

import os
import re
from collections.abc import Iterator

from house.antt import tokens_of
from house.calls import pages_of
from house.files import crate_names, crates_folder, files_below, read
from house.repository import Repository
from house.source import Function

PROMISES = os.path.join("docs", "PROMISES.md")
TRIED_CALLS = os.path.join("crates", "try_memory", "data", "calls.tsv")
TRIED_EXPORTS = os.path.join("c", "tests", "memory.c")
# The crate of which nobody can call anything but its exports, and what begins their names.
LIBRARY, EXPORTED = "gregorio_c", "gregorio_"
# A signature that says so: an allocator comes in, or an answer may be the want of memory.
WANTS_MEMORY = re.compile(r":\s*Global\b|->.*\b(?:AllocError|Refusal)\b")
_MACHINE = re.compile(r"\bRattle\.(\w+)\.specs\.[Mm]achine\b")


def names_of(repository: Repository) -> set[str]:
    """Returns the names of all crates and public functions, and of all types and variants."""
    names = set(repository.crates)
    for source in repository.all_sources():
        names.update(source.items)
        names.update(re.findall(r"(?m)^    ([A-Z]\w*)", source.plain))
        names.update(it.name for it in source.functions if it.is_public)
    return names


def promises(repository: Repository) -> Iterator[str]:
    """Yields the names that head lines of docs/PROMISES.md and stand for nothing, and the public
    calls without a comment."""
    names = names_of(repository)
    text = read(os.path.join(repository.root, PROMISES))
    for head in re.findall(r"(?m)^- ((?:`[^`]+`(?:, | and )?)+)(?=[:,])", text):
        for it in re.findall(r"`([^`]+)`", head):
            if "/" not in it and not all(part in names for part in it.split("::")):
                yield f"{PROMISES}: {it} heads a line, and is no public function or type"
    for page, text in pages_of(repository).items():
        for it in re.findall(r"(?m)^### (.*)\n\n+(?=    )", text):
            yield f"{page}: {it} has no comment"


def memory_calls(repository: Repository) -> tuple[set[str], set[str]]:
    """Returns the paths of the public calls that take an allocator, or may answer that there is no
    memory: those of Rust, and those that are exported to C."""
    calls: set[str] = set()
    exports: set[str] = set()
    for it in repository.functions():
        of_trait = it.holder and it.holder.trait
        if not it.is_public or of_trait or not WANTS_MEMORY.search(it.signature):
            continue
        path = "::".join(repository.path_of(it))
        if it.source.crate != LIBRARY:
            calls.add(path)
        elif it.name.startswith(EXPORTED):
            exports.add(path)
    return calls, exports


def memory(repository: Repository) -> Iterator[str]:
    """Yields the calls that want memory and are not tried, and those that are tried and are none of
    these."""
    calls, exports = memory_calls(repository)
    lines = read(os.path.join(repository.root, TRIED_CALLS)).splitlines()
    tried = {re.split(r"[ \t]", line)[0] for line in lines}
    exported = read(os.path.join(repository.root, TRIED_EXPORTS))
    not_named = {it for it in exports if f" {it.rpartition('::')[2]}(" not in exported}
    yield from (f"{it} is not tried" for it in sorted(calls - tried))
    yield from (f"{it} is not tried" for it in sorted(not_named))
    for it in sorted(tried - calls):
        yield f"{it} is tried, and is no public call that wants memory"


def machine(repository: Repository) -> Iterator[str]:
    """Yields where a crate names the module `machine` of the specs of another crate, and where what
    callers read names that of their own."""
    for crate in crate_names(repository.root):
        for part, ending in (("src", ".rt"), ("specs", ".antt"), ("proofs", ".antt")):
            folder = os.path.join(crates_folder(repository.root), crate, part)
            for path in files_below(folder, ending):
                for number, line in enumerate(read(path).split("\n"), 1):
                    for other in (it for it in _MACHINE.findall(line) if it != crate):
                        where = f"{repository.below(path)}:{number}"
                        yield f"{where}: {crate} cites the machine of {other}"
    for function in (it for it in repository.functions() if it.is_public):
        yield from _machine_in_clauses(repository, function)
    for module in repository.modules.values():
        if module.name.split(".")[0] not in ("machine", "witness"):
            for name in sorted({*module.uses, *module.scope.values()}):
                if ".specs.machine" in name:
                    yield f"{repository.below(module.path)}: names {name}"


def _machine_in_clauses(repository: Repository, function: Function) -> Iterator[str]:
    """Yields the clauses of a public call that name a definition of `specs.machine`."""
    scope, where = function.full_scope(), repository.below(function.source.path)
    for _, label, text in function.clauses:
        for name in sorted({it.split(".")[0] for it in tokens_of(text)}):
            if ".specs.machine." in scope.get(name, ""):
                clause = f"the clause {label} of {function.name}"
                yield f"{where}: {clause} names {name} of the machine"
