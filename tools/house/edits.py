"""The wrong bodies of a crate: edits of its code, each by the function that it changes."""

from __future__ import annotations

import os
import re
from collections.abc import Iterable, Iterator
from typing import Any

import tomllib
from house.files import read, write
from house.kit import Crate

# The head of a function after its blanks, up to its name.
HEAD = r"(?:pub(?:\(\w+\))? )?(?:const )?(?:unsafe )?(?:extern \"C\" )?fn (\w+)"
FUNCTION = re.compile(rf"(\s*){HEAD}")
CLAUSE = re.compile(r"\s*(?:ensures|requires|ghost)\b")
# The head of a block of functions, and one whose functions the prover names by its trait, if it has
# one, and its type.
BLOCK = re.compile(r"(?:pub )?trait |(?:unsafe )?impl\b")
NAMED = re.compile(
    r"(?:unsafe )?impl(?:<.*?>)? (?:(?:\w+::)*(\w+) for )?(\w+)(?:<(?:'\w+|[A-Z]|, )*>)?(?: \{)?$"
)
# The name of a function, and its first and last line, from 1.
Lines = tuple[str, int, int]


class Edit:
    """An edit: its file, what it replaces, and the function that it changes. `why` says why it
    cannot be applied, if so."""

    def __init__(self, crate: Crate, name: str, table: dict[str, Any]) -> None:
        self.key, self.name = name, f"{crate.name}/{name}"
        self.file: str = table.get("file", "")
        self.within: str = table.get("in", "")
        self.by: str = table.get("by", "")
        self.clause: str = table.get("refused", "")
        self.pairs = pairs_of(table)
        self.spans: list[tuple[int, str, str]] = []
        self.function: Lines | None = None
        self.below = ""
        self.why = self._find_function(crate)

    def _find_function(self, crate: Crate) -> str:
        """Notes where in the file the old texts stand and which function's body holds them all.
        Returns why the edit cannot be applied, if so."""
        path = f"{crate.folder}/{self.file}"
        if not self.file.startswith("src/") or not os.path.isfile(path) or not self.pairs:
            return "it names no file below src/, or changes nothing"
        text = read(path)
        lines = text.split("\n")
        named = [it for it in functions_of(lines) if not self.within or it[0] == self.within]
        if self.within and len(named) != 1:
            return f"{self.file} has {len(named)} functions {self.within}, and not one"
        first, end = place_in(lines, named[0]) if self.within else (0, len(text))
        for old, new in self.pairs:
            if not old or text.count(old, first, end) != 1:
                count = text.count(old or " ", first, end)
                return f"an old text is in {self.file} {count} times, and not once"
            self.spans.append((text.index(old, first, end), old, new))
        found = {body_around(lines, text[:at].count("\n")) for at, _, _ in self.spans}
        self.function = found.pop() if len(found) == 1 else None
        self.below = self.by or path_below(self.file, lines, self.function)
        if self.by and self.function:
            return "it names by what it is refused, and changes a function"
        return ""

    def holds(self, sign: tuple[str, int]) -> bool:
        """Returns whether the place in the source, or the folder of a proof, belongs to the
        function that is edited."""
        if not self.function:
            return False
        name, first, last = self.function
        where, line = sign
        if line:
            return where == self.file and first <= line <= last
        # The proofs of a type's own functions lie with its module, wherever these stand.
        module = f"proofs/{self.file[len('src/') : -len('.rt')]}/"
        is_below = where.startswith(module) and where.endswith(f"/{name}")
        return is_below or where.endswith("/" + self.below.replace("::", "/"))


def pairs_of(table: dict[str, Any]) -> list[tuple[str, str]]:
    """Returns each old text of an edit with the new one."""
    old, new = (table.get(it, "") for it in ("old", "new"))
    olds, news = (it if isinstance(it, list) else [it] for it in (old, new))
    return [*zip(olds, news, strict=True)]


def functions_of(lines: list[str]) -> Iterator[tuple[str, int, int, int]]:
    """Yields each function's name, the line of its `fn`, from 0, and its first line with attributes
    and its last line, from 1."""
    for at, line in enumerate(lines):
        found = FUNCTION.match(line)
        if found:
            first = at
            while lines[first - 1].startswith(found[1] + "#["):
                first -= 1
            ends = (it for it in range(at, len(lines)) if lines[it].startswith(found[1] + "}"))
            yield found[2], at, first + 1, next(ends, len(lines) - 1) + 1


def place_in(lines: list[str], function: tuple[str, int, int, int]) -> tuple[int, int]:
    """Returns where in the text the function begins and ends."""
    _, _, first, last = function
    return len("\n".join(lines[: first - 1])), len("\n".join(lines[:last]))


def body_around(lines: list[str], at: int) -> Lines | None:
    """Returns the function whose body has the line `at`, from 0, if there is one."""
    around = [it for it in functions_of(lines) if it[1] < at < it[3]]
    if not around or CLAUSE.match(lines[at]):
        return None
    name, _, first, last = around[-1]
    return name, first, last


def path_below(file: str, lines: list[str], function: Lines | None) -> str:
    """Returns the path below the crate of a function, or of its module where no function is given
    or the prover's name of its block is not known."""
    module = file[len("src/") : -len(".rt")].replace("/", "::")
    if not function:
        return module
    name, first, last = function
    own = lines[first - 1 : last]
    if any(FUNCTION.match(line) and not line[0].isspace() for line in own):
        return name if module == "lib" else f"{module}::{name}"
    heads = (line for line in reversed(lines[: first - 1]) if BLOCK.match(line))
    block = NAMED.match(next(heads, ""))
    if not block or module == "lib":
        return module
    of_trait, kind = block.groups()
    if of_trait:
        return f"{module}::{kind}{of_trait}::{name}"
    # A type's own functions are named at its module, wherever they stand.
    declares = re.compile(rf"(?:pub(?:\(\w+\))? )?(?:struct|enum) {kind}\b")
    is_here = any(declares.match(line) for line in lines)
    return f"{module}::{kind}::{name}" if is_here else f"{kind}::{name}"


def edited(crate: Crate, edits: list[Edit]) -> dict[str, str]:
    """Returns the texts of the files that the edits change, by their path in the crate. Their spans
    do not overlap."""
    texts = {}
    for file in {it.file for it in edits}:
        text = read(f"{crate.folder}/{file}")
        spans = (span for it in edits if it.file == file for span in it.spans)
        for at, old, new in sorted(spans, reverse=True):
            text = text[:at] + new + text[at + len(old) :]
        texts[file] = text
    return texts


def batches_of(edits: list[Edit]) -> list[list[Edit]]:
    """Returns the edits in batches. No batch has two in one function, and one outside any function
    is a batch by itself."""
    batches: list[dict[tuple[str, Lines], Edit]] = []
    for edit in edits:
        if not edit.function:
            continue
        key = edit.file, edit.function
        for batch in batches:
            if key not in batch:
                batch[key] = edit
                break
        else:
            batches.append({key: edit})
    alone = [[it] for it in edits if not it.function]
    return [[*batch.values()] for batch in batches] + alone


def paths_of(edits: Iterable[Edit]) -> tuple[str, ...]:
    """Returns the paths below the crate of what the edits change."""
    return tuple(sorted({it.below for it in edits}))


def edits_of(crate: Crate) -> list[Edit]:
    """Returns the edits of a crate, in the order of its file."""
    path = f"{crate.folder}/wrong_bodies.toml"
    if not os.path.isfile(path):
        return []
    with open(path, "rb") as file:
        return [Edit(crate, name, table) for name, table in tomllib.load(file).items()]


def write_clauses(crate: Crate, found: dict[Edit, list[str]]) -> None:
    """Writes into the file of a crate which clause refused each edit that names none: the first
    that the prover named."""
    path = f"{crate.folder}/wrong_bodies.toml"
    firsts = ((edit, next((it for it in named if it), "")) for edit, named in found.items())
    clauses = {edit.key: clause for edit, clause in firsts if not edit.clause}
    lines: list[str] = []
    name = ""
    for line in read(path).split("\n"):
        head = re.fullmatch(r"\[(\w+)\]", line)
        if not line and clauses.get(name):
            lines.append(f"refused = '{clauses.pop(name)}'")
        name = head[1] if head else name
        lines.append(line)
    write(path, "\n".join(lines))
