"""Looks for what no clause can refuse in the functions of the library crates, by their text:

- a call that may ask for memory and whose refusal is dropped, in a function that cannot answer that
  there is none. Some have to stand: what they ask for was reserved before, and the kit's call says
  so only by its answer. `DROPPED` lists these, and there are no others;
- a function that names itself: no clause bounds the stack.

Usage: tools/check_code [ROOT]     ROOT is this repository if none is given
Names each place that is not as it has to be. Exit status: 0 if there is none, else 1."""

from __future__ import annotations

import glob
import os
import re
import sys
from collections import Counter
from collections.abc import Iterator
from typing import NamedTuple

from house.edits import HEAD
from house.files import ROOT, crates_folder, read, told

# Where a refusal is dropped today: files below crates/, functions, and how many calls.
DROPPED = {
    ("gabc_headers/src/entry_map.rt", "put"): 1,
    ("gabc_headers/src/header_stage.rt", "read"): 1,
    ("gabc_places/src/decoder.rt", "resume"): 1,
    ("gabc_places/src/room.rt", "append"): 1,
    ("gabc_score/src/slot.rt", "keep"): 1,
    ("gabc_score/src/slot.rt", "mark"): 1,
}
# A call that may ask for memory, and what drops its answer.
ASKS = re.compile(
    r"\.(?:reserve|reserve_exact|push|push_str|extend_from_slice|insert|grow|resize|clone"
    r"|try_extend_from_slice)\("
    r"|::(?:with_capacity|with_limit|from_str|from_slice|from_array|with_capacity_and_hasher"
    r"|try_with_capacity)\("
)
DROPS = re.compile(
    r"let _ ?[:=]|let _\w+: .*=|\.is_err\(\)|\.is_ok\(\)|\.ok\(\)|\.unwrap_or"
    r"|if let (?:Ok|Err)|let Ok\(|let Err\("
)
# What a function's head names if it can answer that there is no memory.
ANSWERS = re.compile(r"AllocError|StateFault|io::Result|Refusal")
COMMENT = re.compile(r"(?m)//.*$")
TEXT = re.compile(r'"(?:\\.|[^"\\])*"')
_BEGINS = re.compile(rf"(?m)^( *){HEAD}")
_CLAUSES = re.compile(r"(?m)\{$|\{\}$|^ *(?:requires|ensures)\b")
_OPENED = re.compile(r"(?m)^ *\{$|\) *(?:-> .*)?\{$")


class Text(NamedTuple):
    """A function of a source: its name, its head, its body, and whether it is free."""

    name: str
    head: str
    body: str
    is_free: bool

    def dropped(self) -> int:
        """Returns how many refusals of memory it drops."""
        if ANSWERS.search(self.head):
            return 0
        parts = self.body.split(";")
        return sum(1 for it in parts if ASKS.search(it) and DROPS.search(it))

    def names_itself(self) -> bool:
        """Returns whether the body calls the function by its name: a free one by itself or by its
        module, another by its value or type."""
        name = self.name
        own = rf"\bself\.{name}\(|\bSelf::{name}\("
        if self.is_free:
            alone = rf"(?<![\w.:]){name}(?:::<[^()]*>)?\("
            own = rf"{alone}|\b(?:self|crate)::(?:\w+::)*{name}\("
        return re.search(own, self.body) is not None


def functions_of(text: str) -> Iterator[Text]:
    """Yields the functions of a source: each is its lines up to one that closes at the same
    depth."""
    for found in _BEGINS.finditer(text):
        end = re.compile(rf"(?m)^{found[1]}\}}|^{found[1]}fn .*;$").search(text, found.start() + 1)
        whole = text[found.start() : end.end() if end else len(text)]
        at, opened = _CLAUSES.search(whole), _OPENED.search(whole)
        head = whole[: at.start() if at else len(whole)]
        yield Text(found[2], head, whole[opened.end() :] if opened else "", not found[1])


def lines(root: str) -> Iterator[str]:
    """Yields a line for each place that is not as it has to be."""
    dropped: Counter[tuple[str, str]] = Counter()
    crates = crates_folder(root)
    for file in sorted(glob.glob(f"{crates}/g*/src/**/*.rt", recursive=True)):
        path = os.path.relpath(file, crates)
        for it in functions_of(TEXT.sub('""', COMMENT.sub("", read(file)))):
            dropped[path, it.name] += it.dropped()
            if it.names_itself():
                yield f"{path}: {it.name} names itself"
    for place in sorted({*+dropped, *DROPPED}):
        wanted = DROPPED.get(place, 0)
        if dropped[place] != wanted:
            path, name = place
            yield f"{path}: {name} drops {dropped[place]} refusals of memory, and not {wanted}"


def main(words: list[str], root: str = ROOT) -> int:
    """Looks at the sources of the repository at `root`, or of the one that is named, and returns
    the exit status."""
    return told(lines(*(words or [root])), "check_code: ")


if __name__ == "__main__":
    sys.exit(main(sys.argv[1:]))
