"""The files of specs and proofs as `tools/believe --check-dead` and `tools/shorten_proofs` read
them: what each declares, and what each name means in it."""

from __future__ import annotations

import re
from collections.abc import Iterator
from dataclasses import dataclass, field

from house.antt import MODIFIERS, depth_of, read_uses, words_of
from house.files import module_name, read

HEADER = re.compile(r"(?:unfoldable\s+)?(?:pub\s+)?(?:use|mod)\s|infix[lr]?\s")
SIGNATURE = re.compile(r"(?:abbrev\s+)?(\S+)\s+:(?:\s|$)")
USE_LINE = r"(?:pub\s+|unfoldable\s+|ghost\s+)*use"
# What a file answers of a function's proof; the rest of it is lemmas.
ANSWERING = ("Answers", "Invariants", "Proof")
GENERATED = re.compile(r"\.(?:Goals|Given)\b")


@dataclass
class Section:
    """A section `module _ (..) where`: where its head begins and ends, and its text."""

    begin: int
    end: int
    head: str


@dataclass(eq=False)
class Declaration:
    """What a file declares: its name, those of its constructors too, its lines, and the sections
    that it stands in."""

    file: File
    name: str
    begin: int
    end: int
    sections: list[Section]
    names: list[str] = field(default_factory=list)
    lines: list[str] = field(default_factory=list)

    def words(self) -> set[str]:
        """Returns the words of its lines, and of the heads of its sections."""
        return words_of("\n".join([*self.lines, *(it.head for it in self.sections)]))

    def is_answer(self) -> bool:
        """Returns whether it answers a goal, or is a whole proof."""
        if self.file.part != "proofs" or self.file.name.rpartition(".")[2] not in ANSWERING:
            return False
        goals = {name for name, path in self.file.scope.items() if GENERATED.search(path)}
        named = (it.partition(".")[0] for it in words_of(self.lines[0]))
        return self.name.endswith("_spec") or any(it in goals for it in named)

    def is_example(self) -> bool:
        """Returns whether it is a written-out example."""
        return self.file.name.endswith("Examples")

    def is_data(self) -> bool:
        """Returns whether it is a type with constructors."""
        return re.search(r"\bdata\b", self.lines[0]) is not None

    def dead_helpers(self) -> Iterator[tuple[int, str]]:
        """Yields the helpers after its `where` that the rest of it does not name, each after its
        line."""
        if re.search(r"\b(record|data)\b", self.lines[0]):
            return
        ends = (at for at, it in enumerate(self.lines) if re.search(r"(^|\s)where$", it))
        for at in range(next(ends, len(self.lines)) + 1, len(self.lines)):
            found = SIGNATURE.match(self.lines[at].strip())
            if not found or found[1].startswith(("(", "{")):
                continue
            rest = [*self.lines[:at], *self.lines[self._end_of_helper(at) :]]
            if found[1] not in {it.partition(".")[0] for it in words_of("\n".join(rest))}:
                yield self.begin + at, found[1]

    def _end_of_helper(self, at: int) -> int:
        """Returns the line at which the helper ends that begins in the line `at`."""
        depth = depth_of(self.lines[at])
        for end in range(at + 1, len(self.lines)):
            line = self.lines[end]
            begins = depth_of(line) == depth and SIGNATURE.match(line.strip())
            if line.strip() and (depth_of(line) < depth or begins):
                return end
        return len(self.lines)


class File:
    """A file of specs/ or proofs/ (`part`) of a crate, which lies below `folder`: what it declares,
    and what each name means in it."""

    def __init__(self, crate: str, part: str, path: str, folder: str) -> None:
        self.crate, self.part, self.path = crate, part, path
        self.name = re.sub(r"(^|\.)Lib$", "", module_name(path, folder))
        self.scope: dict[str, str] = {}
        self.declarations: list[Declaration] = []
        text = read(path)
        read_uses(text, USE_LINE, self.scope)
        self._read_lines(text.split("\n"))
        self.names = {name: it for it in self.declarations for name in it.names}

    def _read_lines(self, lines: list[str]) -> None:
        """Cuts the file into sections and declarations, by how far its lines stand in."""
        inner: list[tuple[int, Section]] = []
        at = 0
        while at < len(lines):
            line, bare, begin = lines[at], lines[at].strip(), at
            at += 1
            if not bare or bare.startswith("--"):
                continue
            while inner and depth_of(line) < inner[-1][0]:
                inner.pop()
            here = inner[-1][0] if inner else 0
            is_head = depth_of(line) == here
            if is_head and HEADER.match(bare):
                continue
            if is_head and re.match(r"module\s+_", bare):
                while not re.search(r"\swhere\s*$", lines[at - 1]):
                    at += 1
                inner.append((here + 2, Section(begin, at, "\n".join(lines[begin:at]))))
                continue
            if is_head:
                self._begin(bare, begin, [it for _, it in inner])
            self._go_on(line, at, is_head)

    def _begin(self, line: str, at: int, sections: list[Section]) -> None:
        """Begins a declaration if a line is the first of one, and no equation of the last one."""
        words = line.split()
        name = next((it for it in words if it not in MODIFIERS), "")
        if words[0] in MODIFIERS or SIGNATURE.match(line):
            self.declarations.append(Declaration(self, name, at, at + 1, sections, [name]))

    def _go_on(self, line: str, end: int, is_head: bool) -> None:
        """Adds a line, after which the line `end` comes, to the last declaration."""
        if not self.declarations:
            return
        last = self.declarations[-1]
        if not is_head and last.is_data() and " : " in line.strip():
            last.names += line.strip().partition(" : ")[0].split()
        last.lines.append(line)
        last.end = end
