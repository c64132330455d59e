"""Finds the names of specs/ and proofs/ that nothing cites.

A name is cited where the source names it, in a clause or in backticks in a comment; where a page
names it in backticks; where it answers a goal; or where a declaration names it that is cited
itself. Its own declaration and `use` lines do not count. A written-out example need not be cited,
and stands in a module whose name ends in Examples. It cites the lemmas that prove it, and not the
definitions that it shows.

It reads the files as text. A name that is bound where it stands is taken for the one that is
declared, so that what is listed is dead."""

from __future__ import annotations

import os
import re
from collections.abc import Iterator

from house.antt import is_in, quoted_in, read_uses, words_of
from house.files import crate_names, crates_folder, files_below, read
from house.proof_files import Declaration, File


class Citations:
    """Who cites whom, in the files of all crates of the repository at `root`."""

    def __init__(self, root: str) -> None:
        self.root = root
        self.files: dict[tuple[str, str, str], File] = {}
        self.crates = crate_names(root)
        for crate in self.crates:
            for part in ("specs", "proofs"):
                folder = os.path.join(crates_folder(root), crate, part)
                for path in files_below(folder, ".antt"):
                    file = File(crate, part, path, folder)
                    self.files[crate, part, file.name] = file
        self.definitions: dict[str, list[Declaration]] = {}
        for it in self.declarations():
            if it.file.part == "specs":
                self.definitions.setdefault(it.name, []).append(it)

    def declarations(self) -> list[Declaration]:
        """Returns the declarations of all files."""
        return [it for file in self.files.values() for it in file.declarations]

    def find(self, path: str) -> Declaration | None:
        """Returns the declaration that a path `Rattle.CRATE.PART. ..` leads to, also if a file
        passes on what it uses."""
        parts = path.removeprefix("package.").split(".")
        if len(parts) < 4 or parts[0] != "Rattle":
            return None
        for end in range(len(parts) - 1, 2, -1):
            file = self.files.get((parts[1], parts[2], ".".join(parts[3:end])))
            if file:
                name = parts[end]
                if name in file.names or name not in file.scope:
                    return file.names.get(name)
                return self.find(".".join([file.scope[name], *parts[end + 1 :]]))
        return None

    def cited(
        self, words: set[str], scope: dict[str, str], file: File | None = None
    ) -> Iterator[Declaration]:
        """Yields the declarations that words mean, in a file or under the names that it uses."""
        names = file.names if file else {}
        paths = []
        for word in words:
            head, _, rest = word.partition(".")
            if head in names:
                yield names[head]
            elif head in scope:
                paths.append(f"{scope[head]}.{rest}" if rest else scope[head])
            elif head in ("Rattle", "package") or not file:
                paths.append(word)
            else:
                parts = ("Rattle", file.crate, file.part, file.name, word)
                paths.append(".".join(it for it in parts if it))
        for name in [*names, *scope]:
            if is_in(name, words):
                if name in names:
                    yield names[name]
                else:
                    paths.append(scope[name])
        yield from (found for found in map(self.find, paths) if found)

    def _cited_in(self, crate: str, text: str) -> Iterator[Declaration]:
        """Yields what a source names: outside of its `use` lines, by attributes, and in backticks
        in its comments."""
        lines = text.split("\n")
        code = (it for it in lines if not re.match(r"\s*(pub )?(ghost )?use\b|\s*//", it))
        words = words_of("\n".join(code))
        for line in (it for it in lines if re.match(r"\s*ghost use\b", it)):
            scope: dict[str, str] = {}
            read_uses(line, "ghost use", scope)
            yield from self.cited(words, scope)
        for owner, name in re.findall(r"\b(\w+)::((?:specs|proofs)(?:::\w+)+)", text):
            of = crate if owner == "crate" else owner
            found = self.find(".".join(["Rattle", of, *name.split("::")]))
            if found:
                yield found
        for name in quoted_in("\n".join(it for it in lines if "//" in it)):
            yield from (it for it in self.definitions.get(name, []) if it.file.crate == crate)

    def cited_in_source(self) -> Iterator[Declaration]:
        """Yields what the sources name."""
        for crate in self.crates:
            for path in files_below(os.path.join(crates_folder(self.root), crate, "src"), ".rt"):
                yield from self._cited_in(crate, read(path))

    def cited_on_pages(self) -> Iterator[Declaration]:
        """Yields the definitions whose names stand in backticks on a page."""
        docs = files_below(os.path.join(self.root, "docs"), ".md")
        for path in [*docs, *(f"{self.root}/{it}" for it in ("README.md", "CONTRIBUTING.md"))]:
            for name in quoted_in(read(path)):
                yield from self.definitions.get(name, [])

    def roots(self) -> Iterator[Declaration]:
        """Yields what is cited by more than declarations, and what examples need for their
        proofs."""
        yield from self.cited_in_source()
        yield from self.cited_on_pages()
        for it in self.declarations():
            if it.is_answer():
                yield it
            elif it.is_example():
                lemmas = (found for found in self.named_by(it) if found.file.part == "proofs")
                yield from (found for found in lemmas if not found.is_example())

    def named_by(self, it: Declaration) -> Iterator[Declaration]:
        """Yields what a declaration names."""
        return self.cited(it.words(), it.file.scope, it.file)

    def dead(self) -> list[Declaration]:
        """Returns the declarations that nothing cites, or only those that nothing cites."""
        living: set[Declaration] = set()
        waiting = list(self.roots())
        while waiting:
            it = waiting.pop()
            if it not in living:
                living.add(it)
                waiting += self.named_by(it)
        left = (it for it in self.declarations() if it not in living)
        return [it for it in left if not (it.is_example() and self.shows(it, living, set()))]

    def shows(self, example: Declaration, living: set[Declaration], seen: set[Declaration]) -> bool:
        """Returns whether all that an example names, itself or by other examples, is cited."""
        seen.add(example)
        return all(
            it in living or it in seen or (it.is_example() and self.shows(it, living, seen))
            for it in self.named_by(example)
        )

    def lines(self) -> Iterator[str]:
        """Yields a line for each name that is dead."""
        for it in self.dead():
            yield f"{self._place(it, it.begin)}: nothing cites {it.name}"
        for it in self.declarations():
            for at, name in it.dead_helpers():
                yield f"{self._place(it, at)}: {it.name} does not cite its helper {name}"

    def _place(self, it: Declaration, at: int) -> str:
        return f"{os.path.relpath(it.file.path, self.root)}:{at + 1}"
