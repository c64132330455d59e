"""What the proofs of a crate rest on: its own files, and what its functions may know of the crates
below it. These are the types, traits and constants below; the contracts of the public functions
below that the crate's sources name; and the definitions and lemmas below that any of these or the
crate's own files name.

Comments do not count, nor the layout of sources, nor the bodies of functions below: a proof rests
on the contract of what a function calls. Nor do functions that a crate below keeps to itself, with
what only they name. It reads the files as text: what a name may mean counts."""

from __future__ import annotations

import os
import re
from collections.abc import Iterable, Iterator

from house.citations import Citations
from house.files import crates_folder, files_below, read
from house.proof_files import Declaration
from house.source import WORD, Function, Source, closing, uncommented, without_layout

Text = tuple[str, str]
_GHOST_USE = re.compile(
    r"(?m)^[ \t]*(?:pub )?ghost use ([^\s;{}]+?)(?:\.\{([^}]*)\})?(?:\s+as\s+(\w+))?;[ \t]*\n"
)
_USE = re.compile(
    r"(?m)^[ \t]*(pub )?(?:pub\([^)]*\) )?use ([\w:]+)(?:::\{([^{}]*)\})?(?: as (\w+))?;[ \t]*\n"
)
# Attributes that say how something is proved or compiled.
_HINT = re.compile(r"(?m)^[ \t]*#\[(?:inline|tactic|cold)\b[^\n]*\]\n")


def code_of(path: str) -> str:
    """Returns the text of a file without comments, and of a source without its layout."""
    text = read(path)
    if path.endswith(".rt"):
        return without_layout(text)
    lines = (it for it in text.split("\n") if not it.lstrip().startswith("--"))
    return "\n".join(it for it in lines if it.strip())


def _is_known(function: Function, named: set[str]) -> bool:
    """Returns whether the proofs of a crate whose sources have the names `named` may rest on the
    contract of a function below: one of a trait is called without its name, too."""
    is_of_trait = function.holder is not None and bool(function.holder.trait)
    return function.is_public and (is_of_trait or function.name in named)


def _shown(source: Source, named: set[str]) -> str:
    """Returns the text of a file without the functions of which a crate whose sources have the
    names `named` knows nothing, and without the bodies of the others."""
    text, plain = uncommented(source.text), source.plain
    kept, at = [], 0
    for function in source.functions:
        if function.begin < at:
            continue
        is_open = plain[function.end : function.end + 1] == "{"
        head = plain.rfind("\n", 0, function.begin) + 1
        past = (closing(plain, function.end) if is_open else function.end) + 1
        # A function that is a constant has its value by its body.
        end = past if "const " in plain[head : function.begin] else function.end
        kept.append(text[at : end if _is_known(function, named) else head])
        at = past
    return "".join([*kept, text[at:]])


def _brought(items: Iterable[tuple[str, str, str]], between: str) -> Iterator[Text]:
    """Yields what `use` items bring: each name with its path."""
    for module, names, alias in items:
        if not names:
            yield alias or module.rpartition(between)[2], module
            continue
        for it in names.split(","):
            name, _, local = (part.strip() for part in it.partition(" as "))
            if name:
                yield local or name, f"{module}{between}{name}"


def statements_of(source: Source, named: set[str]) -> tuple[str, list[str]]:
    """Returns what is known of a file of a crate below in one whose sources have the names `named`,
    and the paths of the definitions that it names."""
    shown = _shown(source, named)
    rest = _HINT.sub("", _USE.sub("", _GHOST_USE.sub("", shown)))
    words = {it.strip("◌") for it in re.split(r"[\s(){}\[\],;.&<>:|!?=]+", rest)}
    ghosts = _brought(_GHOST_USE.findall(shown), ".")
    paths = sorted({path for name, path in ghosts if name in words or "◌" in name})
    items = [(words | named if it[0] else words, it[1:]) for it in _USE.findall(shown)]
    uses = {path for known, it in items for name, path in _brought([it], "::") if name in known}
    return "\n".join([*sorted(uses), *paths, without_layout(rest)]), paths


class Resting:
    """What the crates of the repository at `root` rest on."""

    def __init__(self, root: str) -> None:
        self.folder = crates_folder(root)
        self.citations = Citations(root)
        self._sources: dict[str, list[tuple[str, Source]]] = {}

    def _paths(self, crate: str, part: str, ending: str) -> list[str]:
        """Returns the paths of a crate's files below the crates, in their order."""
        found = files_below(os.path.join(self.folder, crate, part), ending)
        return sorted(os.path.relpath(it, self.folder) for it in found)

    def own(self, crate: str) -> list[Text]:
        """Returns each file of a crate by its path, with its text."""
        parts = (("src", ".rt"), ("specs", ".antt"), ("proofs", ".antt"))
        paths = [it for part in parts for it in self._paths(crate, *part)]
        return [(it, code_of(os.path.join(self.folder, it))) for it in paths]

    def sources(self, crate: str) -> list[tuple[str, Source]]:
        """Returns the sources of a crate by their paths."""
        if crate not in self._sources:
            folder = os.path.join(self.folder, crate, "src")
            self._sources[crate] = [
                (it, Source(crate, os.path.join(self.folder, it), folder))
                for it in self._paths(crate, "src", ".rt")
            ]
        return self._sources[crate]

    def _meant(self, path: str) -> list[Declaration]:
        """Returns the declaration that a path leads to, or all of its file if none has the name."""
        found = self.citations.find(path)
        if found is not None:
            return [found]
        words = path.split(".")
        for end in range(len(words), 3, -1):
            file = self.citations.files.get((words[1], words[2], ".".join(words[3:end])))
            if file is not None:
                return file.declarations
        return []

    def _named_by(self, it: Declaration) -> Iterator[Declaration]:
        """Yields what a declaration names. An item of a `use` line counts if a part of it stands in
        the text."""
        yield from self.citations.named_by(it)
        heads = {part for word in it.words() for part in (word, *word.split("."), *word.split("◌"))}
        for local, path in it.file.scope.items():
            if path.startswith("Rattle.") and {local, *local.split("◌")} & heads:
                yield from self._meant(path)

    def reached(self, crate: str, paths: Iterable[str], below: set[str]) -> list[Text]:
        """Returns the definitions and lemmas of crates below that the crate's files name or that
        these paths lead to, and what those name."""
        own = [it for it in self.citations.declarations() if it.file.crate == crate]
        waiting = [*own, *(found for it in paths for found in self._meant(it))]
        seen: set[Declaration] = set()
        while waiting:
            it = waiting.pop()
            if it not in seen and it.file.crate in below | {crate}:
                seen.add(it)
                waiting += self._named_by(it)
        return sorted(
            (f"{it.file.crate}.{it.file.part}.{it.file.name}.{it.name}", _text_of(it))
            for it in seen
            if it.file.crate != crate
        )

    def of(self, crate: str, below: Iterable[str]) -> list[Text]:
        """Returns all on which the proofs of a crate rest, in parts with their names."""
        crates = sorted(below)
        code = "\n".join(uncommented(it.text) for _, it in self.sources(crate))
        named = {*re.findall(WORD, code)}
        stated: list[Text] = []
        paths = [path for _, path in _brought(_GHOST_USE.findall(code), ".")]
        for path, source in (it for name in crates for it in self.sources(name)):
            text, more = statements_of(source, named)
            stated.append((path, text))
            paths += more
        return [*self.own(crate), *stated, *self.reached(crate, paths, {*crates})]


def _text_of(it: Declaration) -> str:
    """Returns the text of a declaration and of the heads of its sections, without comments."""
    lines = [*(section.head for section in it.sections), *it.lines]
    return "\n".join(line for line in lines if not line.lstrip().startswith("--"))
