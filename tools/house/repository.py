"""The crates of a repository: the definitions of their specs, and the functions and types of their
sources; and what a path or a name leads to among these."""

from __future__ import annotations

import os
import re
from collections.abc import Iterator

from house.definitions import Definition, Item, Module
from house.files import crate_names, crates_folder, files_below, module_name
from house.source import Declared, Function, Holder, Source


class Repository:
    """The modules of specs by their crate and name, and the sources of each crate but its tests,
    of the repository at `root`."""

    def __init__(self, root: str) -> None:
        self.root = root
        self.modules: dict[tuple[str, str], Module] = {}
        self.sources: dict[str, list[Source]] = {}
        for crate in crate_names(root):
            self._read_crate(crate, os.path.join(crates_folder(root), crate))
        self.crates = set(self.sources)

    def _read_crate(self, crate: str, folder: str) -> None:
        specs, sources = os.path.join(folder, "specs"), os.path.join(folder, "src")
        for path in files_below(specs, ".antt"):
            name = module_name(path, specs)
            self.modules[crate, name] = Module(crate, name, path)
        for path in files_below(sources, ".rt"):
            source = Source(crate, path, sources)
            if not re.search(r"(^|\.)tests$", source.module):
                self.sources.setdefault(crate, []).append(source)

    def below(self, path: str) -> str:
        """Returns a path as it is from the top of the repository."""
        return os.path.relpath(path, self.root)

    def all_sources(self) -> Iterator[Source]:
        """Yields the sources of all crates."""
        for sources in self.sources.values():
            yield from sources

    def functions(self) -> Iterator[Function]:
        """Yields the functions of all crates."""
        for source in self.all_sources():
            yield from source.functions

    def find_path(self, path: str) -> Item | Module | None:
        """Returns what a path `Rattle.CRATE.specs. ..` leads to: an item or a module, or nothing
        if that is not of this repository."""
        parts = path.split(".")
        is_ours = len(parts) > 2 and parts[0] == "Rattle" and parts[1] in self.crates
        if not is_ours or parts[2] != "specs":
            return None
        crate, rest = parts[1], parts[3:]
        if rest[:1] == ["declared"]:
            return self._find_declared(crate, rest[1:])
        module = self.modules.get((crate, ".".join(rest)))
        if module:
            return module
        module = self.modules.get((crate, ".".join(rest[:-1])))
        return module.find(rest[-1]) if module else None

    def _find_declared(self, crate: str, parts: list[str]) -> Declared | None:
        """Returns a type or constant of the source: `parts` names its file, the type, and often
        the type again, or `TheVariants` and a variant."""
        for source in self.sources.get(crate, []):
            here = source.module.split(".") if source.module else []
            if parts[: len(here)] == here:
                for name in parts[len(here) :]:
                    if name in source.items:
                        return source.items[name]
        return None

    def find_type(self, source: Source, name: str) -> Declared | None:
        """Returns the type or trait that a name means in a source, if it is of this repository."""
        if name in source.items:
            return source.items[name]
        crate = source.rust.get(name, "")
        found = (it.items[name] for it in self.sources.get(crate, []) if name in it.items)
        return next(found, None)

    def models_of(self, item: Declared) -> Iterator[tuple[Source, Holder]]:
        """Yields the `impl` blocks of `Model` for a type, each with its source."""
        for source in self.sources[item.source.crate]:
            for it in source.holders:
                if it.name == item.name and it.trait == "Model" and not it.is_trait:
                    yield source, it

    def public_modules(self, source: Source) -> list[str]:
        """Returns the modules of a source that callers name: those that the root of its crate
        makes public."""
        roots = [it for it in self.sources[source.crate] if not it.module]
        return [
            it
            for it in source.module.split(".")
            if it and any(re.search(rf"\bpub mod {it}\b", root.plain) for root in roots)
        ]

    def path_of(self, function: Function) -> list[str]:
        """Returns the words by which callers name a function."""
        return function.path(self.public_modules(function.source))

    def functions_named(self, call: str) -> list[tuple[list[str], Function]]:
        """Returns the public functions that `call` may name, each after its path. A name alone
        names free functions."""
        parts = call.split("::")
        found = []
        for function in self.functions():
            if not function.is_public or function.name != parts[-1]:
                continue
            path = self.path_of(function)
            if is_within(parts, path) if len(parts) > 1 else not function.holder:
                found.append((path, function))
        return found


def is_within(parts: list[str], path: list[str]) -> bool:
    """Returns whether the parts stand in the path in this order, and the last is the last."""
    places = iter(path)
    return parts[-1] == path[-1] and all(it in places for it in parts)


def definition_of(found: Item | Module | None) -> Definition | None:
    """Returns what was found, if it is a definition of specs."""
    return found if isinstance(found, Definition) else None
