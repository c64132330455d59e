"""Which definitions the contract of a public call rests on."""

from __future__ import annotations

import re
from collections.abc import Collection, Iterator
from typing import NamedTuple

from house.antt import (
    MODIFIERS,
    bound_names,
    is_in,
    labels_of,
    split_equation,
    tokens_of,
    without_comments,
)
from house.definitions import Definition, Item, Module
from house.repository import Repository
from house.source import Declared, Function, Holder, Source, blanked


class Fault(Exception):
    """Why a call cannot be looked at."""


class Counts(NamedTuple):
    """How many modules and definitions a contract rests on, the lines of these, and the same of
    the types of the source."""

    modules: int
    definitions: int
    lines: int
    types: int
    type_lines: int


class Belief:
    """What the contracts rest on that were given to `follow_function`: definitions and types, the
    blocks of functions whose contracts count too, words of the kit, and definitions of witnesses,
    at which the way ends."""

    def __init__(self, repository: Repository) -> None:
        self.repository = repository
        self.definitions: dict[int, Definition] = {}
        self.types: dict[int, Declared] = {}
        self.holders: dict[tuple[str, int], tuple[Source, Holder]] = {}
        self.words: set[str] = set()
        self.witnesses: dict[int, Definition] = {}
        self._waiting: list[Definition | Declared] = []

    def add(self, found: Item | Module | None) -> None:
        """Notes what was found, if it is an item that is not known yet."""
        if isinstance(found, Definition) and found.module.name.startswith("witness."):
            self.witnesses[id(found)] = found
        elif isinstance(found, Definition) and id(found) not in self.definitions:
            self.definitions[id(found)] = found
            self._waiting.append(found)
        elif isinstance(found, Declared) and id(found) not in self.types:
            self.types[id(found)] = found
            self._waiting.append(found)

    def close(self) -> None:
        """Follows all that is noted, until nothing is new."""
        while self._waiting:
            item = self._waiting.pop()
            if isinstance(item, Declared):
                self._follow_type(item)
            else:
                self._follow_definition(item)

    def follow_function(self, function: Function) -> None:
        """Follows the clauses and the signature of a function."""
        source, holder = function.source, function.holder
        scope = function.full_scope()
        for _, _, text in function.clauses:
            self._follow_text(text, scope)
        self._follow_rust(source, function.signature)
        if holder and not holder.is_trait:
            self.add(source.items.get(holder.name))
        if holder and function.is_of_trait():
            self.add(self.repository.find_type(source, holder.trait))
            for _, text in holder.ghosts("="):
                self._follow_text(text, scope)

    def _follow_path(self, path: str) -> None:
        found = self.repository.find_path(path)
        parts = path.split(".")
        if found is None and parts[1:2] and parts[1] not in self.repository.crates:
            self.words.add(path)
        self.add(found)

    def _follow_name(self, name: str, scope: dict[str, str], module: Module | None) -> None:
        """Follows a name by the scope of its file and the definitions of its module."""
        head, _, tail = name.partition(".")
        known = module.items.get(name) or module.constructors.get(name) if module else None
        if known:
            self.add(known)
        elif name in scope:
            self._follow_path(scope[name])
        elif head in scope and tail:
            self._follow_path(f"{scope[head]}.{tail.split('.')[0]}")
        elif module:
            self.add(module.items.get(head))

    def _follow_text(
        self,
        text: str,
        scope: dict[str, str],
        module: Module | None = None,
        bound: Collection[str] = (),
    ) -> None:
        """Follows the words of a text that it does not bind itself, and that are not `bound`."""
        skipped = bound_names(text) | labels_of(text) | set(bound)
        words = [it.rstrip(".") for it in tokens_of(text)]
        for word in words:
            if word and word not in skipped and word.partition(".")[0] not in skipped:
                self._follow_name(word, scope, module)
        for name in [*scope, *(module.items if module else []), *_constructors(module)]:
            if is_in(name, words):
                self._follow_name(name, scope, module)

    def _follow_definition(self, item: Definition) -> None:
        """Follows the words of a definition: of its type, and of each equation."""
        module, of_section = item.module, bound_names(item.parameters)
        self._follow_text(item.parameters, module.scope, module)
        for number, part in enumerate(item.parts):
            part = without_comments(part)
            if number == 0:
                own = MODIFIERS | of_section | {item.name}
                self._follow_text(part, module.scope, module, _fields_of(item, part) | own)
                continue
            left, right = split_equation(part)
            variables = of_section | set(self._variables_of(left, module))
            self._follow_text(left, module.scope, module, variables)
            self._follow_text(right, module.scope, module, variables - {item.name})

    def _variables_of(self, left: str, module: Module) -> Iterator[str]:
        """Yields the words of the left side of an equation that are no constructors."""
        for word in tokens_of(left):
            path = module.scope.get(word)
            found = module.find(word) if path is None else self.repository.find_path(path)
            is_data = isinstance(found, Definition) and found.is_data
            if word in module.constructors or isinstance(found, Declared) or is_data:
                continue
            if path is None or isinstance(found, Item):
                yield word

    def _follow_type(self, item: Declared) -> None:
        """Follows a type of the source: the types of its fields, its model, and of a trait the
        clauses."""
        source = item.source
        if item.what == "trait":
            for holder in source.holders:
                if holder.is_trait and holder.name == item.name:
                    self._follow_holder(source, holder)
        else:
            self._follow_rust(source, blanked("\n".join(item.lines)))
        for where, holder in self.repository.models_of(item):
            self._follow_holder(where, holder)

    def _follow_holder(self, source: Source, holder: Holder) -> None:
        key = (source.path, holder.begin)
        if key in self.holders:
            return
        self.holders[key] = (source, holder)
        for name, text in holder.ghosts(":="):
            if name != "invariant":
                self._follow_text(text, {**source.scope, **holder.scope})
        for function in source.functions:
            if function.holder is holder:
                self.follow_function(function)

    def _follow_rust(self, source: Source, text: str) -> None:
        for name in dict.fromkeys(re.findall(r"\b[A-Z]\w*", text)):
            self.add(self.repository.find_type(source, name))

    def modules(self) -> list[Module]:
        """Returns the modules that are reached, each after those that it uses."""
        reached = {id(it.module): it.module for it in self.definitions.values()}
        order: list[Module] = []
        done: set[int] = set()

        def place(module: Module) -> None:
            if id(module) in done:
                return
            done.add(id(module))
            for found in map(self.repository.find_path, module.uses):
                if isinstance(found, Module):
                    place(found)
            if id(module) in reached:
                order.append(module)

        for module in sorted(reached.values(), key=lambda it: (it.crate, it.name)):
            place(module)
        return order

    def counts(self) -> Counts:
        """Returns how much it is."""
        lines = sum(it.count() for it in self.definitions.values())
        type_lines = sum(it.count() for it in self.types.values())
        found = len(self.modules()), len(self.definitions), lines
        return Counts(*found, len(self.types), type_lines)

    def items_in(self, module: Module) -> list[Definition]:
        """Returns the definitions of a module that are reached, in their order there."""
        return [it for it in module.items.values() if id(it) in self.definitions]

    def witness_names(self) -> list[tuple[str, list[str]]]:
        """Returns the names of the definitions of witnesses, by their crates."""
        found: dict[str, list[str]] = {}
        for it in self.witnesses.values():
            found.setdefault(it.module.crate, []).append(it.name)
        return [(crate, sorted(names)) for crate, names in sorted(found.items())]


def _constructors(module: Module | None) -> Collection[str]:
    return module.constructors if module else ()


def _fields_of(item: Definition, part: str) -> set[str]:
    """Returns the names of the fields of a record."""
    lines = part.split("\n")[1:] if item.is_record else []
    found = (re.match(r"\s*(?:pub\s+)?([^\s:]+)\s+:", line) for line in lines)
    return {it[1] for it in found if it}


def belief_of(repository: Repository, call: str) -> tuple[str, Function, Belief]:
    """Returns the full name of a call, its function, and what its contract rests on. Raises
    `Fault` if no function is named so, or more than one."""
    found = repository.functions_named(call)
    if not found:
        raise Fault(f"no public call is named {call}")
    if len(found) > 1:
        names = ", ".join("::".join(path) for path, _ in found)
        raise Fault(f"{call} may be one of: {names}")
    path, function = found[0]
    belief = Belief(repository)
    belief.follow_function(function)
    belief.close()
    return "::".join(path), function, belief
