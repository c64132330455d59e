"""Prints a page for each crate with public calls: the comment of each call, and its contract as it
is written. A release has these pages."""

from __future__ import annotations

import os
import textwrap
from itertools import takewhile

from house.files import crate_lines, write
from house.repository import Repository
from house.source import Function, Source

WIDTH = 100
INDEX = """# Contracts

Each page has the public calls of one crate: the comment of each, its signature and its contract, \
as they are written in the source. `requires` is what a call asks for, and
`ensures` what it promises; a call without `ensures` promises nothing but to be safe and to end. \
[PROMISES.md](../PROMISES.md) says how to read it, and what is promised from end
to end; `tools/believe --list CALL` prints a contract with all definitions that it rests on.

"""
HEAD = "Printed from the sources by `tools/believe --write-contracts`."


def is_listed(function: Function) -> bool:
    """Returns whether a function is public, and no call of a trait that a type has: the trait has
    that one."""
    return function.is_public and not function.is_of_trait()


def crates_in_order(repository: Repository) -> list[str]:
    """Returns the crates with public calls, each after those that it stands on."""
    with_calls = {it.source.crate for it in repository.functions() if is_listed(it)}
    return [it for it in crate_lines(repository.root) if it in with_calls]


def paragraphs_of(words: list[str]) -> str:
    """Returns the paragraphs of a comment, wrapped."""
    found = (" ".join(it.split()) for it in "\n".join(words).strip().split("\n\n"))
    wrapper = textwrap.TextWrapper(WIDTH, break_long_words=False, break_on_hyphens=False)
    return "\n\n".join(wrapper.fill(it) for it in found if it)


def comment_of(source: Source) -> str:
    """Returns what the root of a crate says of the crate: its first paragraph."""
    lines = takewhile(lambda it: it.startswith("//!"), source.text.split("\n"))
    return paragraphs_of([it[3:].strip() for it in lines]).split("\n\n")[0]


def entry_of(function: Function) -> str:
    """Returns the part of a call: its name, its comment, and its contract."""
    name = "::".join([*([function.holder.name] if function.holder else []), function.name])
    first, _, rest = function.text.partition("\n")
    inner = [textwrap.indent(textwrap.dedent(rest), "    ")] if rest else []
    contract = textwrap.indent("\n".join([first, *inner]), "    ")
    promises = any(kind == "ensures" for kind, _, _ in function.clauses)
    nothing = "" if promises else "\n\n*Promises nothing.*"
    return f"### `{name}`\n\n{paragraphs_of(function.doc)}{nothing}\n\n{contract}"


def page_of(repository: Repository, crate: str) -> str:
    """Returns the page of a crate: its calls, then those of each public module."""
    parts: dict[str, list[str]] = {}
    for source in repository.sources[crate]:
        module = "::".join(repository.public_modules(source))
        listed = (entry_of(it) for it in source.functions if is_listed(it))
        parts.setdefault(module, []).extend(listed)
    root = next(it for it in repository.sources[crate] if not it.module)
    sections = [
        "\n\n".join([f"## In `{module}`" if module else "## Calls", *entries])
        for module, entries in sorted(parts.items())
        if entries
    ]
    return "\n\n".join([f"# `{crate}`", comment_of(root), HEAD, *sections]) + "\n"


def pages_of(repository: Repository) -> dict[str, str]:
    """Returns the pages by the names of their files, and an index of them."""
    crates = crates_in_order(repository)
    pages = {f"{it}.md": page_of(repository, it) for it in crates}
    index = INDEX + "".join(f"- [`{it}`]({it}.md)\n" for it in crates)
    return {"README.md": index, **pages}


def write_pages(repository: Repository, folder: str) -> None:
    """Writes the pages into a folder, which is made if it is not there."""
    os.makedirs(folder, exist_ok=True)
    for page, text in pages_of(repository).items():
        write(os.path.join(folder, page), text)
