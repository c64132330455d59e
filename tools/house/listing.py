"""Prints what the contract of a call rests on: counts, modules, and the definitions themselves."""

from __future__ import annotations

from house.belief import Belief, belief_of
from house.definitions import Definition
from house.files import plural
from house.repository import Repository
from house.source import Declared, Function

MAIN = (
    *("compile", "score_whole", "headers_whole", "text_whole", "snippet_whole", "nabc_whole"),
    *("is_snippet", "items_whole", "note_of", "elements", "cut", "plan", "text_of", "send_all"),
    *("canon_header", "canon_syllable", "message_line", "write_text", "regular_text"),
    *("gabc_write::dump_syllable", "gabc_tree::tree_of", "gregorio_c::gregorio_compile"),
    *("gabc_draw::picture_of", "gabc_svg::put_picture", "gregorio_c::gregorio_tree"),
    *("gregorio_c::gregorio_draw", "gabc_score::ScoreStage::with_limits"),
    *("gregorio::Engine::new", "gregorio::Engine::save_into", "gregorio::Engine::restore"),
)


def print_counts(name: str, belief: Belief) -> None:
    """Prints how many definitions and types it is."""
    it = belief.counts()
    print(
        f"{name}: {plural(it.modules, 'module')}, {plural(it.definitions, 'definition')},"
        f" {plural(it.lines, 'line')}; and {plural(it.types, 'type')} of the source,"
        f" {plural(it.type_lines, 'line')}"
    )


def _line_of(where: str, items: list[Definition] | list[Declared]) -> str:
    lines = plural(sum(it.count() for it in items), "line")
    return f"  {where}: {lines}: {', '.join(it.name for it in items)}"


def print_modules(belief: Belief) -> None:
    """Prints the names of the definitions by their modules, and those of the types by files."""
    for module in belief.modules():
        where = f"{module.crate} specs/{module.name.replace('.', '/')}"
        print(_line_of(where, belief.items_in(module)))
    for crate, names in belief.witness_names():
        print(f"  any function with these laws: {crate} specs/witness: {', '.join(names)}")
    by_file: dict[tuple[str, str], list[Declared]] = {}
    for it in belief.types.values():
        path = belief.repository.below(it.source.path)
        by_file.setdefault((it.source.crate, path), []).append(it)
    for (_, path), types in sorted(by_file.items()):
        print(_line_of(path, types))


def _print_part(where: str, lines: list[str]) -> None:
    print(f"==== {where}\n")
    print("\n".join(lines) + "\n")


def print_list(name: str, function: Function, belief: Belief) -> None:
    """Prints the contract of a call, and all definitions that it rests on."""
    below = belief.repository.below
    _print_part(name, [*(f"/// {line}" for line in function.doc), function.text])
    for it in sorted(belief.types.values(), key=lambda it: (it.source.path, it.name)):
        if it.what != "trait":
            _print_part(below(it.source.path), [*it.comment, *it.lines])
    for source, holder in belief.holders.values():
        comment = [f"/// {line}" for line in source.doc_before(holder.begin)]
        _print_part(below(source.path), [*comment, holder.text])
    for module in belief.modules():
        print(f"==== {below(module.path)}\n")
        for item in belief.items_in(module):
            section = [f"-- with {item.parameters}"] if item.parameters else []
            print("\n".join([*item.comment, *section, *item.lines]) + "\n")
    _print_ends(belief)


def _print_ends(belief: Belief) -> None:
    """Prints at what the way ends: witnesses, and words of the kit's libraries."""
    print("==== any function with these laws\n")
    for crate, names in belief.witness_names():
        print(f"{crate} specs/witness: {' '.join(names)}")
    print("\n==== words of the kit's libraries\n")
    by_module: dict[str, list[str]] = {}
    for path in belief.words:
        module, _, word = path.rpartition(".")
        by_module.setdefault(module, []).append(word)
    for module, words in sorted(by_module.items()):
        print(f"{module}: {' '.join(sorted(words))}")


def table_of(repository: Repository) -> str:
    """Returns the table of the main calls, in markdown. Raises `Fault` if one is not there."""
    rows = [
        "| Call | Modules | Definitions | Lines | Types of the source |",
        "|---|---|---|---|---|",
    ]
    for call in MAIN:
        name, _, belief = belief_of(repository, call)
        it = belief.counts()
        rows.append(f"| `{name}` | {it.modules} | {it.definitions} | {it.lines} | {it.types} |")
    return "\n".join(rows)
