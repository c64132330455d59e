"""Writes the tables that are made of the outlines of the Python package and of the widths of
letters: those of the crate `gabc_marks`, and the outlines for JavaScript, those of NABC in a module
of their own. `tools/make_symbols` calls it, and `tools/tests/test_outlines.py` compares.

Usage: outline_tables.py"""

from __future__ import annotations

import json
import re
import runpy
from collections.abc import Iterable, Iterator
from pathlib import Path
from typing import NamedTuple

from house import files
from house.letter_widths import LETTERS

ROOT = Path(files.ROOT)
PICTURES = ROOT / "python" / "gregorio_chant" / "pictures"
MARKS = ROOT / "crates" / "gabc_marks" / "src"
SCRIPT = ROOT / "js" / "src" / "outlines.js"
NEUMES = ROOT / "js" / "src" / "neumes.js"
# A line of a table of a crate has no more columns.
COLUMNS = 99
# The hands of NABC: the file of the table in the package and in the crate, and what begins the
# names of their outlines in a picture.
HANDS = (("stgall", "st_gall", "stgall-"), ("laon", "laon", "laon-"))
NAMES = runpy.run_path(str(PICTURES / "glyphs.py"))


class Outline(NamedTuple):
    """An outline: its path, how wide it is, and how far it goes up and down from its origin, in
    tenths of a staff space."""

    path: str
    width: float
    up: float
    down: float

    @property
    def thousandths(self) -> tuple[int, int, int]:
        """The width, up and down in thousandths of a staff space."""
        return round(self.width * 100), round(self.up * 100), round(self.down * 100)


def key_of(name: str) -> int | None:
    """Returns the number by which the table of the crate has an outline of several notes: that of
    its family, the steps, whether it begins with an initio debilis, and the number of its
    ending."""
    joined = NAMES["joined_of"](name)
    if joined is None:
        return None
    first, second, third = (*joined.steps, 0, 0)[:3]
    family = list(NAMES["FAMILIES"]).index(joined.family)
    number = family * 4096 + first * 512 + second * 64 + third * 8
    ending = list(NAMES["ENDINGS"]).index(joined.ending)
    return int(number + 4 * joined.is_debilis + ending)


def lines_of(table: str) -> list[str]:
    """Returns the lines of a table of the package."""
    return (PICTURES / "symbols" / f"{table}.tsv").read_text(encoding="utf-8").splitlines()


def outlines_of(table: str) -> dict[str, Outline]:
    """Returns the outlines of a table by their names there, also by those that share one."""
    rows = [it.split("\t") for it in lines_of(table) if not it.startswith("#")]
    own = {name: Outline(rest[3], *map(float, rest[:3])) for name, *rest in rows if len(rest) == 4}
    shared = {name: own[rest[0]] for name, *rest in rows if len(rest) == 1}
    return {**own, **shared}


def joined_outlines() -> list[tuple[int, Outline]]:
    """Returns the outlines of several notes by their numbers, in the order of these."""
    found = ((key_of(name), outline) for name, outline in outlines_of("square").items())
    return sorted((key, outline) for key, outline in found if key is not None)


def named_outlines() -> dict[str, Outline]:
    """Returns all outlines of notes and signs by their names: those of a font, and of the
    project's own those that the font lacks."""
    return {**outlines_of("own"), **outlines_of("square")}


def letter_widths() -> list[tuple[int, int]]:
    """Returns the characters in order, each with its width."""
    return sorted((ord(it), width) for width, letters in LETTERS.items() for it in letters)


# ---- the tables of the crate


def filled(items: Iterable[str]) -> Iterator[str]:
    """Yields lines of a table with as many items as there is room for."""
    line = "   "
    for item in items:
        if len(line) + len(item) + 2 > COLUMNS:
            yield line
            line = "   "
        line += f" {item},"
    yield line


def with_rows(path: Path, rows: Iterable[tuple[int | str, ...]]) -> str:
    """Returns the text of a source of the crate with these rows in its table."""
    items = [f"({', '.join(map(json.dumps, it))})" for it in rows]
    text = path.read_text(encoding="utf-8")
    text = re.sub(r"const COUNT: usize = \d+;", f"const COUNT: usize = {len(items)};", text)
    table = "\n".join(filled(items))
    return re.sub(r"(; COUNT\] = \[\n).*?(\n\];)", rf"\g<1>{table}\2", text, flags=re.DOTALL)


def hand_table(table: str, file: str) -> str:
    """Returns the source of the crate with the table of a hand, in the order of the names."""
    rows = sorted(outlines_of(table).items())
    return with_rows(MARKS / f"{file}.rt", ((name, *it.thousandths) for name, it in rows))


# ---- the outlines for JavaScript

_SCRIPT = """\
// The outlines of notes and signs, by the names that a picture of the core has for them: each \
with its width and its path, in tenths of a staff space, around its
// origin. `tools/make_symbols` makes this file.

// What a picture says of its outlines.
export const NOTICE = {notice};

// The licence of the outlines.
export const LICENCE = {licence};

export const OUTLINES = {{
{rows}
}};
"""
_NEUMES_SCRIPT = """\
// The outlines of NABC, by the names that a picture of the core has for them: each with its width \
and its path, in tenths of a staff space. Its ink begins at its
// origin. `tools/make_symbols` makes this file. The licence of the outlines is that \
of `outlines.js`.

// What a picture says of its outlines of NABC.
export const NEUMES_NOTICE = {notice};

export const NEUMES = {{
{rows}
}};
"""


def notice(table: str) -> str:
    """Returns whose the outlines of a table are, and under which licence, as it says it."""
    return " ".join(it.removeprefix("# ") for it in lines_of(table) if it.startswith("#"))


def licence_text() -> str:
    """Returns the licence of the outlines that are of a font."""
    text = (PICTURES / "symbols" / "OFL.txt").read_text(encoding="utf-8")
    return text[text.index("SIL OPEN FONT LICENSE") :]


def script_rows(outlines: dict[str, Outline]) -> str:
    """Returns the rows of a module with these outlines."""
    return "\n".join(
        f'  "{name}": {{ width: {it.width:g}, path: {json.dumps(it.path)} }},'
        for name, it in sorted(outlines.items())
    )


def script() -> str:
    """Returns the module of outlines."""
    return _SCRIPT.format(
        notice=json.dumps(f"{notice('square')} {notice('own')}"),
        licence=json.dumps(licence_text()),
        rows=script_rows(named_outlines()),
    )


def neumes() -> dict[str, Outline]:
    """Returns the outlines of NABC by the names that the core gives to them."""
    return {
        prefix + name: outline
        for table, _, prefix in HANDS
        for name, outline in outlines_of(table).items()
    }


def neumes_script() -> str:
    """Returns the module of the outlines of NABC."""
    told = " ".join(notice(table) for table, _, _ in HANDS)
    return _NEUMES_SCRIPT.format(notice=json.dumps(told), rows=script_rows(neumes()))


def made_files() -> dict[Path, str]:
    """Returns the text of each file that is made."""
    outlines, widths = MARKS / "outlines.rt", MARKS / "width_table.rt"
    joined = ((key, *outline.thousandths) for key, outline in joined_outlines())
    return {
        outlines: with_rows(outlines, joined),
        widths: with_rows(widths, letter_widths()),
        **{MARKS / f"{file}.rt": hand_table(table, file) for table, file, _ in HANDS},
        SCRIPT: script(),
        NEUMES: neumes_script(),
    }


def main() -> None:
    """Writes the files."""
    for path, text in made_files().items():
        path.write_text(text, encoding="utf-8")


if __name__ == "__main__":
    main()
