"""The sub-command `index`: its arguments."""
from __future__ import annotations

import argparse

from gregorio_chant.commands.table_words import add_table, table_of
from gregorio_chant.commands.words import OUTSIDE, Parser, epilog
from gregorio_chant.tables.indexing import Index
from gregorio_chant.tables.tables import write_table

ABOUT = f"""Writes a row for each score: its name, office part and mode, its first words and
degrees, its last, lowest and highest degree, the steps between the lowest and the highest, and its
beginning in Volpiano. {OUTSIDE}"""
EPILOG = epilog(
    (
        "gregorio-chant index scores",
        "gregorio-chant index --header book,commentary --output-format csv scores >index.csv",
        "gregorio-chant index --output-format json --quiet scores",
    )
)


def add(parser: Parser) -> None:
    """Adds the arguments of `index`."""
    parser.add_argument(
        "--header",
        action="append",
        default=[],
        metavar="NAMES",
        help="add a column for each of these headers, with commas between them, as book,commentary",
    )
    add_table(parser)


def run(words: argparse.Namespace) -> int:
    """Writes the rows. Raises `UsageError`, `WriteError`, `MissingDependency` and
    `SettingsError`."""
    make = Index.of(words.header)
    return write_table(table_of(words), make.columns, make)
