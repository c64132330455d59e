"""The sub-command `neumes`: its arguments."""
from __future__ import annotations

import argparse

from gregorio_chant.commands.table_words import add_table, table_of
from gregorio_chant.commands.words import OUTSIDE, Parser, epilog
from gregorio_chant.tables.searching import NEUME, each_neume
from gregorio_chant.tables.tables import write_table
from gregorio_chant.tables.totals import write_totals

ABOUT = f"""Counts the neumes of scores. It writes a row for each kind, the most frequent first,
with the place of the first one. {OUTSIDE}"""
EPILOG = epilog(
    (
        "gregorio-chant neumes scores",
        "gregorio-chant neumes --each --output-format csv scores >neumes.csv",
        "gregorio-chant neumes --quiet scores",
    )
)


def add(parser: Parser) -> None:
    """Adds the arguments of `neumes`."""
    parser.add_argument("--each", action="store_true", help="write a row for each neume, in order")
    add_table(parser)


def run(words: argparse.Namespace) -> int:
    """Writes the rows. Raises `UsageError`, `WriteError`, `MissingDependency` and
    `SettingsError`."""
    options = table_of(words)
    return write_table(options, NEUME, each_neume) if words.each else write_totals(options)
