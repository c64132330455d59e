"""The sub-command `find`: its arguments."""
from __future__ import annotations

import argparse

from gregorio_chant.commands.table_words import add_table, table_of
from gregorio_chant.commands.words import OUTSIDE, Parser, epilog
from gregorio_chant.errors import UsageError
from gregorio_chant.tables.searching import (
    FOUND,
    IntervalSearch,
    NeumeSearch,
    Search,
    TextSearch,
    Together,
    VolpianoSearch,
)
from gregorio_chant.tables.tables import write_table

ABOUT = f"""Finds intervals, melodies, neumes or words in scores, and writes the place of each. With
several options it writes what the first of them in this list finds, if that shares a note with
something that each other one finds. It writes no file. {OUTSIDE}"""
EPILOG = epilog(
    (
        'gregorio-chant find --interval "+2 +1 -3" scores',
        "gregorio-chant find --neume 'torculus*' --output-format csv scores",
        "gregorio-chant find --interval '+1 -1' --text 'Kyri* elei*' scores",
        "gregorio-chant find --volpiano fghg scores",
    )
)


def add(parser: Parser) -> None:
    """Adds the arguments of `find`."""
    parser.add_argument(
        "--interval",
        metavar="STEPS",
        help="notes in a row at these intervals in steps, as +2 -1, also across bars",
    )
    parser.add_argument(
        "--volpiano",
        metavar="LETTERS",
        help="a melody in letters of Volpiano; clef, hyphens, bars and flats do not count",
    )
    parser.add_argument("--neume", metavar="KIND", help="neumes of this kind; * is any text")
    parser.add_argument(
        "--text",
        metavar="WORDS",
        help="words in a row; * is any text; accents and capitals do not count",
    )
    parser.add_argument(
        "--semitones", action="store_true", help="with --interval: count semitones, not steps"
    )
    add_table(parser)


def _search(words: argparse.Namespace) -> Together:
    if words.semitones and words.interval is None:
        raise UsageError("--semitones is for --interval")
    searches: list[Search] = []
    if words.interval is not None:
        searches.append(IntervalSearch.of(words.interval, words.semitones))
    if words.volpiano is not None:
        searches.append(VolpianoSearch.of(words.volpiano))
    if words.neume is not None:
        searches.append(NeumeSearch.of(words.neume))
    if words.text is not None:
        searches.append(TextSearch.of(words.text))
    if not searches:
        raise UsageError("one of --interval, --volpiano, --neume and --text is needed")
    return Together(searches[0], tuple(searches[1:]))


def run(words: argparse.Namespace) -> int:
    """Writes what is found. Raises `UsageError`, `WriteError`, `MissingDependency` and
    `SettingsError`."""
    return write_table(table_of(words), FOUND, _search(words))
