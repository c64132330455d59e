"""The sub-command `explain`: its arguments."""
from __future__ import annotations

import argparse

from gregorio_chant.commands.words import Parser, examples
from gregorio_chant.errors import UsageError
from gregorio_chant.linting.explaining import explain
from gregorio_chant.work.streams import write

ABOUT = "Explains codes and rules, each with a wrong line and its right one."
EPILOG = examples(
    (
        "gregorio-chant explain E4",
        "gregorio-chant explain w3 outside-staff",
        "gregorio-chant explain --all",
    )
)


def add(parser: Parser) -> None:
    """Adds the arguments of `explain`."""
    parser.add_argument(
        "codes", nargs="*", metavar="CODE", help="E4, W3, F6, or the name of a rule"
    )
    parser.add_argument("--all", action="store_true", help="explain all codes and rules")


def run(words: argparse.Namespace) -> int:
    """Writes the pages. Raises `UsageError` and `WriteError`."""
    if not words.codes and not words.all:
        raise UsageError("a code or --all is needed")
    write(explain(() if words.all else words.codes))
    return 0
