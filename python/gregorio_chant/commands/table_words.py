"""The arguments that the sub-commands of tables share."""
from __future__ import annotations

import argparse

from gregorio_chant.commands.words import Parser, add_files, add_jobs, add_no_config, shared
from gregorio_chant.errors import UsageError
from gregorio_chant.tables.tables import FORMS, Options


def add_table(parser: Parser) -> None:
    """Adds the arguments of a table over files."""
    add_files(parser)
    parser.add_argument(
        "--output-format",
        choices=FORMS,
        default="text",
        metavar="FORM",
        help="text (default), csv or json",
    )
    parser.add_argument(
        "--bom",
        action="store_true",
        help="with csv: begin with a byte order mark, as some spreadsheets need it for accents",
    )
    add_jobs(parser)
    add_no_config(parser)
    parser.add_argument("--quiet", action="store_true", help="write no summary")


def table_of(words: argparse.Namespace) -> Options:
    """Returns the options of a table. Raises `UsageError` if no path is named, and for `--bom`
    without CSV."""
    if words.bom and words.output_format != "csv":
        raise UsageError("--bom is for --output-format csv")
    return Options(**shared(words), form=words.output_format, has_mark=words.bom)
