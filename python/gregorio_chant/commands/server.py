"""The sub-command `server`: its arguments."""
from __future__ import annotations

import argparse

from gregorio_chant.commands.words import OUTSIDE, Parser, add_no_config, settings_of

ABOUT = (
    f"Serves an editor by the language server protocol over standard input and output. {OUTSIDE}"
)
EPILOG = ""


def add(parser: Parser) -> None:
    """Adds the arguments of `server`."""
    parser.add_argument("--rules", action="store_true", help="also try the rules")
    add_no_config(parser)


def run(words: argparse.Namespace) -> int:
    """Serves until the editor ends it."""
    from gregorio_chant.server.serving import serve

    return serve(words.rules, settings_of(words))
