"""The sub-command `page`: its arguments."""
from __future__ import annotations

import argparse

from gregorio_chant.commands.words import OUTSIDE, Parser, add_no_config, epilog, settings_of
from gregorio_chant.work.needs import need
from gregorio_chant.work.streams import STDIN

NAME = "page"
_MOST_PORT = 65_535
ABOUT = f"""Serves a page in which you write, paste or drop a score. While you type it shows the
picture, the messages, the canonical form, the tree and the dump. The page is for this machine
alone, and keeps no score. The first line of standard output is its address. Control-C ends it.
{OUTSIDE}"""
EPILOG = epilog(
    ("gregorio-chant page", "gregorio-chant page --port 8080", "gregorio-chant page --rules")
)


def port(word: str) -> int:
    """Returns the number of a port. Raises `ValueError` where `word` is none."""
    number = int(word)
    if not 0 <= number <= _MOST_PORT:
        raise ValueError
    return number


def add(parser: Parser) -> None:
    """Adds the arguments of `page`."""
    parser.add_argument(
        "--port",
        type=port,
        default=0,
        metavar="N",
        help="serve at this port (default 0: any free port)",
    )
    parser.add_argument("--rules", action="store_true", help="also try the rules")
    add_no_config(parser)


def run(words: argparse.Namespace) -> int:
    """Serves the page until it is ended. Raises `WriteError`, `MissingDependency` and
    `SettingsError`."""
    need(NAME, "starlette", "uvicorn")
    from gregorio_chant.web.answers import Answers
    from gregorio_chant.web.serving import serve

    settings = settings_of(words)
    settings.of(STDIN)
    return serve(words.port, Answers(words.rules, settings))
