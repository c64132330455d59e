"""The sub-command `version`."""
from __future__ import annotations

import argparse

from gregorio_chant._native.origin import origin
from gregorio_chant.commands.words import Parser
from gregorio_chant.work.streams import NAME as COMMAND
from gregorio_chant.work.streams import write

ABOUT = (
    "Writes the versions of the command and of its library, and the commit and the kit from which"
    " the library was built."
)
EPILOG = ""


def add(parser: Parser) -> None:
    """Adds the sub-command `version`, which has no arguments."""


def run(words: argparse.Namespace) -> int:
    """Writes the lines. Raises `WriteError`."""
    it = origin()
    write(f"{COMMAND} {it.version}\nlibrary {it.library}\ncommit {it.commit}\nkit {it.kit}\n")
    return 0
