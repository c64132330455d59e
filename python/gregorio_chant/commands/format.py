"""The sub-command `format`: its arguments."""
from __future__ import annotations

import argparse

from gregorio_chant.commands.words import (
    OUTSIDE,
    Parser,
    add_flags,
    add_jobs,
    add_no_config,
    add_paths,
    epilog,
    positive,
    shared,
)
from gregorio_chant.errors import UsageError
from gregorio_chant.format import formatting
from gregorio_chant.format.losses import REASONS
from gregorio_chant.text.nearest import did_you_mean

ABOUT = f"""Writes headers and syllables in canonical spelling, and keeps lines, empty lines and
comments. A part with a message keeps its spelling. A file is written only if the compiler gives the
same canonical form, tree and messages for the new text. The new file is written beside the old one,
and then replaces it. {OUTSIDE}"""
EPILOG = epilog(
    (
        "gregorio-chant format scores",
        "gregorio-chant format --check --exclude drafts/ scores",
        "gregorio-chant format --diff --wrap 80 score.gabc",
    )
)


def add(parser: Parser) -> None:
    """Adds the arguments of `format`."""
    add_paths(parser, ", which is written to standard output", "with --check or --diff: ")
    parser.add_argument(
        "--wrap",
        type=positive,
        metavar="N",
        help="break lines of more than N characters between words",
    )
    parser.add_argument(
        "--allow",
        metavar="REASONS",
        default="",
        help=(
            "with --canonical: allow these losses, with commas between them:"
            f" {', '.join(sorted(REASONS))}"
        ),
    )
    add_flags(
        parser,
        {
            "--check": "write nothing; end with status 1 if a file would change",
            "--diff": (
                "write no file, and show the changes as a diff; end with status 1 if there are any"
            ),
            "--canonical": (
                "write the canonical form, one word on each line and no comments, if only blanks"
                " change"
            ),
        },
    )
    add_jobs(parser)
    add_no_config(parser)
    parser.add_argument("--quiet", action="store_true", help="write no summary")


def _allowed(words: argparse.Namespace) -> frozenset[str]:
    """Returns the reasons of `--allow`. Raises `UsageError` for other words, and for words that
    do not go together."""
    allow = frozenset(it.strip() for it in words.allow.split(",") if it.strip())
    for word in sorted(allow - REASONS):
        raise UsageError(
            f"--allow {word}: nothing goes for this;"
            f" {did_you_mean(word, REASONS, '--help lists the reasons')}"
        )
    if words.canonical and words.wrap is not None:
        raise UsageError("--wrap is not for --canonical, which has a word on each line")
    if allow and not words.canonical:
        raise UsageError("--allow is for --canonical: without it nothing goes")
    if words.staged and not (words.check or words.diff):
        raise UsageError("--staged writes nothing, so it wants --check or --diff")
    return allow


def run(words: argparse.Namespace) -> int:
    """Formats the files. Raises `UsageError`, `WriteError`, `MissingDependency`, `GitError` and
    `SettingsError`."""
    allow = _allowed(words)
    style = formatting.Style(words.canonical, words.wrap)
    return formatting.format_files(
        formatting.Options(
            **shared(words), style=style, allow=allow, checks=words.check, shows_diff=words.diff
        )
    )
