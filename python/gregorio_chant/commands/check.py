"""The sub-command `check`: its arguments."""
from __future__ import annotations

import argparse

from gregorio_chant.commands.words import (
    OUTSIDE,
    Parser,
    add_flags,
    add_jobs,
    add_no_config,
    add_paths,
    epilog,
    known,
    shared,
)
from gregorio_chant.errors import UsageError
from gregorio_chant.linting import checking
from gregorio_chant.linting.fixing import Fixed, fix_files
from gregorio_chant.linting.selection import codes_in
from gregorio_chant.work.settings import Chosen
from gregorio_chant.work.streams import STDIN

ABOUT = (
    "Checks scores, and says what to write instead of each mistake. It writes no file without"
    f" --fix. {OUTSIDE}"
)
EPILOG = epilog(
    (
        "gregorio-chant check scores",
        "gregorio-chant check --select E,F --exclude drafts/ scores",
        "gregorio-chant check --output-format sarif scores >scores.sarif",
    )
)


def add(parser: Parser) -> None:
    """Adds the arguments of `check`."""
    add_paths(parser)
    parser.add_argument(
        "--output-format",
        choices=checking.FORMS,
        default="text",
        metavar="FORM",
        help="text with the line of the score (default), lines for editors, json, github or sarif",
    )
    parser.add_argument(
        "--select",
        metavar="CODES",
        help=(
            "report only these: codes with commas between them; E, W or F is a whole kind, rules"
            " are all rules"
        ),
    )
    parser.add_argument(
        "--ignore", metavar="CODES", help="do not report these; a fatal fault is always reported"
    )
    parser.add_argument(
        "--fail-on", metavar="CODES", help="end with status 1 if one of these is reported"
    )
    add_flags(
        parser,
        {
            "--rules": (
                "also try the rules, for mistakes that the language allows; explain --all lists"
                " them"
            ),
            "--fix": (
                "repair the files first, then report the rest; no note and no sung letter changes"
            ),
            "--unsafe-fixes": (
                "with --fix: also guess, as where a bracket is missing; each guess says what it"
                " changes"
            ),
            "--diff": "with --fix: write no file, and show the changes as a diff",
        },
    )
    add_jobs(parser)
    add_no_config(parser)
    parser.add_argument("--quiet", action="store_true", help="write no summary")


def _codes(word: str | None) -> frozenset[str] | None:
    return None if word is None else codes_in(word, known())


def _fix(words: argparse.Namespace, options: checking.Options) -> Fixed:
    """Repairs files where that is asked for."""
    if not words.fix:
        if words.unsafe_fixes or words.diff:
            raise UsageError("--unsafe-fixes and --diff are for --fix")
        return Fixed(0, {})
    if words.staged or STDIN in words.paths:
        raise UsageError(f"--fix writes files, so it takes neither --staged nor {STDIN}")
    return fix_files(options, words.unsafe_fixes, words.diff)


def run(words: argparse.Namespace) -> int:
    """Checks the files. Raises `UsageError`, `WriteError`, `MissingDependency`, `GitError` and
    `SettingsError`."""
    chosen = Chosen(_codes(words.select), _codes(words.ignore), _codes(words.fail_on))
    options = checking.Options(
        **shared(words), chosen=chosen, form=words.output_format, with_rules=words.rules
    )
    fixed = _fix(words, options)
    return fixed.status if words.diff else max(fixed.status, checking.check(options, fixed.checked))
