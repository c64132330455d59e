"""What the sub-commands share: usage errors, the layout of help, and the arguments for files."""
from __future__ import annotations

import argparse
import itertools
import os
import textwrap
from collections.abc import Iterable, Mapping, Sequence
from typing import TYPE_CHECKING, Any, NoReturn, Protocol, TypedDict

from gregorio_chant.errors import UsageError
from gregorio_chant.text.nearest import did_you_mean
from gregorio_chant.work.statuses import REFUSED
from gregorio_chant.work.streams import STDIN, tell, write

if TYPE_CHECKING:
    from gregorio_chant.work.settings import Finder

OUTSIDE = "The compiler is proved; this command is tested."
STATUSES = """exit status, the highest of: 0 no error, 1 errors (format: a file would change or was
refused), 2 a fatal fault, 3 wrong arguments or a missing package, 4 a file could not be read or
written, 5 no memory"""
_STAGED = "read all staged scores of git, or those below the PATHs, and not the files"
_PATHS = (
    f"a file, a folder for the scores below it, or {STDIN} for standard input; after -- every"
    " argument is a path"
)


class Help(argparse.HelpFormatter):
    """Wraps paragraphs at the width of the terminal. A line that begins with a blank stays as it
    is."""

    def _fill_text(self, text: str, width: int, indent: str) -> str:
        lines: list[str] = []
        for stays, block in itertools.groupby(text.split("\n"), lambda it: it[:1] in ("", " ")):
            lines += (
                block if stays else textwrap.wrap(" ".join(block), width, break_on_hyphens=False)
            )
        return "\n".join(f"{indent}{it}".rstrip() for it in lines)


class Parser(argparse.ArgumentParser):
    """Prints usage errors on one line, with the nearest valid argument, and ends with the status of
    wrong arguments."""

    def __init__(self, **settings: Any) -> None:
        super().__init__(**settings, formatter_class=Help)

    def error(self, message: str) -> NoReturn:
        tell(f"{message}; {self.prog} --help says more")
        raise SystemExit(REFUSED)

    def refuse_unknown(self, words: Sequence[str]) -> NoReturn:
        """Refuses the first of these arguments, which are unknown."""
        question = did_you_mean(words[0], self._option_string_actions, "")
        self.error(f"unknown argument: {words[0]}{question and '; '}{question}")

    def _check_value(self, action: argparse.Action, value: object) -> None:
        if action.choices is not None and value not in action.choices:
            known = [str(it) for it in action.choices]
            what = (
                f"{action.option_strings[-1]} {value}"
                if action.option_strings
                else f"{value} is no {str(action.metavar).lower()}"
            )
            raise argparse.ArgumentError(
                None,
                f"{what}: {did_you_mean(str(value), known, 'it is one of ' + ', '.join(known))}",
            )

    def _print_message(self, message: str, file: object = None) -> None:
        write(message)


class Command(Protocol):
    """A module of a sub-command: what its help says before and after the arguments, these, and what
    it does."""

    ABOUT: str
    EPILOG: str

    def add(self, parser: Parser) -> None:
        """Adds the arguments of the sub-command."""

    def run(self, words: argparse.Namespace) -> int:
        """Runs the sub-command with these arguments, and returns the exit status."""


def examples(lines: Iterable[str]) -> str:
    """Returns the part of a help with lines to copy."""
    return "\n".join(["examples:", *(f"    {it}" for it in lines)])


def epilog(lines: Iterable[str]) -> str:
    """Returns what stands after the arguments of a command that has a status: lines to copy, and
    what each status says."""
    return f"{examples(lines)}\n\n{STATUSES}"


def known() -> frozenset[str]:
    """Returns all codes and rules."""
    from gregorio_chant.linting.codes import CODES
    from gregorio_chant.linting.rules import RULES

    return frozenset((*CODES, *RULES))


def add_files(parser: Parser, more: str = "") -> None:
    """Adds the arguments for files and folders."""
    parser.add_argument("paths", nargs="*", metavar="PATH", help=f"{_PATHS}{more}")
    parser.add_argument(
        "--exclude",
        action="append",
        default=[],
        metavar="PATTERN",
        help=(
            "leave these files out of folders, as a line of .gitignore would; may be given several"
            " times"
        ),
    )


def add_paths(parser: Parser, more: str = "", with_staged: str = "") -> None:
    """Adds the arguments for files and folders, and `--staged`."""
    add_files(parser, more)
    parser.add_argument("--staged", action="store_true", help=f"{with_staged}{_STAGED}")


def add_flags(parser: Parser, helps: Mapping[str, str]) -> None:
    """Adds options that take no value, each with its help."""
    for name, help in helps.items():
        parser.add_argument(name, action="store_true", help=help)


def add_jobs(parser: Parser) -> None:
    """Adds `--jobs`."""
    parser.add_argument(
        "--jobs",
        type=positive,
        metavar="N",
        default=len(os.sched_getaffinity(0)),
        help="number of parallel jobs (default %(default)s)",
    )


def add_no_config(parser: Parser) -> None:
    """Adds `--no-config`."""
    from gregorio_chant.work.keys import FILE

    parser.add_argument("--no-config", action="store_true", help=f"read no {FILE}")


def settings_of(words: argparse.Namespace) -> Finder:
    """Returns the finder of settings."""
    from gregorio_chant.work.settings import Finder, NoSettings

    return NoSettings() if words.no_config else Finder(known())


class Shared(TypedDict):
    """The options that the commands over files have in common, as `work.scores.Options` has
    them."""

    paths: tuple[str, ...]
    exclude: tuple[str, ...]
    settings: Finder
    staged: bool
    jobs: int
    quiet: bool


def shared(words: argparse.Namespace) -> Shared:
    """Returns the options that commands over files have in common. Raises `UsageError` if no file
    is named and `--staged` is not given."""
    is_staged = getattr(words, "staged", False)
    if not words.paths and not is_staged:
        raise UsageError(
            "a PATH is needed, or --staged" if "staged" in words else "a PATH is needed"
        )
    return Shared(
        paths=tuple(words.paths),
        exclude=tuple(words.exclude),
        settings=settings_of(words),
        staged=is_staged,
        jobs=getattr(words, "jobs", 1),
        quiet=getattr(words, "quiet", False),
    )


def positive(word: str) -> int:
    """Returns the number in `word`. Raises `ValueError` if it is no number from 1."""
    number = int(word)
    if number < 1:
        raise ValueError
    return number


positive.__name__ = "number"
