"""The command `gregorio-chant`: its sub-commands, and its statuses. A sub-command is imported when
it is asked for, so that each begins at once."""
from __future__ import annotations

from collections.abc import Iterable, Sequence
from importlib import import_module
from typing import cast

from gregorio_chant import __version__
from gregorio_chant.commands.words import STATUSES, Command, Parser, examples
from gregorio_chant.errors import GregorioError
from gregorio_chant.work.statuses import NO_MEMORY
from gregorio_chant.work.streams import NAME, WriteError, tell

_ABOUT = """Checks, formats and explains chant scores in GABC.

The messages E, W and F and the canonical form come from a compiler that is proved to follow its
definition. The rest is outside that proof, and tested: reading and writing files, showing messages,
the rules, the server."""
_EXAMPLES = examples(
    (
        "gregorio-chant check scores",
        "gregorio-chant format --diff score.gabc",
        "gregorio-chant explain E4",
    )
)
# What each sub-command does. Its module has its name.
COMMANDS = {
    "check": "check scores, and repair them",
    "format": "write files in canonical spelling, with the lines and comments of their editor",
    "show": "write pictures of scores, with their messages, as a page",
    "page": "serve a page to write a score in, with its picture",
    "explain": "explain a code or a rule, with a wrong line and its right one",
    "export": "write scores as Volpiano, MusicXML, MEI or MIDI",
    "find": "find intervals, neumes, words or melodies in scores",
    "index": "write a row for each score, with its first words and degrees",
    "neumes": "count the neumes of scores",
    "server": "serve an editor by the language server protocol",
    "version": "write the versions of the command and of its library",
}


def _command(name: str) -> Command:
    return cast(Command, import_module(f"gregorio_chant.commands.{name}"))


def parsers(wanted: Iterable[str] = tuple(COMMANDS)) -> tuple[Parser, dict[str, Parser]]:
    """Returns the parser of the command's arguments, and that of each sub-command; those that are
    not wanted take no arguments."""
    top = Parser(prog=NAME, description=_ABOUT, epilog=f"{_EXAMPLES}\n\n{STATUSES}")
    top.add_argument("--version", action="version", version=f"{NAME} {__version__}")
    commands = top.add_subparsers(dest="command", required=True, metavar="COMMAND")
    by_name = {name: commands.add_parser(name, help=help) for name, help in COMMANDS.items()}
    for name in wanted:
        command = _command(name)
        by_name[name].description, by_name[name].epilog = command.ABOUT, command.EPILOG
        command.add(by_name[name])
    return top, by_name


def _run(words: Sequence[str]) -> int:
    first = next((it for it in words if not it.startswith("-")), "")
    top, by_name = parsers({first} & set(COMMANDS))
    asked, unknown = top.parse_known_args(words)
    if unknown:
        by_name[asked.command].refuse_unknown(unknown)
    return _command(asked.command).run(asked)


def main(words: Sequence[str]) -> int:
    """Does what the words of the command ask for, and returns the exit status."""
    try:
        return _run(words)
    except WriteError as error:
        if not error.is_closed:
            tell(f"cannot write: {error}")
        return error.status
    except GregorioError as error:
        tell(str(error))
        return error.status
    except MemoryError:
        tell("no memory")
        return NO_MEMORY
