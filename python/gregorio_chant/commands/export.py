"""The sub-command `export`: its arguments."""
from __future__ import annotations

import argparse

from gregorio_chant.commands.words import (
    OUTSIDE,
    Parser,
    add_files,
    add_no_config,
    epilog,
    positive,
    shared,
)
from gregorio_chant.errors import UsageError
from gregorio_chant.export import Way, mei, musicxml, volpiano
from gregorio_chant.export.exporting import Options, export
from gregorio_chant.work.needs import need

_TEMPO = 140
# The formats but MIDI, which wants a package.
_WAYS = {it.name: it for it in (volpiano.WAY, musicxml.WAY, mei.WAY)}
ABOUT = f"""Writes scores in another format, into files with the same name and another ending:
volpiano (.volpiano) for chant databases, musicxml (.musicxml) for editors of modern notation, mei
(.mei) for scholars, midi (.mid) for listening. A line names each kind of sign that the format
loses. {OUTSIDE}"""
EPILOG = epilog(
    (
        "gregorio-chant export --to musicxml score.gabc",
        "gregorio-chant export --to volpiano - <score.gabc",
        "gregorio-chant export --to midi --force --tempo 120 scores",
    )
)


def add(parser: Parser) -> None:
    """Adds the arguments of `export`."""
    parser.add_argument(
        "--to",
        choices=(*_WAYS, "midi"),
        required=True,
        metavar="FORMAT",
        help="volpiano, musicxml, mei or midi",
    )
    add_files(parser, ", which is written to standard output")
    parser.add_argument(
        "--folder",
        metavar="DIR",
        help="write the files into this folder, and not beside the scores",
    )
    parser.add_argument("--force", action="store_true", help="replace files that are there already")
    parser.add_argument(
        "--tempo",
        type=positive,
        default=_TEMPO,
        metavar="N",
        help="with midi: notes per minute (default %(default)s)",
    )
    add_no_config(parser)
    parser.add_argument("--quiet", action="store_true", help="write no summary")


def _midi(notes_a_minute: int) -> Way:
    need("export --to midi", "mido")
    from gregorio_chant.export.midi import midi_of

    return Way("midi", ".mid", lambda score: midi_of(score, notes_a_minute), frozenset())


def run(words: argparse.Namespace) -> int:
    """Writes the files. Raises `UsageError`, `WriteError`, `MissingDependency` and
    `SettingsError`."""
    if words.tempo > 1_000:
        raise UsageError(f"--tempo {words.tempo}: at most 1,000 notes a minute")
    files = shared(words)
    way = _WAYS[words.to] if words.to in _WAYS else _midi(words.tempo)
    return export(Options(**files, way=way, folder=words.folder, is_forced=words.force))
