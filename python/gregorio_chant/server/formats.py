"""Formats a score that is open, as `format` does, or the lines of a range."""
from __future__ import annotations

import difflib
from collections.abc import Iterator

from gregorio_chant.errors import GregorioError
from gregorio_chant.format.formatting import formatted
from gregorio_chant.format.judge import Reading, difference
from gregorio_chant.format.losses import without_blanks
from gregorio_chant.objects.compiled import Compiled
from gregorio_chant.server.document import Document
from gregorio_chant.server.protocol import Json, Params, Position, Range
from gregorio_chant.server.text import Text


class RequestRefused(GregorioError):
    """What was asked for is not done, which is no fault of the editor's. It is shown."""


def _formatted(document: Document) -> str:
    """Returns what the score is formatted to. Raises `RequestRefused` where it has to stay as it
    is."""
    made = formatted(document.text.data, document.file.style)
    reasons = made.reasons()
    if reasons:
        raise RequestRefused("\n".join([f"The score stays as it is: {reasons[0]}", *reasons[1:]]))
    return made.data.decode("utf-8")


def formatted_all(document: Document, params: Params) -> Json:
    """Returns the edit that formats the score."""
    return [
        {
            "range": Range(Position(0, 0), document.text.end()).to_json(),
            "newText": _formatted(document),
        }
    ]


def formatted_lines(document: Document, params: Params) -> Json:
    """Returns the edits that format the lines of a range. Raises `RequestRefused` where these alone
    would make another score."""
    where = params["range"].range()
    old, new = document.text.lines(), Text(_formatted(document)).lines()
    first, last = where.start.line, where.end.line + (
        where.end.character > 0 or where.end.line == where.start.line
    )
    kept, edits = list(old), []
    for begin, end, lines in reversed(list(_changes(old, new))):
        if begin < last and first < end or begin == end and first < begin < last:
            kept[begin:end] = lines
            edits.append(
                {
                    "range": Range(Position(begin, 0), Position(end, 0)).to_json(),
                    "newText": "".join(lines),
                }
            )
    made = Compiled("".join(kept).encode("utf-8"))
    if (
        made.fault is not None
        or difference(Reading.of(document.compiled), Reading.of(made)) is not None
    ):
        raise RequestRefused(
            "These lines cannot be formatted by themselves: format the whole score"
        )
    return edits


def _changes(old: list[str], new: list[str]) -> Iterator[tuple[int, int, list[str]]]:
    """Yields the lines that change, from one up to another, and the new ones: one by one where only
    blanks of a line change."""
    before, after = ([without_blanks(it.encode()) for it in lines] for lines in (old, new))
    for tag, begin, end, new_begin, new_end in difflib.SequenceMatcher(
        None, before, after, autojunk=False
    ).get_opcodes():
        if tag != "equal":
            yield begin, end, new[new_begin:new_end]
            continue
        for at, new_at in zip(range(begin, end), range(new_begin, new_end)):
            if old[at] != new[new_at]:
                yield at, at + 1, [new[new_at]]
