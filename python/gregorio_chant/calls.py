"""What the commands do, as calls: `lint`, `fix`, `format_text`, `draw` and `index`. Their answers
are plain data, which `dataclasses.asdict` takes.

>>> from gregorio_chant import lint
>>> for it in lint("name: Kyrie;\\n%%\\n(c4) Ky(g5)ri(g)"):
...     print(it.line, it.column, it.code, it.help)
3 10 E1 '5' is no sign of the note before it: remove it

A text is a `str`, or the bytes of a file. Bytes that are not UTF-8 come back as in names of files,
by `surrogateescape`.
"""
from __future__ import annotations

from collections.abc import Iterable, Sequence
from dataclasses import dataclass

from gregorio_chant._native.memory import bytes_of
from gregorio_chant.format.formatting import formatted, style_by
from gregorio_chant.linting.checking import told_of
from gregorio_chant.linting.problems import Change, Problem, ProblemRepair, problems_of
from gregorio_chant.linting.repairing import Guess, How, repair, repair_of_each
from gregorio_chant.objects.compiled import Compiled
from gregorio_chant.objects.reading import ScoreError
from gregorio_chant.objects.score import Score
from gregorio_chant.tables.indexing import IndexEntry, entry_of
from gregorio_chant.work.settings import Settings
from gregorio_chant.work.streams import STDIN

__all__ = [
    "Change",
    "DrawnScore",
    "FixedText",
    "FormattedText",
    "Guess",
    "IndexEntry",
    "Problem",
    "ProblemRepair",
    "Settings",
    "draw",
    "fix",
    "format_text",
    "index",
    "lint",
]

Text = str | bytes | bytearray | memoryview
USUAL_WIDTH = 720.0


@dataclass(frozen=True)
class FixedText:
    """The answer of `fix`: a text with its repairs, and the guesses that were made."""

    text: str
    guesses: tuple[Guess, ...] = ()


@dataclass(frozen=True)
class FormattedText:
    """The answer of `format_text`: the new text. If the text has to stay as it is, `text` is the
    old one, and `reasons` say why, first in general and then with places."""

    text: str
    reasons: tuple[str, ...] = ()


@dataclass(frozen=True)
class DrawnScore:
    """The answer of `draw`: the header `name`, and the picture, a file of SVG."""

    name: str
    svg: str


def _text_of(data: bytes, text: Text, old: bytes) -> str:
    """Returns the text of `data`; if these are still the bytes of `text`, then that."""
    return (
        text if isinstance(text, str) and data == old else data.decode("utf-8", "surrogateescape")
    )


def lint(text: Text, settings: Settings = Settings()) -> list[Problem]:
    """Returns what `check` reports of a score, in the order of the places, each with its help and
    with its likeliest repair, if it has one that can be made. After a fatal fault it alone has one.
    A problem that shares its repair with one before it has none, and repairs are looked for as long
    as `fix` looks for them."""
    data, with_rules = bytes(bytes_of(text)), settings.rules is True
    compiled = Compiled(data)
    told = told_of(compiled, settings.selection(STDIN), with_rules)
    if not told.messages:
        return []
    return [
        *problems_of(
            told.text,
            told.messages,
            told.helps,
            repair_of_each(compiled, told.found, told.messages, with_rules),
        )
    ]


def fix(text: Text, unsafe: bool = False, settings: Settings = Settings()) -> FixedText:
    """Returns the text with the repairs of `check --fix`: the safe ones, and the guesses too if
    `unsafe` is true. Only what `lint` reports is repaired."""
    data = bytes(bytes_of(text))
    how = How(unsafe, settings.rules is True, settings.selection(STDIN))
    made = repair(Compiled(data), how)
    return FixedText(_text_of(made.data, text, data), made.guesses)


def format_text(text: Text, settings: Settings = Settings()) -> FormattedText:
    """Returns the text as `format` writes it. `settings.wrap` and `settings.canonical` say how."""
    data = bytes(bytes_of(text))
    made = formatted(data, style_by(settings))
    reasons = tuple(made.reasons())
    return FormattedText(_text_of(data if reasons else made.data, text, data), reasons)


def draw(text: Text, width: float = USUAL_WIDTH, settings: Settings = Settings()) -> DrawnScore:
    """Returns a picture of a score, this many pixels wide, with what `lint` reports of it."""
    from gregorio_chant.pictures.drawing import draw as drawn
    from gregorio_chant.pictures.look import Look

    data = bytes(bytes_of(text))
    compiled = Compiled(data)
    told = told_of(compiled, settings.selection(STDIN), settings.rules is True)
    made = drawn(compiled, told.messages, look=Look(width=width))
    return DrawnScore(made.name, made.svg)


def index(texts: Iterable[Text], headers: Sequence[str] = ()) -> list[IndexEntry]:
    """Returns what `index` writes of each score, in order, with the values of these headers too. A
    score that a fatal fault stops is read up to it, and `fault` says so."""
    return [_entry_of(it, headers) for it in texts]


def _entry_of(text: Text, headers: Sequence[str]) -> IndexEntry:
    try:
        return entry_of(Score.parse(text), headers)
    except ScoreError as error:
        return IndexEntry(
            error.message.line,
            error.message.column,
            headers=dict.fromkeys(headers),
            fault=str(error),
        )
