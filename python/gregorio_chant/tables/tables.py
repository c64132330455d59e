"""Tables over many scores, as text, CSV and JSON: each row stands at a place in a file."""
from __future__ import annotations

import csv
import io
from collections.abc import Callable, Iterable, Sequence
from contextlib import nullcontext
from dataclasses import dataclass
from functools import partial
from typing import Protocol, Union

from gregorio_chant._native.results import Message, Status
from gregorio_chant.objects.compiled import TooLong
from gregorio_chant.objects.reading import ScoreError
from gregorio_chant.objects.score import Score
from gregorio_chant.report.reports import counted, json_of
from gregorio_chant.text.source import Source
from gregorio_chant.work import scores
from gregorio_chant.work.processes import by_processes
from gregorio_chant.work.progress import bar
from gregorio_chant.work.scores import Read, Scores
from gregorio_chant.work.statuses import CANNOT_READ_OR_WRITE, NO_MEMORY
from gregorio_chant.work.streams import (
    STDIN,
    is_terminal,
    printable,
    reason_of,
    tell,
    write,
    write_data,
)

FORMS = ("text", "csv", "json")
_CSV_END = "\r\n"
PLACE = ("file", "line", "column")

Cell = Union[str, int, None]


@dataclass(frozen=True, slots=True)
class Row:
    """A row: the line and the column that it stands at, and its cells; `count` is how many things
    it stands for."""

    line: int
    column: int
    cells: tuple[Cell, ...]
    count: int = 1

    @classmethod
    def at(cls, source: Source, *cells: Cell) -> Row:
        return cls(source.line, source.column, cells)


class Maker(Protocol):
    """Makes the rows of a score. It goes to other processes, so it is a function or an object of a
    module."""

    def __call__(self, score: Score) -> Iterable[Row]:
        """Returns the rows, in order."""


@dataclass(frozen=True, kw_only=True)
class Options(scores.Options):
    """The options of a table; `has_mark` puts a byte order mark before CSV."""

    form: str = "text"
    has_mark: bool = False


@dataclass(frozen=True, slots=True)
class Made:
    """The rows of a file; `fault` is what stopped its reading, `failure` says why it was not read
    at all."""

    name: str
    rows: tuple[Row, ...] = ()
    fault: Message | None = None
    failure: str | None = None
    status: int = 0

    @property
    def shown_name(self) -> str:
        return "<stdin>" if self.name == STDIN else self.name

    def told(self) -> str | None:
        """Returns what is said of the file on standard error, if something is."""
        if self.failure is not None:
            return f"cannot read {self.name}: {self.failure}"
        if self.fault is not None:
            return (
                f"{self.shown_name}:{self.fault.line}:{self.fault.column}: {self.fault.code}:"
                f" {self.fault.text}; nothing after it was read"
            )
        return None


def made_of(name: str, make: Maker, read: Read) -> Made:
    """Returns the rows of a file."""
    try:
        score = Score.parse(read(name).data)
        status = int(Status.WHOLE if score.is_whole else Status.FATAL)
        return Made(name, tuple(make(score)), score.fault, None, status)
    except ScoreError as error:
        return Made(name, fault=error.message, status=int(Status.FATAL))
    except OSError as error:
        return Made(name, failure=reason_of(error), status=CANNOT_READ_OR_WRITE)
    except TooLong as error:
        return Made(name, failure=str(error), status=error.status)
    except MemoryError:
        return Made(name, failure="there is no memory for it", status=NO_MEMORY)


# ---- how rows are written


class Form(Protocol):
    """Makes a text of rows."""

    def begin(self) -> str:
        """Returns what is written first."""

    def add(self, made: Made) -> str:
        """Returns what is written of a file."""

    def end(self) -> str:
        """Returns what is written last."""


class Text:
    """Lines `NAME:LINE:COLUMN: CELLS`, for editors and people."""

    def begin(self) -> str:
        return ""

    def add(self, made: Made) -> str:
        name = printable(made.shown_name)
        return "".join(f"{name}:{it.line}:{it.column}: {self._cells(it)}\n" for it in made.rows)

    @staticmethod
    def _cells(row: Row) -> str:
        return "  ".join(printable(str(it)) for it in row.cells if it not in (None, ""))

    def end(self) -> str:
        return ""


class Csv:
    """CSV as RFC 4180 has it, with the names of the columns in its first line, and a byte order
    mark before it if that is wanted."""

    def __init__(self, columns: Sequence[str], has_mark: bool = False) -> None:
        self._columns, self._mark = columns, "\ufeff" * has_mark

    def begin(self) -> str:
        return self._mark + _csv_line((*PLACE, *self._columns))

    def add(self, made: Made) -> str:
        return "".join(
            _csv_line((made.shown_name, it.line, it.column, *it.cells)) for it in made.rows
        )

    def end(self) -> str:
        return ""


def _csv_line(cells: Iterable[Cell]) -> str:
    line = io.StringIO(newline="")
    csv.writer(line, lineterminator=_CSV_END).writerow(cells)
    return line.getvalue()


class Json:
    """One array, with an object for each row."""

    def __init__(self, columns: Sequence[str]) -> None:
        self._columns = columns
        self._is_first = True

    def begin(self) -> str:
        return "["

    def add(self, made: Made) -> str:
        written = []
        for it in made.rows:
            row = dict(
                zip((*PLACE, *self._columns), (made.shown_name, it.line, it.column, *it.cells))
            )
            written.append(("\n" if self._is_first else ",\n") + json_of(row))
            self._is_first = False
        return "".join(written)

    def end(self) -> str:
        return "]\n" if self._is_first else "\n]\n"


def form_of(options: Options, columns: Sequence[str]) -> Form:
    """Returns the form that is wanted."""
    if options.form == "text":
        return Text()
    if options.form == "csv":
        return Csv(columns, options.has_mark)
    return Json(columns)


# ---- the run over files


def put_for(options: Options) -> Callable[[str], None]:
    """Returns what writes rows. A cell of CSV may hold whatever a score does; a terminal shows its
    lines without their CR."""
    if options.form != "csv":
        return write
    return (lambda text: write(text.replace(_CSV_END, "\n"))) if is_terminal() else write_data


def for_each(options: Options, make: Maker, take: Callable[[Made], str]) -> int:
    """Makes the rows of all files by all processors, writes what `take` returns for each in order,
    and returns the worst status. Raises `WriteError`, and `SettingsError` or `MissingDependency`
    before any score is read."""
    found, count, put = Scores(options), 0, put_for(options)
    work = partial(made_of, make=make, read=found.read)
    with (
        by_processes(work, found.names, options.jobs) as all_made,
        bar("reading", len(found.names)) as shown,
    ):
        for it in all_made:
            found.add(it.status, it.failure is None)
            count += sum(row.count for row in it.rows)
            text, told = take(it), it.told()
            with shown.aside(told=told is not None) if text or told else nullcontext():
                put(text)
                if told:
                    tell(told)
            shown.advance()
    if not options.quiet:
        tell(f"{counted(found.done, 'file')}: {count:,} found")
    return found.status


def write_table(options: Options, columns: Sequence[str], make: Maker) -> int:
    """Writes the rows of all files, and returns the worst status. Raises as `for_each` does."""
    form = form_of(options, columns)
    put_for(options)(form.begin())
    status = for_each(options, make, form.add)
    write(form.end())
    return status
