"""Messages as text with the source line and a caret, and a bar, both by `rich`."""
from __future__ import annotations

import io
from collections.abc import Iterator
from contextlib import contextmanager

from rich.cells import cell_len
from rich.console import Console
from rich.progress import BarColumn, MofNCompleteColumn, Progress, TextColumn, TimeRemainingColumn
from rich.text import Text

from gregorio_chant._native.results import Kind, Message
from gregorio_chant.report.reports import Checked
from gregorio_chant.text.source import Lines
from gregorio_chant.work.ending import undone
from gregorio_chant.work.streams import Styled, is_terminal, printable, show_cursor

_Part = str | tuple[str, str]
_STYLES = {Kind.WARNING: "bold yellow", Kind.ERROR: "bold red", Kind.FATAL: "bold white on red"}


class TextReporter:
    """A message on a line, below it the line of the score, with a caret below the character."""

    has_summary = True

    def __init__(self) -> None:
        # What is printed is taken and sent as all else is, so that a full disk or a closed pipe is
        # met in one place.
        self._printed = io.StringIO()
        self._console = Console(
            file=self._printed,
            force_terminal=is_terminal() or None,
            highlight=False,
            markup=False,
            emoji=False,
        )

    def _take(self) -> Styled:
        text = Styled(self._printed.getvalue())
        self._printed.seek(0)
        self._printed.truncate()
        return text

    def add(self, checked: Checked) -> str:
        lines = Lines(checked.text)
        for it, help in checked.helped():
            self._print(checked.shown_name, it, lines.line(it.line))
            if help is not None:
                self._line(("      = ", "dim"), help)
        return self._take()

    def end(self, summary: str | None) -> str:
        if summary is None:
            return ""
        self._line((summary, "bold"))
        return self._take()

    def _line(self, *parts: _Part) -> None:
        """Prints a line of parts, each of which may have a style, and is made printable before it
        gets that."""
        shown = (
            (printable(it), "") if isinstance(it, str) else (printable(it[0]), it[1])
            for it in parts
        )
        self._console.print(Text.assemble(*shown), soft_wrap=True)

    def _print(self, name: str, message: Message, line: str) -> None:
        style = _STYLES[message.kind]
        gutter = f"{message.line:5} | "
        shown, before = window(line, message.column, max(self._console.width - len(gutter), 20))
        self._line(
            (f"{name}:{message.line}:{message.column}", "bold"),
            ": ",
            (f"{message.kind.value}: {message.code}", style),
            f": {message.text}",
        )
        self._line((gutter, "dim"), shown)
        self._line((" " * (len(gutter) - 2) + "| ", "dim"), " " * before, ("^", style))


def window(line: str, column: int, width: int) -> tuple[str, int]:
    """Returns what of `line` is shown in `width` cells, and how many cells stand before the
    character in `column`.

    A long line is cut on both sides of that character. A tab, and whatever cannot be printed, is
    shown as a blank.
    """
    at = min(column - 1, len(line))
    begin = (
        max(0, at - width // 2)
        if len(line) > width // 2 and cell_len(line[: 2 * width]) > width
        else 0
    )
    shown = "".join(it if it.isprintable() else " " for it in line[begin : begin + width])
    while cell_len(shown) > width:
        shown = shown[:-1]
    return shown, cell_len(shown[: at - begin])


class Bar:
    """A bar on standard error for many files."""

    def __init__(self, progress: Progress) -> None:
        self._progress = progress
        self._output_is_terminal = is_terminal()

    def advance(self) -> None:
        self._progress.advance(self._progress.task_ids[0])

    @contextmanager
    def aside(self, *, told: bool) -> Iterator[None]:
        """Takes the bar away while something is written to the same terminal: `told` on standard
        error, or else on standard output."""
        if told or self._output_is_terminal:
            self._progress.stop()
            yield
            self._progress.start()
        else:
            yield


@contextmanager
def bar_of(what: str, files: int) -> Iterator[Bar]:
    """Gives a bar over so many files with a word for what is done to them. It is gone
    afterwards."""
    columns = (TextColumn(what), BarColumn(), MofNCompleteColumn(), TimeRemainingColumn())
    with Progress(
        *columns,
        console=Console(stderr=True),
        transient=True,
        redirect_stdout=False,
        redirect_stderr=False,
    ) as progress, undone(show_cursor):
        progress.add_task(what, total=files)
        yield Bar(progress)
