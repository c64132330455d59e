"""How far a long run over files has come: a bar on a terminal, by `rich`, and nothing without
it."""
from __future__ import annotations

from contextlib import AbstractContextManager, nullcontext
from typing import Protocol

from gregorio_chant.work.streams import is_error_terminal

# So many files are done before a bar is of use.
_FEW = 20


class Shown(Protocol):
    """What shows how far a run has come."""

    def advance(self) -> None:
        """Counts a file."""

    def aside(self, *, told: bool) -> AbstractContextManager[None]:
        """Takes the bar away while something is written: `told` on standard error, or else on
        standard output."""


class _Nothing:
    def advance(self) -> None:
        pass

    def aside(self, *, told: bool) -> AbstractContextManager[None]:
        return nullcontext()


def bar(what: str, files: int) -> AbstractContextManager[Shown]:
    """Gives what shows how far a run over so many files has come, with a word for what is done
    to them."""
    if files > _FEW and is_error_terminal():
        try:
            from gregorio_chant.report.terminal import bar_of
        except ImportError:
            return nullcontext(_Nothing())
        return bar_of(what, files)
    return nullcontext(_Nothing())
