"""How messages are told: as lines, as text with the source line, as JSON, as annotations of a
forge. `sarif` has one more form."""
from __future__ import annotations

import json
from collections import Counter
from collections.abc import Iterator
from dataclasses import asdict, dataclass
from itertools import zip_longest
from typing import Protocol

from gregorio_chant._native.results import Kind, Message
from gregorio_chant.linting.problems import problems_of
from gregorio_chant.work.streams import STDIN, printable

LEVELS = {Kind.WARNING: "warning", Kind.ERROR: "error", Kind.FATAL: "error"}


@dataclass(frozen=True)
class Checked:
    """What was found in a file. `text` is the score's text, where there are messages, and `helps`
    has a line for each of them, or nothing; `failure` says why the file was not read."""

    name: str
    messages: tuple[Message, ...] = ()
    text: str = ""
    failure: str | None = None
    status: int = 0
    helps: tuple[str | None, ...] = ()

    @property
    def shown_name(self) -> str:
        return "<stdin>" if self.name == STDIN else self.name

    def helped(self) -> Iterator[tuple[Message, str | None]]:
        """Yields each message with its help."""
        return zip_longest(self.messages, self.helps)


def with_help(message: Message, help: str | None) -> str:
    """Returns the text of a message and, after a colon, its help."""
    return message.text if help is None else f"{message.text}: {help}"


class Reporter(Protocol):
    """Makes a text of what was found."""

    @property
    def has_summary(self) -> bool:
        """Whether the summary is part of that text."""

    def add(self, checked: Checked) -> str:
        """Returns what is written at once about a file."""

    def end(self, summary: str | None) -> str:
        """Returns what is written after the last file; without a summary where none is wanted."""


def line_of(name: str, message: Message) -> str:
    """Returns a message as editors want it, as the program writes it."""
    return (
        f"{printable(name)}:{message.line}:{message.column}: {message.kind.value}: {message.code}:"
        f" {message.text}\n"
    )


class Lines:
    """Lines `NAME:LINE:COLUMN: KIND: CODE: TEXT`."""

    has_summary = False

    def add(self, checked: Checked) -> str:
        return "".join(line_of(checked.shown_name, it) for it in checked.messages)

    def end(self, summary: str | None) -> str:
        return ""


class Annotations:
    """Commands of a forge's log, in GitHub's form."""

    has_summary = False

    def add(self, checked: Checked) -> str:
        return "".join(self._command(checked.shown_name, it, help) for it, help in checked.helped())

    def end(self, summary: str | None) -> str:
        return ""

    @staticmethod
    def _command(name: str, message: Message, help: str | None) -> str:
        file = _escaped(name).replace(":", "%3A").replace(",", "%2C")
        text = _escaped(with_help(message, help))
        return f"::{LEVELS[message.kind]} file={file},line={message.line},col={message.column},title={message.code}::{text}\n"


def _escaped(text: str) -> str:
    return text.replace("%", "%25").replace("\r", "%0D").replace("\n", "%0A")


class Json:
    """One array, with an object for each message."""

    has_summary = False

    def __init__(self) -> None:
        self._objects: list[dict[str, object]] = []

    def add(self, checked: Checked) -> str:
        for it in problems_of(checked.text, checked.messages, checked.helps):
            plain = asdict(it)
            # No repair is looked for here.
            del plain["repair"]
            self._objects.append({"file": checked.shown_name, **plain})
        return ""

    def end(self, summary: str | None) -> str:
        return json_of(self._objects, indent=2) + "\n"


def json_of(value: object, indent: int | None = None) -> str:
    """Returns JSON of printable ASCII."""
    return json.dumps(value, indent=indent).replace("\x7f", "\\u007f")


def counted(number: int, thing: str) -> str:
    """Returns `1 thing`, or the number with the plural."""
    return f"{number:,} {thing}" if number == 1 else f"{number:,} {thing}s"


def summary_of(files: int, failed: int, kinds: Counter[Kind]) -> str:
    """Returns a line on how many files were checked, how many of them failed, and how many messages
    of each kind there are."""
    names = {Kind.FATAL: "fatal fault", Kind.ERROR: "error", Kind.WARNING: "warning"}
    found = [counted(kinds[kind], name) for kind, name in names.items() if kinds[kind]]
    line = f"{counted(files, 'file')}: {', '.join(found) if found else 'nothing found'}"
    return f"{line}; {failed:,} could not be read" if failed else line
