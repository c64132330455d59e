"""The results of the compiler: messages, a status, and the output."""
from __future__ import annotations

import enum
import re
from collections.abc import Iterator
from dataclasses import dataclass, field

from gregorio_chant.errors import GregorioError


class Format(enum.Enum):
    """The format of the output."""

    GABC = "gabc"
    DUMP = "dump"


class Kind(str, enum.Enum):
    """The severity of a message."""

    WARNING = "warning"
    ERROR = "error"
    FATAL = "fatal"


class ShownMessages(str, enum.Enum):
    """Which messages stand in a picture: none, those of errors and faults, or those of warnings
    too."""

    NONE = "none"
    ERRORS = "errors"
    ALL = "all"


class Status(enum.IntEnum):
    """The status of a score: read to its end without an error, read to its end with errors, read up
    to a fatal fault, or, by `Run.broken`, up to the failure of its source."""

    WHOLE = 0
    ERRORS = 1
    FATAL = 2
    BROKEN = 4


class StateError(GregorioError, ValueError):
    """Bytes that are no state of a run, or the state of a run with another format or other
    warnings."""


class RunOverError(GregorioError, RuntimeError):
    """A call of a run that is over."""


@dataclass(frozen=True)
class Message:
    """A message. Lines and columns count from 1, a column for each character."""

    line: int
    column: int
    kind: Kind
    code: str
    text: str


_LINE = re.compile(r"<stdin>:(\d+):(\d+): (warning|error|fatal): (\w+): (.*)\n")


def messages_of(text: str) -> tuple[Message, ...]:
    """Returns the messages in the lines of `text`. Raises `ValueError` for a line that is no
    message."""
    messages = []
    start = 0
    while start < len(text):
        found = _LINE.match(text, start)
        if found is None:
            raise ValueError(f"no message: {text[start:].partition(chr(10))[0]}")
        messages.append(Message(int(found[1]), int(found[2]), Kind(found[3]), found[4], found[5]))
        start = found.end()
    return tuple(messages)


@dataclass(frozen=True)
class Result:
    """The result of `compile`. Iterating over it yields its messages, in the order of their
    places."""

    output: str = field(repr=False)
    status: Status
    messages_text: str = field(repr=False)
    format: Format = Format.GABC

    @property
    def canonical(self) -> str:
        """The canonical GABC, if that is the format."""
        return self._output_as(Format.GABC)

    @property
    def dump(self) -> str:
        """The dump, if that is the format."""
        return self._output_as(Format.DUMP)

    @property
    def messages(self) -> tuple[Message, ...]:
        """The messages, in the order of their places."""
        return messages_of(self.messages_text)

    def _output_as(self, format: Format) -> str:
        if self.format is not format:
            raise AttributeError(f"the score was compiled to {self.format.value}")
        return self.output

    def __iter__(self) -> Iterator[Message]:
        return iter(self.messages)


@dataclass(frozen=True)
class Step:
    """The result of a step of a run. The status is `None` until the run ends. Iterating over it
    yields its messages, in the order of their places."""

    output: str = field(repr=False)
    status: Status | None
    messages_text: str = field(repr=False)

    @property
    def messages(self) -> tuple[Message, ...]:
        """The messages, in the order of their places."""
        return messages_of(self.messages_text)

    def __iter__(self) -> Iterator[Message]:
        return iter(self.messages)


@dataclass(frozen=True)
class Report:
    """The result of `check`."""

    status: Status
    messages: tuple[Message, ...]
