"""Standard streams, and no other place writes to them: what cannot be written is a clear line and a
status, and never a traceback. A line is printable, whatever stands in a name, a setting or a
score."""
from __future__ import annotations

import errno
import os
import sys
from typing import IO

from gregorio_chant.errors import GregorioError
from gregorio_chant.work.statuses import CANNOT_READ_OR_WRITE

NAME = "gregorio-chant"
STDIN = "-"
_SHOWS_CURSOR = b"\r\x1b[2K\x1b[?25h"


class WriteError(GregorioError):
    """Standard output takes no more."""

    status = CANNOT_READ_OR_WRITE

    def __init__(self, error: OSError) -> None:
        super().__init__(reason_of(error))
        # Whether nobody reads it any more, who therefore need not be told.
        self.is_closed = error.errno == errno.EPIPE


class Styled(str):
    """Lines with the colours of a terminal, in which each text was made printable before it got
    them."""


def reason_of(error: OSError) -> str:
    """Returns why `error` came, in the system's words."""
    return error.strerror or type(error).__name__


def _send(stream: IO[str] | None, number: int, content: bytes) -> None:
    descriptor = stream.fileno() if stream else number
    while content:
        content = content[os.write(descriptor, content) :]


def _put_out(content: bytes) -> None:
    try:
        _send(sys.__stdout__, 1, content)
    except OSError as error:
        raise WriteError(error) from None


def _bytes_of(text: str) -> bytes:
    """Returns the bytes of `text`, in which names of files may hold bytes that are no UTF-8."""
    try:
        return text.encode("utf-8", "surrogateescape")
    except UnicodeEncodeError:
        return text.encode("utf-8", "backslashreplace")


def write(text: str) -> None:
    """Writes lines to standard output. Raises `WriteError` where it takes no more."""
    _put_out(_bytes_of(text if isinstance(text, Styled) else printable_lines(text)))


def write_data(text: str) -> None:
    """Writes a score, a page, a table or a difference to standard output, as it is; a terminal
    shows its lines. Raises `WriteError` where it takes no more."""
    _put_out(_bytes_of(printable_lines(text) if is_terminal() else text))


def write_bytes(content: bytes) -> None:
    """Writes bytes that are no text to standard output. Raises `WriteError` where it takes no more,
    as a terminal takes none."""
    if is_terminal():
        raise WriteError(OSError(0, "it is no text, and standard output is a terminal"))
    _put_out(content)


def tell(line: str) -> None:
    """Writes a line of the command's own to standard error. Where that takes nothing, nobody can be
    told."""
    _tell_bytes(_bytes_of(f"{NAME}: {printable(line)}\n"))


def show_cursor() -> None:
    """Clears the line of a terminal at standard error, where a bar stands, and shows its cursor
    again."""
    _tell_bytes(_SHOWS_CURSOR)


def _tell_bytes(content: bytes) -> None:
    try:
        _send(sys.__stderr__, 2, content)
    except OSError:
        pass


def is_terminal() -> bool:
    """Returns whether standard output is a terminal."""
    return sys.__stdout__ is not None and sys.__stdout__.isatty()


def is_error_terminal() -> bool:
    """Returns whether standard error is a terminal."""
    return sys.__stderr__ is not None and sys.__stderr__.isatty()


def printable(name: str) -> str:
    """Returns the name of a file as a terminal can show it: `\\xff` for a byte that is no UTF-8,
    and no control characters."""
    if name.isascii() and name.isprintable():
        return name
    text = _bytes_of(name).decode("utf-8", "backslashreplace")
    return "".join(
        it if it.isprintable() else it.encode("unicode_escape").decode("ascii") for it in text
    )


def printable_lines(text: str) -> str:
    """Returns lines as a terminal can show them, with the tabs in them."""
    if text.isascii() and text.replace("\n", "").isprintable():
        return text
    return "\n".join("\t".join(map(printable, it.split("\t"))) for it in text.split("\n"))
