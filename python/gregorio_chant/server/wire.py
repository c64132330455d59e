"""Messages of the protocol over two streams: each is JSON after a header with its length in
bytes."""
from __future__ import annotations

import json
import re
from collections.abc import Iterator
from dataclasses import dataclass
from typing import BinaryIO

_MOST_BYTES = 1 << 28
_PIECE = 4096
_LENGTH = re.compile(rb"content-length:[ \t]*([0-9]{1,18})[ \t\r]*\n$", re.IGNORECASE)
_OTHER_HEADER = re.compile(rb"[A-Za-z-]+: ?[^\r\n]*\r?\n")


@dataclass(frozen=True)
class Unreadable:
    """Something that came and is no message, and why."""

    reason: str


class Wire:
    """The editor at the other end of two streams."""

    def __init__(self, source: BinaryIO, sink: BinaryIO) -> None:
        self._source, self._sink = source, sink

    def messages(self) -> Iterator[object]:
        """Yields the JSON of each message until the stream ends, and `Unreadable` for what is none.
        What comes after that is read again."""
        while True:
            length, is_clean = self._header()
            if not is_clean:
                yield Unreadable("a header Content-Length was awaited")
            if length is None:
                return
            if length > _MOST_BYTES:
                yield Unreadable(f"a message has {_MOST_BYTES:,} bytes at most")
                continue
            body = self._source.read(length)
            if len(body) < length:
                return
            yield _json_of(body)

    def _header(self) -> tuple[int | None, bool]:
        """Passes all up to the next message. Returns its length, or nothing where the stream ends,
        and whether nothing but headers came."""
        length: int | None = None
        is_clean, tail = True, b""
        while line := self._source.readline(_PIECE):
            if length is not None and not line.strip(b"\r\n"):
                return length, is_clean
            tail = tail[-_PIECE:] + line
            found = _LENGTH.search(tail)
            if found is not None:
                length = int(found[1])
                is_clean &= found.start() == 0
            else:
                is_clean &= (
                    length is not None
                    and _OTHER_HEADER.fullmatch(line) is not None
                    or _is_type(line)
                )
            if line.endswith(b"\n"):
                tail = b""
        return None, is_clean

    def send(self, message: object) -> None:
        """Sends a message. Where nobody reads it any more, nobody can be told: the end of the other
        stream comes next."""
        body = json.dumps(message, separators=(",", ":")).encode("ascii")
        try:
            self._sink.write(b"Content-Length: %d\r\n\r\n%s" % (len(body), body))
            self._sink.flush()
        except OSError:
            pass


def _is_type(line: bytes) -> bool:
    return line.lower().startswith(b"content-type:") and line.endswith(b"\n")


def _json_of(body: bytes) -> object:
    try:
        read: object = json.loads(body.decode("utf-8"))
    except (ValueError, RecursionError):
        return Unreadable("the message is no JSON")
    return read
