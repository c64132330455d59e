"""Bytes that cross to the library by their address, and rooms for it to write into: nothing is
copied but what a call hands out."""
from __future__ import annotations

import ctypes
import mmap
from types import TracebackType

# A room of more bytes than this is not kept for the next call, and takes memory only where it is
# written into.
_MOST_KEPT = 1 << 22


class _View(ctypes.Structure):
    """CPython's `Py_buffer`: where the bytes of an object stand, as long as it is held."""

    _fields_ = [
        ("address", ctypes.c_void_p),
        ("owner", ctypes.c_void_p),
        ("length", ctypes.c_ssize_t),
        ("itemsize", ctypes.c_ssize_t),
        ("readonly", ctypes.c_int),
        ("ndim", ctypes.c_int),
        ("format", ctypes.c_void_p),
        ("shape", ctypes.c_void_p),
        ("strides", ctypes.c_void_p),
        ("suboffsets", ctypes.c_void_p),
        ("internal", ctypes.c_void_p),
    ]


_hold = ctypes.pythonapi.PyObject_GetBuffer
_hold.argtypes = [ctypes.py_object, ctypes.POINTER(_View), ctypes.c_int]
_let_go = ctypes.pythonapi.PyBuffer_Release
_let_go.argtypes = [ctypes.POINTER(_View)]
_let_go.restype = None
_PLAIN = 0


def bytes_of(score: str | bytes | bytearray | memoryview) -> bytes | bytearray | memoryview:
    """Returns the bytes of `score`, a `str` as its UTF-8, and bytes as they are. Raises `TypeError`
    for anything else."""
    if isinstance(score, str):
        return score.encode("utf-8", "surrogatepass")
    if isinstance(score, (bytes, bytearray, memoryview)):
        return score
    raise TypeError(f"a score is a str or bytes, not {type(score).__name__}")


class Borrowed:
    """The bytes of an object, by their address. As long as they are borrowed, a `bytearray` keeps
    its length.

    A `memoryview` whose bytes do not stand in a row, as `view[::2]`, is copied.
    """

    def __init__(self, content: bytes | bytearray | memoryview) -> None:
        self._view = _View()
        try:
            _hold(content, self._view, _PLAIN)
        except BufferError:
            _hold(bytes(content), self._view, _PLAIN)
        self.address: int | None = self._view.address
        self.length: int = self._view.length

    def __enter__(self) -> Borrowed:
        return self

    def __exit__(
        self,
        kind: type[BaseException] | None,
        error: BaseException | None,
        trace: TracebackType | None,
    ) -> None:
        _let_go(self._view)


def _memory_of(length: int) -> bytearray | mmap.mmap:
    """Returns `length` bytes. A long `bytearray` would be filled with zeros first."""
    if length <= _MOST_KEPT:
        return bytearray(length)
    try:
        return mmap.mmap(-1, length)
    except OSError as error:
        raise MemoryError("not enough memory for what a score is compiled to") from error


class Room:
    """Bytes for the library to write into. A room is used again, so that no call fills it with
    zeros first, and is lent to one call at a time."""

    _spare: list[Room] = []

    def __init__(self) -> None:
        self.content: bytearray | mmap.mmap = bytearray()

    @classmethod
    def lend(cls, length: int) -> Room:
        """Returns a room of `length` bytes or more, which no other call has."""
        try:
            room = cls._spare.pop()
        except IndexError:
            room = cls()
        room.take(length)
        return room

    def take(self, length: int) -> None:
        """Makes room for `length` bytes. What was written may be gone then."""
        if len(self.content) < length:
            self.content = _memory_of(length)

    def give_back(self) -> None:
        """Keeps the room for the next call."""
        if len(self.content) <= _MOST_KEPT:
            self._spare.append(self)

    def address(self) -> int | None:
        """Returns where the bytes stand, as long as the room keeps them. A `ctypes.cast` would hold
        them until garbage is collected."""
        return ctypes.addressof(ctypes.c_char.from_buffer(self.content)) if self.content else None

    def text(self, length: int) -> str:
        """Returns the text of the first `length` bytes, with no copy but that text."""
        return str(memoryview(self.content)[:length], "utf-8")

    def head(self, length: int) -> bytes:
        """Returns a copy of the first `length` bytes."""
        return bytes(memoryview(self.content)[:length])

    def lasting(self, length: int) -> memoryview:
        """Returns the first `length` bytes, which no later call writes over: a copy if this room is
        kept for the next call."""
        head = memoryview(self.content)[:length]
        return memoryview(bytes(head)) if len(self.content) <= _MOST_KEPT else head
