"""Calls the library for C on whole scores. The answers of the library are proved; the rest of this
package is tested."""
from __future__ import annotations

import ctypes
import os

from gregorio_chant._native.built import LIBRARY as FILE
from gregorio_chant._native.built import built
from gregorio_chant._native.memory import Borrowed, Room, bytes_of
from gregorio_chant._native.results import Format, Report, Result, Status, messages_of

NUMBERS = {Format.GABC: 0, Format.DUMP: 1}
NO_MEMORY = 5
# How many bytes a room has at first for each byte of the score: more than most scores want, since a
# second call reads the score again.
TIMES = {Format.GABC: 2, Format.DUMP: 16}
LEAST = 4096


class Lengths(ctypes.Structure):
    """The lengths of the output and of the messages, in bytes."""

    _fields_ = [("output", ctypes.c_size_t), ("messages", ctypes.c_size_t)]


LIBRARY = ctypes.CDLL(built(FILE))
_compile = LIBRARY.gregorio_compile
_compile.restype = ctypes.c_uint32
_compile.argtypes = [
    ctypes.c_void_p,
    ctypes.c_size_t,
    ctypes.c_uint32,
    ctypes.c_uint32,
    ctypes.POINTER(ctypes.c_uint64),
    ctypes.c_size_t,
    ctypes.c_void_p,
    ctypes.c_size_t,
    ctypes.c_void_p,
    ctypes.c_size_t,
    ctypes.POINTER(Lengths),
]
# A key for the names of headers, so that nobody can choose names that are slow to read.
Key = ctypes.c_uint64 * 2


def new_key() -> ctypes.Array[ctypes.c_uint64]:
    """Returns a random key."""
    return Key.from_buffer_copy(os.urandom(ctypes.sizeof(Key)))


def truth(name: str, value: object) -> bool:
    """Returns `value`, the argument `name`, which is `True` or `False`. Raises `TypeError` for
    anything else."""
    if not isinstance(value, bool):
        raise TypeError(f"{name} is True or False, not {value!r}")
    return value


def _call(
    data: Borrowed,
    format: Format,
    all_warnings: bool,
    output: Room,
    messages: Room,
    wants_output: bool,
) -> tuple[Status, Lengths]:
    """Calls the library until both texts fit, and returns the status and the lengths. Without
    `wants_output` the output is written nowhere."""
    key = new_key()
    while True:
        lengths = Lengths()
        room = len(output.content) if wants_output else 0
        status = _compile(
            data.address,
            data.length,
            NUMBERS[format],
            int(all_warnings),
            key,
            len(key),
            output.address() if wants_output else None,
            room,
            messages.address(),
            len(messages.content),
            ctypes.byref(lengths),
        )
        if status == NO_MEMORY:
            raise MemoryError("not enough memory to compile the score")
        if (not wants_output or lengths.output <= room) and lengths.messages <= len(
            messages.content
        ):
            return Status(status), lengths
        if wants_output:
            output.take(lengths.output)
        messages.take(lengths.messages)


def compile(
    score: str | bytes | bytearray | memoryview,
    format: str | Format = Format.GABC,
    *,
    all_warnings: bool = True,
) -> Result:
    """Compiles `score` under the default limits.

    `format` is `"gabc"` for canonical GABC or `"dump"`. `all_warnings` says whether warnings are
    reported. A `str` is encoded as UTF-8. Raises `TypeError` if the score is neither `str` nor
    bytes, or `all_warnings` is no `bool`; `ValueError` for another format; and `MemoryError` if
    memory runs out. While it reads, other threads run; they must not change a `bytearray` that is
    being read.

    >>> compile("%%\\nA(f)", all_warnings=False).canonical
    '%%\\nA(f)\\n'
    """
    wanted, all_warnings = Format(format), truth("all_warnings", all_warnings)
    with Borrowed(bytes_of(score)) as data:
        output, messages = Room.lend(TIMES[wanted] * data.length + LEAST), Room.lend(
            data.length + LEAST
        )
        try:
            status, lengths = _call(data, wanted, all_warnings, output, messages, True)
            return Result(
                output.text(lengths.output), status, messages.text(lengths.messages), wanted
            )
        finally:
            # Rooms are reused last in, first out.
            messages.give_back()
            output.give_back()


def check(score: str | bytes | bytearray | memoryview, *, all_warnings: bool = True) -> Report:
    """Reads `score` as `compile` does, and returns only its status and messages.

    >>> [(it.code, it.line, it.column) for it in check("%%\\nA(&)", all_warnings=False).messages]
    [('E1', 2, 3)]
    """
    all_warnings = truth("all_warnings", all_warnings)
    with Borrowed(bytes_of(score)) as data:
        output, messages = Room(), Room.lend(data.length + LEAST)
        try:
            status, lengths = _call(data, Format.GABC, all_warnings, output, messages, False)
            return Report(status, messages_of(messages.text(lengths.messages)))
        finally:
            messages.give_back()
