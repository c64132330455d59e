"""Calls the library for C for the picture of a score. What the picture shows is proved."""
from __future__ import annotations

import ctypes

from gregorio_chant._native.library import LIBRARY, NO_MEMORY, new_key
from gregorio_chant._native.memory import Borrowed, Room, bytes_of
from gregorio_chant._native.results import ShownMessages

# How many units of the library a pixel has, and how wide a picture may be, in pixels.
UNITS = 100
LEAST_WIDTH, MOST_WIDTH = 120.0, 100_000.0
# How many bytes a picture has room for at first, for each byte of the score: more than most want,
# since a second call draws the score again.
_TIMES = 36
_LEAST = 8192
_NUMBERS = {it: number for number, it in enumerate(ShownMessages)}


class _Options(ctypes.Structure):
    """How a picture looks, and which messages stand in it."""

    _fields_ = [
        ("version", ctypes.c_uint32),
        ("width", ctypes.c_uint32),
        ("messages", ctypes.c_uint32),
        ("reserved", ctypes.c_uint32),
    ]


_VERSION = 1
_draw = LIBRARY.gregorio_draw
_draw.restype = ctypes.c_uint32
_draw.argtypes = [
    ctypes.c_void_p,
    ctypes.c_size_t,
    ctypes.POINTER(_Options),
    ctypes.c_size_t,
    ctypes.POINTER(ctypes.c_uint64),
    ctypes.c_size_t,
    ctypes.c_void_p,
    ctypes.c_size_t,
    ctypes.POINTER(ctypes.c_size_t),
]


def _call(data: Borrowed, options: _Options, room: Room) -> int:
    """Calls the library until the picture fits into `room`, and returns its number of bytes."""
    key = new_key()
    while True:
        count = ctypes.c_size_t()
        answer = _draw(
            data.address,
            data.length,
            options,
            1,
            key,
            len(key),
            room.address(),
            len(room.content),
            ctypes.byref(count),
        )
        if answer == NO_MEMORY:
            raise MemoryError("not enough memory for the picture of the score")
        if count.value <= len(room.content):
            return count.value
        room.take(count.value)


def drawn(
    score: str | bytes | bytearray | memoryview,
    width: float,
    messages: ShownMessages = ShownMessages.NONE,
) -> memoryview:
    """Reads `score` as `compile` does, and returns its picture, `width` pixels wide, as UTF-8: SVG
    that names outlines which it does not hold. Raises `TypeError`, `ValueError` for a width out of
    range, and `MemoryError`."""
    if not LEAST_WIDTH <= width <= MOST_WIDTH:
        raise ValueError(
            f"a picture is from {LEAST_WIDTH:.0f} to {MOST_WIDTH:.0f} pixels wide, not {width}"
        )
    options = _Options(_VERSION, round(UNITS * width), _NUMBERS[messages], 0)
    with Borrowed(bytes_of(score)) as data:
        room = Room.lend(_TIMES * data.length + _LEAST)
        try:
            return room.lasting(_call(data, options, room))
        finally:
            room.give_back()
