"""Calls the library for C for the tree of a score. Its answer is proved; the views of it are
tested."""
from __future__ import annotations

import ctypes

from gregorio_chant._native.library import LIBRARY, NO_MEMORY, new_key
from gregorio_chant._native.memory import Borrowed, Room, bytes_of
from gregorio_chant._native.nodes import RECORD, Tree

# How many bytes of records a room has at first for each byte of the score: more than most scores
# want, since a second call reads the score again.
_TIMES = 25
_LEAST = 4096

_tree = LIBRARY.gregorio_tree
_tree.restype = ctypes.c_uint32
_tree.argtypes = [
    ctypes.c_void_p,
    ctypes.c_size_t,
    ctypes.POINTER(ctypes.c_uint64),
    ctypes.c_size_t,
    ctypes.c_void_p,
    ctypes.c_size_t,
    ctypes.POINTER(ctypes.c_size_t),
]


def _call(data: Borrowed, room: Room) -> int:
    """Calls the library until all records fit into `room`, and returns their number of bytes."""
    key = new_key()
    while True:
        count = ctypes.c_size_t()
        fits = len(room.content) // RECORD
        if (
            _tree(
                data.address, data.length, key, len(key), room.address(), fits, ctypes.byref(count)
            )
            == NO_MEMORY
        ):
            raise MemoryError("not enough memory for the tree of the score")
        if count.value <= fits:
            return RECORD * count.value
        room.take(RECORD * count.value)


def tree(score: str | bytes | bytearray | memoryview) -> Tree:
    """Reads `score` as `compile` does, and returns its tree: each byte of it belongs to one node,
    also where something was left out.

    A `str` is encoded as UTF-8, and a `bytearray` or a `memoryview` is copied. Raises `TypeError`
    if the score is neither `str` nor bytes, and `MemoryError` if memory runs out.

    >>> from gregorio_chant._native.node_kinds import NodeKind
    >>> notes = tree("%%\\nKy(f.g)").of_kind(NodeKind.NOTE)
    >>> [(it.kind.name, it.kept, str(it)) for it in notes]
    [('NOTE', 'f.', '2:4'), ('NOTE', 'g', '2:6')]
    """
    source = bytes(bytes_of(score))
    with Borrowed(source) as data:
        room = Room.lend(_TIMES * len(source) + _LEAST)
        try:
            return Tree(source, room.lasting(_call(data, room)))
        finally:
            room.give_back()
