"""Runs: scores in pieces. Between two pieces the state of a run is bytes."""
from __future__ import annotations

import ctypes
from collections.abc import Callable, Iterable, Iterator
from dataclasses import astuple, dataclass
from typing import Protocol

from gregorio_chant._native.library import (
    LEAST,
    LIBRARY,
    NO_MEMORY,
    NUMBERS,
    TIMES,
    Key,
    Lengths,
    new_key,
    truth,
)
from gregorio_chant._native.memory import Borrowed, Room
from gregorio_chant._native.results import Format, RunOverError, StateError, Status, Step

_RUNS = 6
_SHORT = 7
_NO_STATE = 8
_OTHER_STATE = 9


class _Options(ctypes.Structure):
    _fields_ = [
        ("header", ctypes.c_uint32),
        ("syllable", ctypes.c_uint32),
        ("input", ctypes.c_uint32),
        ("reserved", ctypes.c_uint32),
        ("key", Key),
    ]


class _Step(ctypes.Structure):
    _fields_ = [
        ("state", ctypes.c_size_t),
        ("output", ctypes.c_size_t),
        ("messages", ctypes.c_size_t),
    ]


_begin, _feed, _end, _broken = (
    LIBRARY.gregorio_begin,
    LIBRARY.gregorio_feed,
    LIBRARY.gregorio_end,
    LIBRARY.gregorio_broken,
)
_begin.argtypes = [
    ctypes.c_uint32,
    ctypes.c_uint32,
    ctypes.POINTER(_Options),
    ctypes.c_size_t,
    ctypes.c_void_p,
    ctypes.c_size_t,
    ctypes.POINTER(_Step),
]
_feed.argtypes = [
    ctypes.c_uint32,
    ctypes.c_uint32,
    ctypes.POINTER(_Options),
    ctypes.c_size_t,
    ctypes.c_void_p,
    ctypes.c_size_t,
    ctypes.c_size_t,
    ctypes.c_void_p,
    ctypes.c_size_t,
    ctypes.c_void_p,
    ctypes.c_size_t,
    ctypes.c_void_p,
    ctypes.c_size_t,
    ctypes.POINTER(_Step),
]
_end.argtypes = _broken.argtypes = [
    ctypes.c_uint32,
    ctypes.c_uint32,
    ctypes.POINTER(_Options),
    ctypes.c_size_t,
    ctypes.c_void_p,
    ctypes.c_size_t,
    ctypes.c_void_p,
    ctypes.c_size_t,
    ctypes.c_void_p,
    ctypes.c_size_t,
    ctypes.POINTER(Lengths),
]
_begin.restype = _feed.restype = _end.restype = _broken.restype = ctypes.c_uint32
LIBRARY.gregorio_state_bound.restype = ctypes.c_size_t
LIBRARY.gregorio_state_bound.argtypes = [ctypes.POINTER(_Options), ctypes.c_size_t]
_MOST = (1 << 32) - 1


@dataclass(frozen=True)
class Limits:
    """The limits of a run, in bytes: of all headers and of a syllable, 64 to 16,777,216, and of the
    whole input, at least 64."""

    header: int = 65_536
    syllable: int = 16_384
    input: int = _MOST

    def _options(self) -> ctypes.Array[_Options]:
        """Returns the options of a step, with a new key."""
        return (_Options * 1)(_Options(*astuple(self), 0, new_key()))

    def _bound(self) -> int:
        """Returns the largest length of a state, in bytes. Raises `ValueError` if a limit is out of
        range."""
        bound: int = (
            LIBRARY.gregorio_state_bound(self._options(), 1)
            if all(0 <= it <= _MOST for it in astuple(self))
            else 0
        )
        if not bound:
            raise ValueError(f"limits out of range: {self}")
        return bound


USUAL = Limits()


class _Source(Protocol):
    """A file that reads bytes into a buffer."""

    def readinto(self, buffer: bytearray, /) -> int | None:
        ...


def pieces(file: _Source, size: int = 1 << 16) -> Iterator[memoryview]:
    """Yields the bytes of the binary `file`, in pieces of at most `size` bytes. A piece is valid
    until the next one is read; it is not copied.

    For a pipe or a connection with a buffer, a piece is whatever has arrived, full or not. Raises
    `ValueError` for a size below 1, and `BlockingIOError` if a file that does not block has nothing
    yet.
    """
    if size < 1:
        raise ValueError(f"a piece of {size} bytes")
    buffer = bytearray(size)
    read = getattr(file, "readinto1", file.readinto)
    while True:
        count = read(buffer)
        if count is None:
            raise BlockingIOError("the file has nothing to read yet")
        if not count:
            return
        yield memoryview(buffer)[:count]


def _raise_where_wrong(answer: int) -> None:
    """Raises the error of a step that was not made."""
    if answer == NO_MEMORY:
        raise MemoryError("not enough memory for the next step of the run")
    if answer == _NO_STATE:
        raise StateError("the bytes are no state of a run")
    if answer == _OTHER_STATE:
        raise StateError("the state is one of another format, of other warnings or of other limits")


class Run:
    """A run over a score in pieces, under the default limits if none are given.

    The outputs of all steps joined, and their messages joined, are those of one `compile` over the
    whole score, and so is the last status. `format` and `all_warnings` are as for `compile`. A run
    holds nothing but its state, and need not be closed. One thread at a time may feed a run; runs
    share nothing. While a step is made, other threads run.

    >>> run = Run()
    >>> steps = [run.feed(b"name: Kyrie;\\n%%\\n(c4) Ky(f)r")]
    >>> later = Run.restore(run.state)
    >>> steps += later.steps([b"i(/.", b"/)"])
    >>> print("".join(it.output for it in steps), end="")
    name: Kyrie;
    %%
    (c4)
    Ky(f)ri(//)
    >>> [message.code for step in steps for message in step], later.status
    (['E1'], <Status.ERRORS: 1>)
    """

    def __init__(
        self,
        format: str | Format = Format.GABC,
        *,
        all_warnings: bool = True,
        limits: Limits = USUAL,
    ) -> None:
        """Begins a run. Raises `ValueError` for another format and for limits out of range."""
        self._format = Format(format)
        self._all_warnings = truth("all_warnings", all_warnings)
        self._limits, self._bound = limits, limits._bound()
        self._status: Status | None = None
        state, step = Room.lend(self._bound), _Step()
        try:
            _raise_where_wrong(
                _begin(*self._what(), state.address(), len(state.content), ctypes.byref(step))
            )
            self._state = state.head(step.state)
        finally:
            state.give_back()

    @classmethod
    def restore(
        cls,
        state: bytes | bytearray | memoryview,
        format: str | Format = Format.GABC,
        *,
        all_warnings: bool = True,
        limits: Limits = USUAL,
    ) -> Run:
        """Returns a run that goes on from `state`, in the same process or another.

        Raises `TypeError` if the state is not bytes, and `StateError`, a `ValueError`, if the bytes
        are no state, or are the state of a run with another format, other warnings or other limits.
        """
        if not isinstance(state, (bytes, bytearray, memoryview)):
            raise TypeError(f"a state is bytes, not {type(state).__name__}")
        run = cls(format, all_warnings=all_warnings, limits=limits)
        run._state = bytes(state)
        run.feed(b"")
        return run

    @property
    def state(self) -> bytes:
        """The state. With it, the format, the warnings and the limits another process can go on.
        Raises `RunOverError` after the end."""
        self._look_whether_over()
        return self._state

    @property
    def status(self) -> Status | None:
        """The status, once the run is over."""
        return self._status

    def feed(self, piece: bytes | bytearray | memoryview) -> Step:
        """Reads `piece`, of any length, and returns the new output and messages. The status is
        `None`, or `Status.FATAL` if a fatal fault ended the run.

        Raises `RunOverError` if the run is over, `TypeError` if the piece is not bytes, and
        `MemoryError` if memory runs out. Then the run is as it was before, and can be fed again.
        """
        self._look_whether_over()
        if not isinstance(piece, (bytes, bytearray, memoryview)):
            raise TypeError(f"a piece is bytes, not {type(piece).__name__}")
        with Borrowed(piece) as data:
            rooms = self._lend(data.length)
            try:
                return self._feed(data, *rooms)
            finally:
                for it in rooms:
                    it.give_back()

    def end(self) -> Step:
        """Ends the run, at the end of its input, and returns the last output and messages, with the
        status of the whole run."""
        return self._finish(_end)

    def broken(self) -> Step:
        """Ends a run whose source failed: the status is `Status.BROKEN`, unless there was a fatal
        fault."""
        return self._finish(_broken)

    def steps(self, pieces: Iterable[bytes | bytearray | memoryview]) -> Iterator[Step]:
        """Yields a step for each of `pieces` and one for their end, or the steps up to a fatal
        fault. If reading a piece fails, its error is raised; the run is not over then, and can be
        ended by `broken`."""
        for piece in pieces:
            step = self.feed(piece)
            yield step
            if step.status is not None:
                return
        yield self.end()

    def _what(self) -> tuple[int, int, ctypes.Array[_Options], int]:
        """Returns the arguments of each step: format, flags, limits and a new key."""
        return NUMBERS[self._format], int(self._all_warnings), self._limits._options(), 1

    def _look_whether_over(self) -> None:
        if self._status is not None:
            raise RunOverError("the run is over")

    def _lend(self, length: int) -> tuple[Room, Room, Room]:
        """Returns rooms for the messages, the output and the state of a step over `length` bytes.
        Rooms are reused last in, first out."""
        state, output = Room.lend(self._bound), Room.lend(TIMES[self._format] * length + LEAST)
        return Room.lend(length + LEAST), output, state

    def _feed(self, data: Borrowed, messages: Room, output: Room, state: Room) -> Step:
        """Makes a step until all that it writes fits. The run changes when nothing can fail any
        more."""
        before, step = self._state, _Step()
        state.take(len(before))
        while True:
            state.content[: len(before)] = before
            answer = _feed(
                *self._what(),
                state.address(),
                len(state.content),
                len(before),
                data.address,
                data.length,
                output.address(),
                len(output.content),
                messages.address(),
                len(messages.content),
                ctypes.byref(step),
            )
            if answer != _SHORT:
                break
            for room, length in (
                (state, step.state),
                (output, step.output),
                (messages, step.messages),
            ):
                room.take(length)
        _raise_where_wrong(answer)
        made = Step(
            output.text(step.output),
            None if answer == _RUNS else Status(answer),
            messages.text(step.messages),
        )
        self._state, self._status = state.head(step.state), made.status
        return made

    def _finish(self, end: Callable[..., int]) -> Step:
        """Ends the run by this call, until all that it writes fits."""
        self._look_whether_over()
        lengths = Lengths()
        output, messages = Room.lend(LEAST), Room.lend(LEAST)
        try:
            while True:
                answer = end(
                    *self._what(),
                    self._state,
                    len(self._state),
                    output.address(),
                    len(output.content),
                    messages.address(),
                    len(messages.content),
                    ctypes.byref(lengths),
                )
                if answer != _SHORT:
                    break
                output.take(lengths.output)
                messages.take(lengths.messages)
            _raise_where_wrong(answer)
            made = Step(
                output.text(lengths.output), Status(answer), messages.text(lengths.messages)
            )
            self._status = made.status
            return made
        finally:
            messages.give_back()
            output.give_back()
