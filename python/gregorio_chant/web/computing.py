"""What is made of a score by a process of its own, so that it can be given up: at most one for each
tab of a browser."""
from __future__ import annotations

import asyncio
import os
import signal
from collections.abc import Awaitable, Callable, Mapping
from multiprocessing import get_context
from typing import Any

from gregorio_chant.errors import GregorioError
from gregorio_chant.work.ending import end_with_parent, leave_interrupts
from gregorio_chant.work.statuses import NO_MEMORY

# So many scores are worked on at a time.
MOST = 16
# Makes the bytes of an answer.
Work = Callable[[], bytes]
Receive = Callable[[], Awaitable[Mapping[str, Any]]]


class GivenUp(GregorioError):
    """Nobody waits for the answer any more: the tab has gone, or has asked anew."""


class TooMany(GregorioError):
    """As many scores are worked on as may be."""


class _Computation:
    """A process that makes an answer."""

    def __init__(self, work: Work) -> None:
        self._source, sink = os.pipe()
        # The server has no threads, so a copy of it is whole.
        self._process = get_context("fork").Process(target=_compute, args=(work, sink), daemon=True)
        self._process.start()
        os.close(sink)

    async def answer(self) -> bytes | None:
        """Returns the answer, and nothing where the process was ended. Raises `MemoryError`."""
        reader = asyncio.StreamReader()
        loop = asyncio.get_running_loop()
        transport, _ = await loop.connect_read_pipe(
            lambda: asyncio.StreamReaderProtocol(reader), os.fdopen(self._source, "rb")
        )
        try:
            made = await reader.read()
        finally:
            transport.close()
        self._process.join()
        if self._process.exitcode == NO_MEMORY:
            raise MemoryError
        return made if self._process.exitcode == 0 else None

    def end(self) -> None:
        """Ends the process, if it has not ended."""
        self._process.kill()


def _compute(work: Work, sink: int) -> None:
    """Makes an answer in a process of its own, which keeps no connection of the server open."""
    leave_interrupts()
    # Whoever gives the answer up closes the pipe: to write there ends the process in silence.
    for ending in (signal.SIGTERM, signal.SIGPIPE):
        signal.signal(ending, signal.SIG_DFL)
    end_with_parent()
    os.closerange(3, sink)
    os.closerange(sink + 1, os.sysconf("SC_OPEN_MAX"))
    try:
        made = work()
    except MemoryError:
        os._exit(NO_MEMORY)
    with open(sink, "wb") as file:
        file.write(made)


class Computations:
    """What is worked on, by the tabs that have asked and for what."""

    def __init__(self) -> None:
        self._running: dict[object, _Computation] = {}

    async def answer(self, tab: tuple[str, str] | None, work: Work, receive: Receive) -> bytes:
        """Returns what `work` makes. What is made for the same tab is given up. `receive` says when
        the tab goes. Raises `GivenUp`, `TooMany` and `MemoryError`."""
        key: object = object() if tab is None else tab
        before = self._running.pop(key, None)
        if before is not None:
            before.end()
        if len(self._running) >= MOST:
            raise TooMany
        it = self._running[key] = _Computation(work)
        making, leaving = asyncio.ensure_future(it.answer()), asyncio.ensure_future(_left(receive))
        try:
            await asyncio.wait((making, leaving), return_when=asyncio.FIRST_COMPLETED)
        finally:
            leaving.cancel()
            it.end()
            if self._running.get(key) is it:
                del self._running[key]
            await asyncio.wait((making,))
        # Asked for also if nobody waits any more: asyncio writes of an error that nobody asks for.
        made = making.result()
        if made is None:
            raise GivenUp
        return made


async def _left(receive: Receive) -> None:
    """Ends when nobody waits for the answer any more."""
    while (await receive())["type"] != "http.disconnect":
        pass
