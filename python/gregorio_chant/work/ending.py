"""How the command ends at Control-C, SIGTERM and SIGHUP: at once, with no traceback, and with
nothing half written.

No exception is raised for them, since one may come wherever Python is, and then be lost or leave a
lock behind.
"""
from __future__ import annotations

import os
import signal
import sys
from collections.abc import Callable, Iterator
from contextlib import contextmanager
from types import FrameType

_SIGNALS = (signal.SIGINT, signal.SIGTERM, signal.SIGHUP)
# As Linux numbers it, for `prctl`.
_SET_SIGNAL_AT_END_OF_PARENT = 1
_undo: list[Callable[[], None]] = []
# What a process has to undo is not for those to undo that it makes.
os.register_at_fork(after_in_child=_undo.clear)


@contextmanager
def undone(undo: Callable[[], None]) -> Iterator[None]:
    """Has `undo` called if the process is ended by a signal meanwhile, after those that were given
    later."""
    _undo.append(undo)
    try:
        yield
    finally:
        _undo.remove(undo)


def end_at_signals() -> None:
    """Makes the process end at a signal with the status 128 and its number, as a shell counts. One
    that was ignored before, as `nohup` does, stays so."""
    for it in _SIGNALS:
        if signal.getsignal(it) is not signal.SIG_IGN:
            signal.signal(it, _end)


def leave_signals() -> None:
    """Leaves signals unheard from now on: all is done, and Python, while it ends, would not do with
    them what is wanted here. What this thread has blocked another one may still get, which ends a
    moment after it was joined: so they are ignored too."""
    signal.pthread_sigmask(signal.SIG_BLOCK, _SIGNALS)
    for it in _SIGNALS:
        signal.signal(it, signal.SIG_IGN)


def leave_interrupts() -> None:
    """Leaves what comes from the keyboard to the process that made this one, which ends it by
    SIGTERM."""
    for it in (signal.SIGINT, signal.SIGHUP):
        signal.signal(it, signal.SIG_IGN)


def end_with_parent() -> None:
    """Has this process of `multiprocessing` killed when the one that made it ends, however that
    ends, and ends it if that has ended already. Only Linux can do so."""
    if sys.platform == "linux":
        import ctypes
        from multiprocessing import parent_process

        ctypes.CDLL(None).prctl(_SET_SIGNAL_AT_END_OF_PARENT, signal.SIGKILL)
        # Whoever asks for the number of a parent that has ended gets that of another process.
        parent = parent_process()
        if parent is not None and os.getppid() != parent.pid:
            os._exit(1)


def _end(number: int, _: FrameType | None) -> None:
    for it in _SIGNALS:
        signal.signal(it, signal.SIG_IGN)
    try:
        for undo in reversed(_undo):
            undo()
    finally:
        os._exit(128 + number)
