"""Work on many files by all processors. Threads do not help where objects are made, so these are
processes."""
from __future__ import annotations

import time
from collections.abc import Callable, Iterator, Sequence
from contextlib import contextmanager
from typing import TYPE_CHECKING, Any, TypeVar

from gregorio_chant.work.ending import end_with_parent, leave_interrupts, undone
from gregorio_chant.work.streams import STDIN

if TYPE_CHECKING:
    from multiprocessing.process import BaseProcess

_Made = TypeVar("_Made")
# With fewer files than this, making processes takes longer than they save.
_FEW = 32
_MOST_IN_A_CHUNK = 32
# How long a process has to end by itself, in seconds.
_PATIENCE = 0.5
# What a process does with each name. It is inherited, and not sent with each of them.
_work: Callable[[str], Any]


@contextmanager
def by_processes(
    work: Callable[[str], _Made], names: Sequence[str], jobs: int
) -> Iterator[Iterator[_Made]]:
    """Gives what `work` makes of each name, in order, by at most `jobs` processes. All of them
    are made before anything else goes on, so that no thread of the caller's is copied. Where the
    caller is done before the end, nothing more is begun. Standard input is not theirs. Raises
    `MemoryError` where one of them is ended from outside."""
    if jobs == 1 or len(names) < _FEW or STDIN in names:
        yield map(work, names)
        return
    # They are wanted for many files alone, and take a while to be imported.
    from concurrent.futures.process import BrokenProcessPool, ProcessPoolExecutor
    from multiprocessing import active_children, get_context

    chunk = max(1, min(_MOST_IN_A_CHUNK, len(names) // (4 * jobs)))
    pool = ProcessPoolExecutor(jobs, get_context("fork"), _begin, (work,))
    ended = False
    try:
        with undone(lambda: end_all(active_children())):
            yield pool.map(_do, names, chunksize=chunk)
        ended = True
    except BrokenProcessPool:
        raise MemoryError("a process was ended from outside") from None
    finally:
        # A pool that is still ending when Python ends may write of an exception that it ignored.
        pool.shutdown(wait=ended, cancel_futures=True)


def _begin(work: Callable[[str], Any]) -> None:
    """Begins a process of others: it ends with the one that made it."""
    global _work
    _work = work
    leave_interrupts()
    end_with_parent()


def _do(name: str) -> Any:
    return _work(name)


def end_all(processes: Sequence[BaseProcess]) -> None:
    """Ends these processes: those that do not end by themselves after a moment are killed."""
    for it in processes:
        it.terminate()
    end = time.monotonic() + _PATIENCE
    for it in processes:
        it.join(max(0.0, end - time.monotonic()))
        if it.is_alive():
            it.kill()
