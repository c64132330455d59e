"""`show --watch`: writes again when a score changes. It stands on the package `watchdog`."""
from __future__ import annotations

import os
import threading
import time
from collections.abc import Callable, Iterator
from typing import NoReturn

from watchdog.events import FileSystemEvent, FileSystemEventHandler
from watchdog.observers import Observer

from gregorio_chant.errors import UsageError
from gregorio_chant.show.showing import Options, show
from gregorio_chant.work.ignored import FILE as IGNORED
from gregorio_chant.work.settings import NAME as SETTINGS
from gregorio_chant.work.settings import SettingsError
from gregorio_chant.work.statuses import CANNOT_READ_OR_WRITE
from gregorio_chant.work.streams import STDIN, reason_of, tell
from gregorio_chant.work.walk import has_name_of_score

# How long it waits for what is written at the same time, in seconds.
_PAUSE = 0.1
# What happens to files that are only read.
_HARMLESS = frozenset(("opened", "closed_no_write"))


class _Watched:
    """The files and folders that are named, by their whole names, and what is written."""

    def __init__(self, options: Options) -> None:
        whole = [os.path.abspath(it) for it in options.paths]
        self._folders = [it for it in whole if os.path.isdir(it)]
        files = [it for it in whole if it not in self._folders]
        # A link changes in its own folder, and the file that it leads to in another one.
        self._files = {name for it in files for name in (it, os.path.realpath(it))}
        self._output = (
            None
            if options.output is None or options.into_folder
            else os.path.abspath(options.output)
        )

    def places(self) -> Iterator[tuple[str, bool]]:
        """Yields each folder where something may change, and whether all below it is meant."""
        yield from ((it, True) for it in self._folders)
        yield from ((it, False) for it in sorted({os.path.dirname(it) for it in self._files}))

    def has(self, name: str) -> bool:
        """Returns whether a change of this file may change what is written."""
        base = os.path.basename(name)
        if name == self._output:
            return False
        return (
            name in self._files
            or base == SETTINGS
            or bool(self._folders)
            and (base == IGNORED or has_name_of_score(base))
        )


class _Handler(FileSystemEventHandler):
    """Sets `changed` where something that is watched changes."""

    def __init__(self, watched: _Watched, changed: threading.Event) -> None:
        self._watched, self._changed = watched, changed

    def on_any_event(self, event: FileSystemEvent) -> None:
        if event.event_type in _HARMLESS:
            return
        names = [os.fsdecode(it) for it in (event.src_path, getattr(event, "dest_path", "")) if it]
        # With a folder that comes or goes its scores do.
        is_folder = event.is_directory and event.event_type in ("moved", "deleted")
        if is_folder or not event.is_directory and any(self._watched.has(it) for it in names):
            self._changed.set()


def _refuse(options: Options) -> None:
    """Raises `UsageError` where nothing can be watched, or nothing written again."""
    if options.output is None:
        raise UsageError("--watch writes files again: -o FILE or -o FOLDER/ is needed")
    if STDIN in options.paths:
        raise UsageError("--watch watches files, and standard input is none")


def watch(options: Callable[[], Options]) -> int:
    """Writes the pages, and again after each change, until it is ended. `options` is called each
    time, so that settings are read anew. Returns the exit status. Raises the errors of `show` the
    first time; later it reports them, and waits for the next change."""
    first = options()
    _refuse(first)
    watched = _Watched(first)
    changed = threading.Event()
    observer = Observer()
    try:
        for place, is_deep in watched.places():
            observer.schedule(_Handler(watched, changed), place, recursive=is_deep)
        observer.start()
    except OSError as error:
        tell(f"cannot watch: {reason_of(error)}")
        return CANNOT_READ_OR_WRITE
    try:
        _write(first)
        _again(options, changed)
    finally:
        observer.stop()
        observer.join()


def _write(options: Options) -> None:
    if show(options).is_written:
        tell(f"wrote {options.output or ''}")


def _again(options: Callable[[], Options], changed: threading.Event) -> NoReturn:
    """Writes after each change."""
    while True:
        changed.wait()
        time.sleep(_PAUSE)
        changed.clear()
        try:
            _write(options())
        except (SettingsError, UsageError) as error:
            tell(str(error))
