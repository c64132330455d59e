"""The scores that a command works on: which files they are, what reads each, and what became of
them."""
from __future__ import annotations

from collections.abc import Callable, Iterator
from dataclasses import dataclass

from gregorio_chant.work.files import Content, Reader
from gregorio_chant.work.settings import Finder, NoSettings
from gregorio_chant.work.staged import StagedFiles
from gregorio_chant.work.statuses import CANNOT_READ_OR_WRITE
from gregorio_chant.work.streams import reason_of, tell
from gregorio_chant.work.walk import find_scores

Read = Callable[[str], Content]


@dataclass(frozen=True, kw_only=True)
class Options:
    """The options that the commands over files have in common. `exclude` has patterns of files to
    leave out of folders."""

    paths: tuple[str, ...]
    exclude: tuple[str, ...] = ()
    settings: Finder = NoSettings()
    staged: bool = False
    jobs: int = 1
    quiet: bool = False


class Scores:
    """The scores that the options name, in order, by their `names`. `read` reads one of them;
    `done` and `failed` count them, and `status` is the worst one."""

    def __init__(self, options: Options, what: str = "read", note: str = "") -> None:
        """Finds the scores. `what` is done to them, and `note` is said of each with which that
        fails. Raises `GitError`, `SettingsError` and `MissingDependency`, and `UsageError` for an
        `exclude` that is no pattern."""
        self._what, self._note = what, note
        self.done = self.failed = self.status = 0
        self.read: Read
        if options.staged:
            staged = StagedFiles(options.paths)
            names, self.read = staged.names, staged.read
        else:
            names = find_scores(options.paths, self.cannot, options.exclude)
            self.read = Reader.of(options.paths).read
        self.names = options.settings.kept(names, options.paths)

    def add(self, status: int, is_done: bool = True) -> None:
        """Counts a score that was read."""
        self.status = max(self.status, status)
        self.done += is_done

    def fail(self, name: str, reason: str, status: int = CANNOT_READ_OR_WRITE) -> None:
        """Counts a score that cannot be worked on, and says why."""
        self.failed += 1
        self.status = max(self.status, status)
        tell(f"cannot {self._what} {name}: {reason}{self._note}")

    def cannot(self, name: str, error: OSError) -> None:
        """Counts a file or a folder that cannot be read, and says why."""
        self.fail(name, reason_of(error))

    def contents(self) -> Iterator[tuple[str, Content]]:
        """Yields the name of each score that can be read, and what its file holds."""
        for name in self.names:
            try:
                content = self.read(name)
            except OSError as error:
                self.cannot(name, error)
            else:
                yield name, content
