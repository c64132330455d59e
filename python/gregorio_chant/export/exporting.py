"""The command `export`: writes scores as files of another format, beside them or in a folder."""
from __future__ import annotations

from dataclasses import dataclass
from pathlib import Path

from gregorio_chant.export import Way
from gregorio_chant.export.losses import losses
from gregorio_chant.objects.compiled import TooLong
from gregorio_chant.objects.reading import ScoreError
from gregorio_chant.objects.score import Score
from gregorio_chant.report.reports import counted
from gregorio_chant.work import scores
from gregorio_chant.work.files import write
from gregorio_chant.work.scores import Scores
from gregorio_chant.work.streams import STDIN, tell, write_bytes

_ERRORS = 1
_FATAL = 2


@dataclass(frozen=True, kw_only=True)
class Options(scores.Options):
    """The options of `export`: `way` is the format of the new files, `folder` their folder, if it
    is not that of their scores."""

    way: Way
    folder: str | None = None
    is_forced: bool = False


def _target(name: str, options: Options) -> Path:
    path = Path(name).with_suffix(options.way.ending)
    return path if options.folder is None else Path(options.folder) / path.name


class _Told:
    """What the format says nothing of: each kind is told once, at its first place in the first
    score that has it."""

    def __init__(self, way: Way) -> None:
        self._way = way
        self._kinds: set[str] = set()

    def tell(self, name: str, score: Score) -> None:
        for kind, source in losses(score, self._way.lost - self._kinds).items():
            self._kinds.add(kind)
            tell(f"{name}:{source}: {self._way.name} says nothing of {kind}")


def _export(name: str, data: bytes, options: Options, lost: _Told) -> tuple[int, str | None]:
    """Exports a score. Returns the status, and what is told of it."""
    try:
        score = Score.parse(data)
    except ScoreError as error:
        return _FATAL, f"{name}:{error}; it is not written"
    fault = score.fault
    if fault is not None:
        return (
            _FATAL,
            f"{name}:{fault.line}:{fault.column}: {fault.code}: {fault.text}; it is not written",
        )
    try:
        made = options.way.write(score)
    except ValueError as error:
        return _ERRORS, f"{name}:{error}; it is not written"
    if name == STDIN:
        write_bytes(made)
    else:
        write(str(_target(name, options)), (made,), is_forced=options.is_forced)
    lost.tell(name, score)
    return 0, None


def export(options: Options) -> int:
    """Exports the scores, and returns the worst status. Raises `WriteError`, and `SettingsError`
    or `MissingDependency` before any score is read."""
    found, lost = Scores(options, "export"), _Told(options.way)
    for name, content in found.contents():
        try:
            status, told = _export(name, content.data, options, lost)
        except FileExistsError:
            found.fail(name, "there is a file of this name already; --force writes over it")
            continue
        except OSError as error:
            found.cannot(name, error)
            continue
        except TooLong as error:
            found.fail(name, str(error))
            continue
        found.add(status, status == 0)
        if told is not None:
            tell(told)
    if not options.quiet:
        tell(f"{counted(found.done, 'file')} written")
    return found.status
