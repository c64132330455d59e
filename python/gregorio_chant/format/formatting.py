"""The command `format`: writes each score as its editor laid it out, in canonical spelling; or in
canonical form, where nothing but blanks would change."""
from __future__ import annotations

import difflib
import enum
from collections.abc import Iterator
from contextlib import contextmanager, nullcontext
from dataclasses import dataclass
from functools import partial

from gregorio_chant._native.results import Status
from gregorio_chant.format.judge import Reading, objection
from gregorio_chant.format.layout import laid_out
from gregorio_chant.format.losses import Loss, losses_of
from gregorio_chant.objects.compiled import Compiled, TooLong
from gregorio_chant.report.reports import counted
from gregorio_chant.work import scores
from gregorio_chant.work.files import Content, FileChanged, replace
from gregorio_chant.work.processes import by_processes
from gregorio_chant.work.progress import bar
from gregorio_chant.work.scores import Read, Scores
from gregorio_chant.work.settings import Settings
from gregorio_chant.work.statuses import CANNOT_READ_OR_WRITE, NO_MEMORY
from gregorio_chant.work.streams import STDIN, printable, reason_of, tell, write_data


@dataclass(frozen=True)
class Style:
    """How a score is written: in canonical form, or as it is laid out, with at most `width`
    characters on a line where one is given."""

    is_canonical: bool = False
    width: int | None = None


def style_by(settings: Settings) -> Style:
    """Returns how the settings of a project want a score to be written."""
    return Style(settings.canonical is True, settings.wrap)


@dataclass(frozen=True, kw_only=True)
class Options(scores.Options):
    """The options of the command; `allow` has the losses that are allowed."""

    style: Style = Style()
    allow: frozenset[str] = frozenset()
    checks: bool = False
    shows_diff: bool = False

    @property
    def writes(self) -> bool:
        return not self.checks and not self.shows_diff

    def style_of(self, name: str) -> Style:
        """Returns how a file is written: by the words of the command, where they say something,
        else by the settings."""
        return self.style if self.style != Style() else style_by(self.settings.of(name))


class Outcome(enum.Enum):
    """What became of a file."""

    UNCHANGED = "unchanged"
    WRITTEN = "written"
    WOULD_CHANGE = "would change"
    REFUSED = "refused"
    FAILED = "could not be read or written"


@dataclass(frozen=True)
class Formatted:
    """What a score is formatted to. Where it has to stay as it is, the others say why: what it
    would lose, its fault, or the judge's objection."""

    data: bytes = b""
    losses: tuple[Loss, ...] = ()
    fault: str | None = None
    objection: str | None = None

    def reasons(self) -> list[str]:
        """Returns why the score stays as it is, in a line and further ones with their places;
        nothing where it may be written."""
        if self.fault is not None:
            return ["it is not whole", self.fault]
        if self.objection is not None:
            return [f"{self.objection}, which is a defect of gregorio-chant"]
        if self.losses:
            return [
                "more than its blanks would change",
                *(
                    f"{it.place.line}:{it.place.column}: {it.reason}: {it.text}"
                    for it in self.losses
                ),
            ]
        return []


def formatted(data: bytes, style: Style, allow: frozenset[str] = frozenset()) -> Formatted:
    """Returns what a score is formatted to; the losses are those that are not allowed. Raises
    `TooLong` for a score of which more than blanks would change, if it is too long for its tree."""
    score = Compiled.with_canonical(data)
    if score.fault is not None:
        it = score.fault
        return Formatted(fault=f"{it.line}:{it.column}: {it.code}: {it.text}")
    if style.is_canonical:
        return _canonical(score, allow)
    write_it = partial(laid_out, width=style.width)
    new = write_it(score)
    if new == data:
        return Formatted(new)
    before = Reading.of(score)
    del score
    return Formatted(new, objection=objection(before, Compiled.with_canonical(new), write_it))


def _canonical(score: Compiled, allow: frozenset[str]) -> Formatted:
    losses = (it for it in losses_of(score) if it.reason not in allow)
    return Formatted(score.canonical.encode("utf-8"), tuple(losses))


@dataclass(frozen=True)
class _Done:
    """What became of a file, with the lines that say so, and what is written to standard output."""

    outcome: Outcome
    status: int = 0
    lines: tuple[str, ...] = ()
    text: str = ""


def _format(name: str, options: Options, read: Read) -> _Done:
    """Formats a file, or says why it stays as it is."""
    shown = "<stdin>" if name == STDIN else name
    try:
        content = read(name)
        made = formatted(content.data, options.style_of(name), options.allow)
    except OSError as error:
        return _Done(
            Outcome.FAILED, CANNOT_READ_OR_WRITE, (f"cannot read {shown}: {reason_of(error)}",)
        )
    except TooLong as error:
        return _Done(Outcome.FAILED, error.status, (f"cannot format {shown}: {error}",))
    except MemoryError:
        return _Done(
            Outcome.FAILED, NO_MEMORY, (f"cannot read {shown}: there is no memory for it",)
        )
    reasons = made.reasons()
    if reasons and not (made.losses and options.shows_diff):
        first, *others = reasons
        status = int(Status.FATAL) if made.fault is not None else 1
        stays = "would stay" if options.checks and made.fault is None else "stays"
        return _Done(
            Outcome.REFUSED,
            status,
            (f"{shown} {stays} as it is: {first}", *(f"{shown}:{it}" for it in others)),
        )
    return _finish(name, shown, content, made.data, options)


def _finish(name: str, shown: str, content: Content, data: bytes, options: Options) -> _Done:
    text = ""
    if options.shows_diff:
        kind = "canonical" if options.style_of(name).is_canonical else "formatted"
        text = difference(
            shown, f"{shown} ({kind})", content.data.decode("utf-8"), data.decode("utf-8")
        )
    elif name == STDIN and options.writes:
        text = data.decode("utf-8")
    if data == content.data:
        return _Done(Outcome.UNCHANGED, text=text)
    if not options.writes:
        return _Done(Outcome.WOULD_CHANGE, 1, (f"{shown} would change",) * options.checks, text)
    if name != STDIN:
        try:
            replace(name, content, data)
        except (OSError, FileChanged) as error:
            reason = reason_of(error) if isinstance(error, OSError) else str(error)
            return _Done(
                Outcome.FAILED,
                CANNOT_READ_OR_WRITE,
                (f"cannot write {shown}: {reason}; it stays as it was",),
            )
    return _Done(Outcome.WRITTEN, text=text)


def difference(name: str, new_name: str, before: str, after: str) -> str:
    """Returns a unified diff of two texts, as they are."""
    lines = []
    for line in difflib.unified_diff(
        _lines(before), _lines(after), printable(name), printable(new_name)
    ):
        lines.append(line if line.endswith("\n") else f"{line}\n\\ No newline at end of file\n")
    return "".join(lines)


def _lines(text: str) -> list[str]:
    lines = text.split("\n")
    return [f"{it}\n" for it in lines[:-1]] + lines[-1:] * (lines[-1] != "")


# ---- many files


class _Scores(Scores):
    """The scores that are formatted, and what became of them."""

    def __init__(self, options: Options) -> None:
        self.outcomes = {it: 0 for it in Outcome}
        super().__init__(options)

    def fail(self, name: str, reason: str, status: int = CANNOT_READ_OR_WRITE) -> None:
        super().fail(name, reason, status)
        self.outcomes[Outcome.FAILED] += 1

    def take(self, done: _Done) -> None:
        """Counts a file, and writes what is to be written of it."""
        write_data(done.text)
        self.outcomes[done.outcome] += 1
        self.add(done.status)
        for it in done.lines:
            tell(it)

    def summary(self) -> str:
        told = [f"{number:,} {it.value}" for it, number in self.outcomes.items() if number]
        files = counted(sum(self.outcomes.values()), "file")
        return f"{files}: {', '.join(told) if told else 'nothing to do'}"


@contextmanager
def _all_formatted(options: Options, found: _Scores) -> Iterator[Iterator[_Done]]:
    """Gives what becomes of each file, in order; many of them are formatted by `options.jobs`
    processes."""
    work = partial(_format, options=options, read=found.read)
    if options.staged:
        yield map(work, found.names)
        return
    with by_processes(work, found.names, options.jobs) as all_done:
        yield all_done


def format_files(options: Options) -> int:
    """Formats the files, and returns the worst status. Raises `WriteError`, and before any score is
    read `GitError`, `SettingsError` or `MissingDependency`."""
    found = _Scores(options)
    with _all_formatted(options, found) as all_done, bar("formatting", len(found.names)) as shown:
        for it in all_done:
            with shown.aside(told=bool(it.lines)) if it.text or it.lines else nullcontext():
                found.take(it)
            shown.advance()
    if not options.quiet:
        tell(found.summary())
    return found.status
