"""The command `check`: tells what is found in files, and writes none."""
from __future__ import annotations

from collections import Counter
from collections.abc import Callable, Iterator, Mapping
from concurrent.futures import ThreadPoolExecutor
from contextlib import contextmanager, nullcontext
from dataclasses import dataclass
from functools import partial

from gregorio_chant import __version__
from gregorio_chant._native.results import Kind, Message
from gregorio_chant.linting.finding import messages_with_rules, unsilenced
from gregorio_chant.linting.helps import helps_for
from gregorio_chant.linting.selection import Selection
from gregorio_chant.objects.compiled import Compiled, TooLong
from gregorio_chant.report.reports import Annotations, Checked, Json, Lines, Reporter, summary_of
from gregorio_chant.report.sarif import Sarif
from gregorio_chant.text.source import text_of
from gregorio_chant.work import scores
from gregorio_chant.work.needs import MissingDependency
from gregorio_chant.work.processes import by_processes
from gregorio_chant.work.progress import bar
from gregorio_chant.work.scores import Read, Scores
from gregorio_chant.work.settings import Chosen
from gregorio_chant.work.statuses import CANNOT_READ_OR_WRITE, NO_MEMORY
from gregorio_chant.work.streams import reason_of, tell, write

FORMS = ("text", "lines", "json", "github", "sarif")


@dataclass(frozen=True, kw_only=True)
class Options(scores.Options):
    """The options of `check`."""

    chosen: Chosen = Chosen()
    form: str = "text"
    with_rules: bool = False


def found_in(compiled: Compiled, with_rules: bool) -> tuple[Message, ...]:
    """Returns all that is found in a score, by the compiler and, if they are wanted, by the
    rules, and that no comment of it silences."""
    return messages_with_rules(compiled) if with_rules else unsilenced(compiled)


@dataclass(frozen=True)
class Told:
    """What is reported of a score: `messages`, each with its help or nothing, of all that is
    `found` in its `text`. The text is empty if nothing is reported."""

    found: tuple[Message, ...]
    messages: tuple[Message, ...] = ()
    text: str = ""
    helps: tuple[str | None, ...] = ()


def told_of(
    compiled: Compiled,
    selection: Selection,
    with_rules: bool,
    found: tuple[Message, ...] | None = None,
) -> Told:
    """Returns what is reported of a score, in which this is `found` if that is known. Raises
    `TooLong` for one that is too long for its tree, if rules are tried or a comment silences
    something."""
    if found is None:
        found = found_in(compiled, with_rules)
    messages = selection.of(found)
    if not messages:
        return Told(found)
    text = text_of(compiled.data)
    return Told(found, messages, text, helps_for(compiled, messages))


def check_file(name: str, options: Options, read_it: Read) -> Checked:
    """Returns what is found in the file, or why it was not read."""
    try:
        return check_score(name, Compiled(read_it(name).data), options)
    except OSError as error:
        return Checked(name, failure=reason_of(error), status=CANNOT_READ_OR_WRITE)
    except TooLong as error:
        return Checked(name, failure=str(error), status=error.status)
    except MemoryError:
        return Checked(name, failure="there is no memory for it", status=NO_MEMORY)


def check_score(
    name: str, compiled: Compiled, options: Options, found: tuple[Message, ...] | None = None
) -> Checked:
    """Returns what is reported of a score of this name, in which this is `found` if that is
    known."""
    settings = options.settings.of(name)
    selection = settings.selection(name, options.chosen)
    told = told_of(compiled, selection, options.with_rules or settings.rules is True, found)
    status = int(selection.status_of(told.messages))
    return Checked(name, told.messages, told.text, status=status, helps=told.helps)


def _check_unknown(
    name: str, options: Options, read_it: Read, known: Mapping[str, Checked]
) -> Checked:
    return known.get(name) or check_file(name, options, read_it)


@contextmanager
def _all_checked(
    names: list[str], options: Options, read_it: Read, known: Mapping[str, Checked]
) -> Iterator[Iterator[Checked]]:
    """Gives what is found in each file, in order: by threads, since the compiler runs beside
    them; by processes with rules, which are Python."""
    work = partial(_check_unknown, options=options, read_it=read_it, known=known)
    with_rules = options.with_rules or any(options.settings.of(it).rules for it in names)
    if with_rules and not options.staged and not known:
        with by_processes(work, names, options.jobs) as all_checked:
            yield all_checked
        return
    if options.jobs == 1:
        yield map(work, names)
        return
    pool = ThreadPoolExecutor(options.jobs)
    try:
        yield pool.map(work, names)
    finally:
        pool.shutdown(wait=False, cancel_futures=True)


def _reporter_of(form: str) -> Reporter:
    plain: dict[str, Callable[[], Reporter]] = {
        "lines": Lines,
        "json": Json,
        "github": Annotations,
        "sarif": lambda: Sarif(__version__),
    }
    if form in plain:
        return plain[form]()
    try:
        from gregorio_chant.report.terminal import TextReporter
    except ImportError:
        raise MissingDependency("text (--output-format lines does without)", "rich") from None
    return TextReporter()


class _Scores(Scores):
    """The scores that are checked, and what is found in them."""

    def __init__(self, options: Options) -> None:
        super().__init__(options)
        self.kinds = Counter[Kind]()

    def take(self, checked: Checked) -> None:
        """Counts a file."""
        if checked.failure is not None:
            self.fail(checked.shown_name, checked.failure, checked.status)
            return
        self.add(checked.status)
        self.kinds.update(it.kind for it in checked.messages)

    def summary(self) -> str:
        return summary_of(self.done, self.failed, self.kinds)


def check(options: Options, known: Mapping[str, Checked] | None = None) -> int:
    """Checks the files, reports what is found, and returns the worst status. What is `known` of a
    file is not looked for again. Raises `WriteError`, and `MissingDependency`, `GitError` or
    `SettingsError` before any score is read."""
    reporter = _reporter_of(options.form)
    found = _Scores(options)
    with (
        _all_checked(found.names, options, found.read, known or {}) as all_checked,
        bar("checking", len(found.names)) as shown,
    ):
        for it in all_checked:
            text = reporter.add(it)
            with shown.aside(told=it.failure is not None) if text or it.failure else nullcontext():
                found.take(it)
                write(text)
            shown.advance()
    write(reporter.end(None if options.quiet else found.summary()))
    if not options.quiet and not reporter.has_summary:
        tell(found.summary())
    return found.status
