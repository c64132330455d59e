"""The command `show`: pictures of scores with their messages, as one page, as a folder of pages,
or one as SVG."""
from __future__ import annotations

import os
from collections import Counter
from collections.abc import Iterable, Iterator
from dataclasses import dataclass, field, replace
from pathlib import Path
from urllib.parse import quote

from gregorio_chant._native.results import Kind
from gregorio_chant.errors import UsageError
from gregorio_chant.linting import checking
from gregorio_chant.objects.compiled import MOST_BYTES, Compiled, TooLong
from gregorio_chant.objects.sounds import sounds_of_score
from gregorio_chant.pictures.drawing import draw
from gregorio_chant.pictures.look import Look
from gregorio_chant.pictures.names import Names
from gregorio_chant.pictures.page import NARROW, Entry, Shown, index_of, page_of
from gregorio_chant.report.reports import Checked, counted, summary_of
from gregorio_chant.text.source import text_of
from gregorio_chant.work import files, scores
from gregorio_chant.work.scores import Scores
from gregorio_chant.work.streams import STDIN, WriteError, printable, tell, write_data

MOST = 200
_INDEX = "index.html"


@dataclass(frozen=True, kw_only=True)
class Options(scores.Options):
    """The options of `show`. `output` is a file or a folder, and `None` standard output."""

    output: str | None = None
    svg: bool = False
    look: Look = field(default_factory=Look)
    with_messages: bool = True
    sings: bool = False
    with_rules: bool = False

    @property
    def into_folder(self) -> bool:
        return self.output is not None and (self.output.endswith("/") or os.path.isdir(self.output))

    @property
    def files(self) -> list[Path]:
        """The file that is wanted, if it is one."""
        return [] if self.output is None else [Path(self.output)]


class _Scores(Scores):
    """The scores that are shown, and what is found in them."""

    def __init__(self, options: Options) -> None:
        super().__init__(options)
        self._options = options
        self._checking = checking.Options(
            paths=options.paths, with_rules=options.with_rules, settings=options.settings
        )
        self.kinds = Counter[Kind]()

    def all(self) -> Iterator[tuple[Checked, Compiled]]:
        """Yields what is found in each score, and what the compiler says of it."""
        for name, content in self.contents():
            compiled = Compiled(content.data)
            if len(compiled.data) > MOST_BYTES:
                self.fail(name, str(TooLong(len(compiled.data))))
                continue
            checked = checking.check_score(name, compiled, self._checking)
            self.add(checked.status)
            self.kinds.update(it.kind for it in checked.messages)
            yield checked, compiled

    def shown(self, checked: Checked, compiled: Compiled, prefix: str) -> Shown:
        """Returns a score as a page shows it: its picture, and one for a phone if the first is
        wider."""
        options, look = self._options, self._options.look
        messages = checked.messages if options.with_messages else ()
        names = Names(prefix, links=True, has_heads=options.sings)
        picture, narrow = draw(compiled, messages, look=look, names=names), None
        if look.width > NARROW:
            narrow = draw(
                compiled,
                messages,
                look=replace(look, width=NARROW),
                names=replace(names, prefix=f"{prefix}n-", messages=prefix),
            )
        sounds = sounds_of_score(compiled) if options.sings else ()
        return Shown(
            checked,
            printable(checked.shown_name),
            picture,
            text_of(compiled.data),
            prefix,
            narrow,
            options.with_messages,
            sounds,
        )

    def summary(self) -> str:
        return summary_of(self.done, self.failed, self.kinds)

    @property
    def has_none(self) -> bool:
        """Whether none of the scores could be read, so that nothing is written."""
        return self.failed > 0 and self.done == 0


def _put(path: Path, pieces: Iterable[str], below: Path | None = None) -> None:
    """Writes a file anew, which the user has named, or which stands below a folder that he has
    named. Raises `WriteError`."""
    try:
        path.parent.mkdir(parents=True, exist_ok=True)
        files.write(
            str(path),
            (it.encode("utf-8") for it in pieces),
            is_named=below is None,
            below=None if below is None else str(below),
        )
    except OSError as error:
        raise WriteError(error) from None


def _write(options: Options, pieces: Iterable[str]) -> None:
    """Writes the page to where it is options. Raises `WriteError`."""
    if options.output is not None:
        _put(Path(options.output), pieces)
    else:
        for it in pieces:
            write_data(it)


def _refuse_own_input(outputs: Iterable[Path], names: Iterable[str]) -> None:
    """Raises `UsageError` where a page would take the place of a score that is shown."""
    shown = {_identity(name) for name in names if name != STDIN} - {None}
    for output in outputs:
        if _identity(output) in shown:
            raise UsageError(f"{output} is a score that is shown: name another file")


def _identity(path: str | Path) -> tuple[int, int] | None:
    """Returns the device and the inode of a file, or `None` if there is no such file."""
    try:
        state = os.stat(path)
    except OSError:
        return None
    return state.st_dev, state.st_ino


@dataclass(frozen=True)
class Done:
    """The worst status of the scores that are shown, and whether something was written."""

    status: int
    is_written: bool


def show(options: Options) -> Done:
    """Writes what is wanted, but nothing if no score can be read. Raises `WriteError`,
    `UsageError`, and `MissingDependency` or `SettingsError` before any score is read."""
    found = _Scores(options)
    if options.svg:
        _show_one(options, found)
    elif options.into_folder:
        _show_folder(options, found)
    else:
        _show_page(options, found)
    return Done(found.status, not found.has_none)


def _show_one(options: Options, found: _Scores) -> None:
    """Writes one picture. Raises `UsageError` where there is not one score."""
    if len(found.names) != 1 or options.into_folder:
        raise UsageError(
            f"--svg writes one picture, and here are {counted(len(found.names), 'score')}"
            if len(found.names) != 1
            else "--svg writes a file, and no folder"
        )
    _refuse_own_input(options.files, found.names)
    for checked, compiled in found.all():
        _write(
            options,
            draw(
                compiled, checked.messages if options.with_messages else (), look=options.look
            ).pieces,
        )


def _show_page(options: Options, found: _Scores) -> None:
    """Writes one page: each score that is named, and of folders those with messages."""
    _refuse_own_input(options.files, found.names)
    named = {it for it in options.paths if it == STDIN or not os.path.isdir(it)}
    shown: list[Shown] = []
    left_out = from_folders = 0
    for checked, compiled in found.all():
        if checked.name not in named:
            if not checked.messages:
                continue
            from_folders += 1
            if from_folders > MOST:
                left_out += 1
                continue
        shown.append(found.shown(checked, compiled, f"p{len(shown) + 1}-"))
    if found.has_none:
        return
    note = (
        f"{counted(left_out, 'score')} more with messages: -o FOLDER/ writes a page for each."
        if left_out
        else ""
    )
    title = (
        shown[0].picture.name or shown[0].name
        if len(found.names) == len(shown) == 1
        else found.summary()
    )
    _write(options, page_of(shown, title, note))


def _page_names(names: list[str], paths: tuple[str, ...]) -> Iterator[str]:
    """Yields the file of the page of each score: below the folder that is named as the score is
    below its own."""
    folders = [os.path.join(it, "") for it in paths if it != STDIN and os.path.isdir(it)]
    taken = {_INDEX}
    for name in names:
        folder = next((it for it in folders if name.startswith(it)), None)
        whole = (
            "stdin"
            if name == STDIN
            else os.path.basename(name)
            if folder is None
            else name[len(folder) :].lstrip("/")
        )
        page, number = f"{whole}.html", 1
        while page in taken:
            number += 1
            page = f"{whole}-{number}.html"
        taken.add(page)
        yield page


def _show_folder(options: Options, found: _Scores) -> None:
    """Writes a page for each score, and an index."""
    folder = Path(options.output or ".")
    pages = dict(zip(found.names, _page_names(found.names, options.paths)))
    _refuse_own_input([folder / it for it in (*pages.values(), _INDEX)], found.names)
    entries: list[Entry] = []
    for checked, compiled in found.all():
        shown = found.shown(checked, compiled, "")
        page = pages[checked.name]
        _put(
            folder / page,
            page_of(
                [shown], shown.picture.name or shown.name, back="../" * page.count("/") + _INDEX
            ),
            folder,
        )
        kinds, codes = Counter(it.kind for it in checked.messages), Counter(
            it.code for it in checked.messages
        )
        entries.append(
            Entry(shown.name, shown.picture.name, quote(os.fsencode(page)), kinds, codes)
        )
    if not found.has_none:
        _put(folder / _INDEX, index_of(entries, found.failed), folder)
    tell(found.summary())
