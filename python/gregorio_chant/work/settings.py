"""The settings of a project: the file `gregorio-chant.toml` that lies nearest to a score, in its
folder or above."""
from __future__ import annotations

import importlib
import os
import re
import sys
from collections.abc import Callable, Collection, Iterable
from dataclasses import dataclass
from functools import cached_property
from pathlib import Path
from typing import Any

from gregorio_chant.errors import GregorioError, UsageError
from gregorio_chant.linting.selection import Selection, codes_in
from gregorio_chant.work.files import read_plain
from gregorio_chant.work.keys import FILE, FORMAT, FORMAT_KEYS, KEYS, Key, Kind
from gregorio_chant.work.needs import MissingDependency
from gregorio_chant.work.patterns import MOST, NoPattern, Patterns
from gregorio_chant.work.streams import STDIN, printable, reason_of

NAME = FILE
_MOST_BYTES = 65_536
_MOST_DOTS = 8
# The texts and comments of TOML, in which dots mean nothing, and what stands between keys.
_TEXTS = re.compile(
    r'''"""(?:\\.|[^\\])*?"""|\'\'\'.*?\'\'\'|"(?:\\.|[^"\\\n])*"|'[^'\n]*'|#[^\n]*''', re.DOTALL
)
_NO_KEY = re.compile(r"""[^\w"'. \t-]+""")
# By the name of a key its field and its reader.
_Readers = dict[str, tuple[str, Callable[[str, Any], object]]]


class SettingsError(GregorioError, ValueError):
    """Settings that cannot be read. It names the file and, where they are known, the line and the
    key."""


@dataclass(frozen=True)
class Chosen:
    """What the options of the command choose, which wins over the settings. `None` means unset."""

    select: frozenset[str] | None = None
    ignore: frozenset[str] | None = None
    fail_on: frozenset[str] | None = None


@dataclass(frozen=True)
class Settings:
    """The settings of a project. `None` means unset."""

    folder: Path | None = None
    select: frozenset[str] | None = None
    ignore: frozenset[str] | None = None
    fail_on: frozenset[str] | None = None
    rules: bool | None = None
    exclude: tuple[str, ...] = ()
    ignores_of_files: tuple[tuple[str, frozenset[str]], ...] = ()
    wrap: int | None = None
    canonical: bool | None = None

    @cached_property
    def _excluded(self) -> Patterns:
        return Patterns(self.exclude)

    @cached_property
    def _ignoring(self) -> tuple[Patterns, tuple[tuple[Patterns, frozenset[str]], ...]]:
        """All patterns of files in which codes are ignored, and each by itself."""
        return Patterns(it for it, _ in self.ignores_of_files), tuple(
            (Patterns((it,)), codes) for it, codes in self.ignores_of_files
        )

    def _way_to(self, name: str) -> str | None:
        """Returns the path of a file from the folder of the settings on; nothing for what is
        none."""
        return (
            None
            if self.folder is None or name == STDIN
            else os.path.relpath(os.path.abspath(name), self.folder)
        )

    def excludes(self, name: str) -> bool:
        way = self._way_to(name)
        return way is not None and self._excluded.has(way)

    def _ignored_in(self, name: str) -> frozenset[str]:
        way, (all_patterns, each) = self._way_to(name), self._ignoring
        if way is None or not all_patterns.has(way):
            return frozenset()
        return frozenset[str]().union(*(codes for patterns, codes in each if patterns.has(way)))

    def selection(self, name: str, chosen: Chosen = Chosen()) -> Selection:
        """Returns what is reported of a file. What the settings ignore in it comes to what is
        ignored anyway."""

        def first(word: frozenset[str] | None, setting: frozenset[str] | None) -> frozenset[str]:
            return word if word is not None else setting or frozenset()

        select = chosen.select if chosen.select is not None else self.select
        return Selection(
            select,
            first(chosen.ignore, self.ignore) | self._ignored_in(name),
            first(chosen.fail_on, self.fail_on),
            self.canonical is True,
        )


class _Reader:
    """Reads the keys of a file of settings, and reports what is wrong with line and key."""

    def __init__(self, path: Path, text: str, known: Collection[str]) -> None:
        self._path, self._text, self._known = path, text, known

    def fail(self, key: str, what: str) -> SettingsError:
        found = re.search(
            rf"""^[ \t]*(?:\[[^\n]*)?["']?{re.escape(key)}["']?[ \t]*[=\].]""",
            self._text,
            re.MULTILINE,
        )
        line = f":{self._text.count(chr(10), 0, found.start()) + 1}" if found else ""
        return SettingsError(f"{printable(str(self._path))}{line}: {printable(key)}: {what}")

    def _readers(self, keys: Iterable[Key]) -> _Readers:
        """Returns the field of each key, and its reader."""
        by_kind: dict[Kind, Callable[[str, Any], object]] = {
            Kind.CODES: self._codes,
            Kind.PATTERNS: self._patterns,
            Kind.CODES_OF_FILES: self._ignores,
            Kind.FLAG: self._flag,
            Kind.NUMBER: self._number,
        }
        return {it.name: (it.field, by_kind[it.kind]) for it in keys}

    def _take(self, table: dict[str, Any], readers: _Readers) -> dict[str, Any]:
        """Returns the values of a table, by the names of the fields."""
        taken = {}
        for key, value in table.items():
            if key not in readers:
                raise self.fail(key, f"unknown key; the keys are {', '.join(readers)}")
            field, read = readers[key]
            taken[field] = read(key, value)
        return taken

    def _codes(self, key: str, value: Any) -> frozenset[str]:
        try:
            return codes_in(",".join(self._words(key, value)), self._known)
        except UsageError as error:
            raise self.fail(key, str(error)) from None

    def _words(self, key: str, value: Any) -> tuple[str, ...]:
        if not isinstance(value, list) or not all(isinstance(it, str) for it in value):
            raise self.fail(key, 'expected a list of texts, such as ["W3"]')
        return tuple(value)

    def _patterns(self, key: str, value: Any) -> tuple[str, ...]:
        words = self._words(key, value)
        for it in words:
            self._refuse_no_pattern(key, it)
        if len(words) > MOST:
            raise self.fail(key, f"there are at most {MOST:,} patterns")
        return words

    def _refuse_no_pattern(self, key: str, word: str) -> None:
        try:
            Patterns.takes(word)
        except NoPattern as error:
            raise self.fail(key, f"{printable(word)}: {error}") from None

    def _flag(self, key: str, value: Any) -> bool:
        if not isinstance(value, bool):
            raise self.fail(key, "expected true or false")
        return value

    def _number(self, key: str, value: Any) -> int:
        if not isinstance(value, int) or isinstance(value, bool) or value < 1:
            raise self.fail(key, "expected a number from 1")
        return value

    def _table(self, key: str, value: Any) -> dict[str, Any]:
        if not isinstance(value, dict):
            raise self.fail(key, "expected a table")
        return value

    def _format(self, key: str, value: Any) -> dict[str, Any]:
        return self._take(self._table(key, value), self._readers(FORMAT_KEYS))

    def _ignores(self, key: str, value: Any) -> tuple[tuple[str, frozenset[str]], ...]:
        table = self._table(key, value)
        for it in self._patterns(key, list(table)):
            if it.startswith("!"):
                raise self.fail(
                    it, "a pattern of files in which codes are ignored takes nothing back"
                )
        return tuple((pattern, self._codes(pattern, codes)) for pattern, codes in table.items())

    def settings(self, table: dict[str, Any]) -> Settings:
        taken = self._take(table, self._readers(KEYS) | {FORMAT: (FORMAT, self._format)})
        form = taken.pop(FORMAT, {})
        if form.get("canonical") and "wrap" in form:
            raise self.fail("wrap", "the canonical form has a word on each line")
        return Settings(self._path.parent, **taken, **form)


def _read(path: Path, known: Collection[str]) -> Settings:
    try:
        data = read_plain(str(path), _MOST_BYTES)
    except OSError as error:
        raise SettingsError(f"{printable(str(path))}: {reason_of(error)}") from None
    try:
        toml = importlib.import_module("tomllib" if sys.version_info >= (3, 11) else "tomli")
        text = data.decode("utf-8")
        _refuse_long_keys(path, text)
        return _Reader(path, text, known).settings(toml.loads(text))
    except ImportError:
        raise MissingDependency(f"{printable(str(path))}, before Python 3.11,", "tomli") from None
    except SettingsError:
        raise
    except (ValueError, RecursionError) as error:
        raise SettingsError(f"{printable(str(path))}: {printable(str(error))}") from None


def _refuse_long_keys(path: Path, text: str) -> None:
    """Raises `SettingsError` where a key has many dots: the memory that the reader of TOML takes
    for it grows with their square."""
    for number, line in enumerate(
        _TEXTS.sub(lambda found: '"' + "\n" * found[0].count("\n"), text).split("\n"), 1
    ):
        if any(it.count(".") > _MOST_DOTS for it in _NO_KEY.split(line)):
            raise SettingsError(
                f"{printable(str(path))}:{number}: a key has at most {_MOST_DOTS} dots"
            )


class Finder:
    """Finds the settings of each score. Each file of settings is read once."""

    def __init__(self, known: Collection[str]) -> None:
        """Takes all codes and rules."""
        self._known = known
        self._found: dict[Path, Settings] = {}

    def of(self, name: str) -> Settings:
        """Returns the settings of a file, or of the working folder for standard input. Raises
        `SettingsError`."""
        folder = Path.cwd() if name == STDIN else Path(os.path.abspath(name)).parent
        passed = []
        for it in (folder, *folder.parents):
            if it in self._found:
                settings = self._found[it]
                break
            passed.append(it)
            if os.path.lexists(it / NAME):
                settings = _read(it / NAME, self._known)
                break
        else:
            settings = Settings()
        self._found.update(dict.fromkeys(passed, settings))
        return settings

    def kept(self, names: Iterable[str], paths: Collection[str]) -> list[str]:
        """Returns the names without those that settings exclude; each of the `paths` themselves
        stays. Raises `SettingsError`."""
        named = set(paths)
        return [it for it in names if not self.of(it).excludes(it) or it in named]


class NoSettings(Finder):
    """Finds none, whatever lies beside a score."""

    def __init__(self) -> None:
        super().__init__(())

    def of(self, name: str) -> Settings:
        return Settings()
