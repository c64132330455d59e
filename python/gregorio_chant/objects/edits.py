"""Changes of a score that keep the rest of its file character for character.

>>> from gregorio_chant.dump import Score
>>> score = Score.parse("name: Kyrie;\\n%%  the simple tone\\n(c4)  Ky(f)ri(gfg)")
>>> print(score.edited().transpose(1).replace(score.headers[0], "name: Kyrie II;").text())
name: Kyrie II;
%%  the simple tone
(c4)  Ky(g)ri(hgh)
"""
from __future__ import annotations

import bisect
import re
from collections.abc import Iterator, Sequence
from dataclasses import dataclass
from typing import TYPE_CHECKING

from gregorio_chant._native.node_kinds import NodeKind
from gregorio_chant._native.trees import tree
from gregorio_chant.errors import GregorioError
from gregorio_chant.objects.headers import Header, header_spelling
from gregorio_chant.objects.item import PITCHES, Item
from gregorio_chant.objects.items import Alteration, Custos, Note
from gregorio_chant.objects.syllables import NabcSnippet, Syllable
from gregorio_chant.text.source import Source

if TYPE_CHECKING:
    from gregorio_chant.objects.score import Score

_LINE_END = re.compile("\r\n|\n|\r")
_OF_NABC = frozenset(it for it in NodeKind if it.name.startswith(("DESCRIPTOR", "NABC_")))


class EditError(GregorioError, ValueError):
    """A change that cannot be made: `source` is its place, and `reason` says why."""

    def __init__(self, source: Source, reason: str) -> None:
        super().__init__(f"{source}: {reason}")
        self.source, self.reason = source, reason


@dataclass(frozen=True, slots=True)
class Change:
    """A text in the place of what stands from `begin` up to `end` in the file, and from `written`
    up to `written_end` in the canonical text."""

    begin: int
    end: int
    text: str
    written: int
    written_end: int
    source: Source

    @property
    def growth(self) -> int:
        return len(self.text) - (self.end - self.begin)

    def overlaps(self, begin: int, end: int) -> bool:
        """Returns whether it changes what stands from `begin` up to `end`; at the bounds of that it
        may insert."""
        if self.begin == self.end:
            return begin < self.begin < end
        return (
            self.begin < end and begin < self.end if begin < end else self.begin < begin < self.end
        )


class Edited:
    """Changes of a score, which are collected and then made all at once. Each call returns these
    changes themselves, so that calls can be joined."""

    def __init__(self, score: Score) -> None:
        """Takes a score. Raises `EditError` if it has a fatal fault."""
        self._score = score
        self._changes: list[Change] = []
        found = _LINE_END.search(score.text)
        self._line_end = found[0] if found else "\n"
        if not score.is_whole:
            raise self._not_whole()

    def _not_whole(self) -> EditError:
        fault = self._score.messages[-1]
        tree = self._score.tree
        place = tree.place(tree.places.at(fault.line, fault.column))
        return EditError(Source(place, ""), f"the score is not whole: {fault.code}: {fault.text}")

    def replace(self, item: Item, text: str) -> Edited:
        """Replaces `item` by `text`. Raises `EditError` if the text would end the snippet of the
        item, or if another change overlaps, and `ValueError` for an object of another score."""
        source = self._source_of(item)
        begin, end, written = source.place.offset, source.end, item.place.offset
        written_end = written + len(item.spelling)
        if isinstance(item, Header) and not text:
            begin, end = self._line_of(begin, end)
            written_end += 1
        return self._add(
            item, Change(begin, end, self._with_line_ends(text), written, written_end, source)
        )

    def remove(self, item: Item) -> Edited:
        """Removes `item`, and the line of a header on which nothing else stands. Raises `EditError`
        as `replace` does."""
        return self.replace(item, "")

    def insert(self, item: Item, text: str, *, after: bool = False) -> Edited:
        """Inserts `text` directly before `item`, or directly after it. Raises `EditError` as
        `replace` does."""
        source = self._source_of(item)
        at, written = source.place.offset, item.place.offset
        if after:
            at, written = source.end, written + len(item.spelling)
        return self._add(item, Change(at, at, self._with_line_ends(text), written, written, source))

    def set_header(self, name: str, value: str | None) -> Edited:
        """Gives the last header `name` this value, adds it after the others where there is none, or
        removes it for `None`. Raises `EditError` as `replace` does."""
        header = next((it for it in reversed(self._score.headers) if it.name == name), None)
        if header is not None:
            return self.replace(header, "" if value is None else header_spelling(name, value))
        if value is not None:
            line = next(self._score.tree.of_kind(NodeKind.SCORE_LINE))
            at = line.place.offset
            written = self._score.written.score_line
            text = self._with_line_ends(f"{header_spelling(name, value)}\n")
            self._put(Change(at, at, text, written, written, Source(line.place, "")))
        return self

    def transpose(self, steps: int) -> Edited:
        """Writes each note, alteration and custos so many steps higher, or lower below 0. Raises
        `EditError` at the first one for which there is no room."""
        for it in (it for syllable in self._score.syllables for it in syllable.items):
            if steps and isinstance(it, (Note, Alteration, Custos)) and it.pitch:
                self._move(it, it.pitch, steps)
        return self

    def text(self) -> str:
        """Returns the file with these changes. Raises `EditError` if the compiler would read
        an unchanged part differently or leave out a part of a new text, or if neumes of NABC would
        lose their note."""
        from gregorio_chant.objects.verdict import look_at

        text = _applied(self._score.text, [(it.begin, it.end, it.text) for it in self._changes])
        canonical = _applied(
            self._score.canonical,
            [(it.written, it.written_end, _LINE_END.sub("\n", it.text)) for it in self._changes],
        )
        look_at(self._score, self._changes, text, canonical)
        return text

    # ---- one change

    def _source_of(self, item: Item) -> Source:
        if item.score is not self._score:
            raise ValueError("the object is one of another score")
        return item.source

    def _with_line_ends(self, text: str) -> str:
        return _LINE_END.sub(self._line_end, text)

    def _add(self, item: Item, change: Change) -> Edited:
        if not isinstance(item, (Header, Syllable)):
            end = _end_in(change.text, _is_of_nabc(item))
            if end:
                raise EditError(change.source, f"a {end} would end what the text stands in")
        return self._put(change)

    def _put(self, change: Change) -> Edited:
        """Adds a change to the others, which are in order: of those at one place the first comes
        first."""
        at = bisect.bisect_right(
            self._changes, (change.begin, change.end), key=lambda it: (it.begin, it.end)
        )
        for other in self._changes[max(at - 1, 0) : at + 1]:
            if change.overlaps(other.begin, other.end) or other.overlaps(change.begin, change.end):
                raise EditError(change.source, f"it is changed already, at {other.source}")
        self._changes.insert(at, change)
        return self

    def _move(self, item: Item, pitch: str, steps: int) -> None:
        number = PITCHES.index(pitch) + steps
        if not 0 <= number < len(PITCHES):
            raise EditError(item.source, f"there is no room for {item.spelling}")
        at = isinstance(item, Note) and item.is_initio_debilis
        letter = PITCHES[number].upper() if item.spelling[at].isupper() else PITCHES[number]
        begin, written = item.offset_of(at), item.place.offset + at
        self._put(Change(begin, begin + 1, letter, written, written + 1, item.source))

    def _line_of(self, begin: int, end: int) -> tuple[int, int]:
        """Returns the bounds of the whole line, or lines, if only blanks stand beside what goes
        from `begin` up to `end`."""
        text = self._score.text
        first = max(text.rfind("\n", 0, begin), text.rfind("\r", 0, begin)) + 1
        found = _LINE_END.search(text, end)
        if (
            found is None
            or text[first:begin].strip(" \t\ufeff")
            or text[end : found.start()].strip(" \t")
        ):
            return begin, end
        return begin if "\ufeff" in text[first:begin] else first, found.end()


def _is_of_nabc(item: Item) -> bool:
    """Returns whether something stands in a snippet of NABC."""
    return isinstance(item, NabcSnippet) or item.node.kind in _OF_NABC


def _end_in(text: str, is_nabc: bool) -> str | None:
    """Returns the character that would end a snippet with this text, or begin a comment in it, if
    there is one."""
    made = tree(f"nabc-lines: 1;\n%%\n({'|' * is_nabc}{text}\n)")
    ends = [it.end for it in made.of_kind(NodeKind.SNIPPET)][is_nabc : is_nabc + 1]
    ends += [it.begin for it in made.of_kind(NodeKind.COMMENT)]
    end = min(ends, default=len(made.source))
    return chr(made.source[end]) if end < len(made.source) - 1 else None


def _applied(text: str, changes: Sequence[tuple[int, int, str]]) -> str:
    """Returns `text` with these changes, which stand in order."""

    def parts() -> Iterator[str]:
        at = 0
        for begin, end, new in changes:
            yield text[at:begin]
            yield new
            at = end
        yield text[at:]

    return "".join(parts())
