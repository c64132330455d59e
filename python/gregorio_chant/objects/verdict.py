"""Judges changes of a score: whether the compiler reads them as they are meant, and all else as
before."""
from __future__ import annotations

import bisect
from collections.abc import Iterator, Sequence
from itertools import accumulate
from typing import TYPE_CHECKING

from gregorio_chant._native.library import compile
from gregorio_chant._native.results import Format, Kind, Message
from gregorio_chant.objects.edits import Change, EditError
from gregorio_chant.objects.item import Item
from gregorio_chant.objects.items import Note
from gregorio_chant.objects.syllables import NabcSnippet, NoteSnippet, Syllable

if TYPE_CHECKING:
    from gregorio_chant.objects.score import Score


def look_at(old: Score, changes: Sequence[Change], text: str, canonical: str) -> None:
    """Looks at the file `text` that `changes` make of a score, and at `canonical`, which they make
    of its canonical text. Raises `EditError` at the first thing that is not as it has to be."""
    if changes:
        new = _parsed(changes, text)
        moved = _Moved(changes)
        _look_at_messages(old, new, moved)
        _look_at_rest(old, new, moved)
        _look_at_nabc(old, new, moved)
        if compile(canonical, Format.DUMP).output != compile(text, Format.DUMP).output:
            raise EditError(changes[0].source, "with it the compiler reads something otherwise")


def _parsed(changes: Sequence[Change], text: str) -> Score:
    from gregorio_chant.objects.reading import ScoreError
    from gregorio_chant.objects.score import Score

    try:
        new = Score.parse(text)
    except ScoreError as error:
        raise EditError(
            changes[0].source,
            f"the score would not be whole: {error.message.code}: {error.message.text}",
        ) from None
    if not new.is_whole:
        raise EditError(
            changes[0].source,
            f"the score would not be whole: {new.messages[-1].code}: {new.messages[-1].text}",
        )
    return new


class _Moved:
    """Where what was not changed stands after the changes, which are in order and do not
    overlap."""

    def __init__(self, changes: Sequence[Change]) -> None:
        self.changes = changes
        self._ends = [it.end for it in changes]
        self._grown = [0, *accumulate(it.growth for it in changes)]

    def begin(self, offset: int) -> int:
        """Returns where what began at this offset begins now."""
        return offset + self._grown[bisect.bisect_right(self._ends, offset)]

    def _next(self, offset: int) -> Change | None:
        """Returns the first change that ends after this offset."""
        at = bisect.bisect_right(self._ends, offset)
        return self.changes[at] if at < len(self.changes) else None

    def change_in(self, item: Item) -> Change | None:
        """Returns the first change of the item or in it."""
        source = item.source
        found = self._next(source.place.offset)
        return found if found and found.overlaps(source.place.offset, source.end) else None

    def is_replaced(self, item: Item) -> bool:
        """Returns whether a change takes the place of the whole item."""
        source = item.source
        found = self._next(source.place.offset)
        return found is not None and found.begin <= source.place.offset and source.end <= found.end

    def change_of(self, offset: int) -> Change | None:
        """Returns the change whose new text stands at this offset of the new file, or ends
        there."""
        places = ((it.begin + grown, it) for it, grown in zip(self.changes, self._grown))
        return next((it for begin, it in places if begin <= offset <= begin + len(it.text)), None)


def _faults(score: Score) -> Iterator[tuple[int, Message]]:
    """Yields the errors of a score, and where in the file they stand."""
    tree = score.tree
    for it in score.messages:
        if it.kind is not Kind.WARNING:
            yield tree.place(tree.places.at(it.line, it.column)).offset, it


def _look_at_messages(old: Score, new: Score, moved: _Moved) -> None:
    """Nothing more may be left out than before."""
    known = {(moved.begin(at), it.code) for at, it in _faults(old)}
    for at, it in _faults(new):
        if (at, it.code) not in known:
            change = moved.change_of(at) or moved.changes[0]
            raise EditError(
                change.source,
                (
                    f"with it something would be left out, at {it.line}:{it.column} of the new"
                    f" file: {it.code}: {it.text}"
                ),
            )


def _look_at_rest(old: Score, new: Score, moved: _Moved) -> None:
    """Each header, each syllable and each item of a changed syllable that was not changed itself
    has to be there again."""
    _look_at_items(old.headers, new.headers, moved)
    there = _look_at_items(old.syllables, new.syllables, moved)
    for it in new.syllables:
        at = it.source.place.offset
        if at not in there and not moved.change_of(at):
            raise EditError(
                moved.changes[0].source,
                f"with it {it.source} of the new file would be read otherwise",
            )
    for number, again in there.values():
        syllable = old.syllables[number]
        if moved.change_in(syllable):
            if (syllable.text, syllable.translation) != (again.text, again.translation):
                raise EditError(
                    syllable.source, "the text of this syllable would be read otherwise"
                )
            _look_at_items(list(_leaves(syllable)), list(_leaves(again)), moved)


def _look_at_items(
    old: Sequence[Item], new: Sequence[Item], moved: _Moved
) -> dict[int, tuple[int, Syllable]]:
    """Compares what was not changed. Returns the syllables that are there again, by their offsets,
    each with its number from 0 before."""
    now = {it.source.place.offset: it for it in new}
    there: dict[int, tuple[int, Syllable]] = {}
    for number, it in enumerate(old):
        source = it.source
        at = moved.begin(source.place.offset)
        again = now.get(at)
        if moved.is_replaced(it):
            continue
        if isinstance(it, Syllable) and isinstance(again, Syllable):
            there[at] = (number, again)
        if moved.change_in(it) is None or isinstance(it, Syllable) and again is None:
            is_same = (
                again is not None
                and type(again) is type(it)
                and again.source.spelling == source.spelling
                and again.spelling == it.spelling
            )
            if not is_same:
                raise EditError(source, f"{it.spelling.strip() or 'this'} would be read otherwise")
    return there


def _leaves(syllable: Syllable) -> Iterator[Item]:
    """Yields the items of all snippets."""
    return (it for snippet in syllable.snippets for it in snippet.items)


def _look_at_nabc(old: Score, new: Score, moved: _Moved) -> None:
    """Where a note goes, the neumes of NABC over its snippet have to be changed too."""
    now = {it.source.place.offset: it for it in new.syllables}
    for syllable in old.syllables:
        if moved.is_replaced(syllable) or moved.change_in(syllable) is None:
            continue
        again = now[moved.begin(syllable.source.place.offset)]
        count = 0
        for before, after in zip(syllable.snippets, again.snippets):
            if isinstance(before, NoteSnippet):
                count = _notes_in(before) - _notes_in(after)
            elif (
                isinstance(before, NabcSnippet)
                and before.items
                and count > 0
                and before.spelling == after.spelling
            ):
                raise EditError(
                    before.source, f"{before.spelling} would stand over a note that goes"
                )


def _notes_in(snippet: NoteSnippet | NabcSnippet) -> int:
    return sum(isinstance(it, Note) for it in snippet.items)
