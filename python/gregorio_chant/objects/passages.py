"""Words and phrases: syllables and notes that belong together, across the borders of syllables."""
from __future__ import annotations

import re
from collections.abc import Collection, Iterable, Iterator, Sequence
from dataclasses import dataclass

from gregorio_chant.objects.item import Item
from gregorio_chant.objects.items import Bar, Note
from gregorio_chant.objects.syllables import Glyph, Syllable
from gregorio_chant.text.source import Source

_NUMBER = re.compile("[0-9]+")
FINALIS = "finalis"


def text_of_syllables(syllables: Sequence[Syllable]) -> str:
    """Returns the text of syllables without markup, a blank between words."""
    return " ".join("".join(" " * it.begins_word + it.plain for it in syllables).split())


def _has_letters(text: str) -> bool:
    return any(map(str.isalnum, text))


@dataclass(frozen=True, slots=True)
class Word:
    """The syllables of a word."""

    syllables: tuple[Syllable, ...]

    @property
    def text(self) -> str:
        """Its text without markup, with the signs of punctuation that stand in it."""
        return text_of_syllables(self.syllables)

    @property
    def notes(self) -> tuple[Note, ...]:
        return tuple(note for it in self.syllables for note in it.notes)

    @property
    def glyphs(self) -> tuple[Glyph, ...]:
        return tuple(glyph for it in self.syllables for glyph in it.glyphs)

    @property
    def source(self) -> Source:
        """Its first syllable in the file."""
        return self.syllables[0].source


@dataclass(frozen=True, slots=True)
class Phrase:
    """What stands between two bars: the items of notes, and the syllables whose first note is one
    of these. `bar` is the one that ends it, or `None` at the end of the score."""

    syllables: tuple[Syllable, ...]
    items: tuple[Item, ...]
    bar: Bar | None

    @property
    def text(self) -> str:
        """Its text without markup."""
        return text_of_syllables(self.syllables)

    @property
    def number(self) -> int | None:
        """The number with which its text begins, if it does."""
        found = _NUMBER.match(self.text)
        return int(found[0]) if found else None

    @property
    def words(self) -> tuple[Word, ...]:
        return words_of(self.syllables)

    @property
    def notes(self) -> tuple[Note, ...]:
        return tuple(it for it in self.items if isinstance(it, Note))

    @property
    def source(self) -> Source:
        """Its first syllable in the file, or else its first item."""
        first: Item = self.syllables[0] if self.syllables else self.items[0]
        return first.source


def each_word(syllables: Iterable[Syllable]) -> Iterator[Word]:
    """Yields the words of syllables: all that have a letter or a digit."""
    inside: list[Syllable] = []
    for it in syllables:
        if inside and it.begins_word:
            yield from _word(inside)
            inside = []
        inside.append(it)
    yield from _word(inside)


def _word(syllables: list[Syllable]) -> Iterator[Word]:
    """Yields the word of these syllables, if they are one."""
    if any(_has_letters(it.plain) for it in syllables):
        yield Word(tuple(syllables))


def words_of(syllables: Iterable[Syllable]) -> tuple[Word, ...]:
    """Returns the words of syllables."""
    return tuple(each_word(syllables))


def word_of(syllables: Sequence[Syllable], at: int) -> Word | None:
    """Returns the word of the syllable `at`, from 0, of all those of a score, if it is in one."""
    begin = next((it for it in range(at, 0, -1) if syllables[it].begins_word), 0)
    ends = (it for it in range(at + 1, len(syllables)) if syllables[it].begins_word)
    return next(each_word(syllables[begin : next(ends, len(syllables))]), None)


def _divided(syllables: Sequence[Syllable], kinds: Collection[str] | None) -> Iterator[Phrase]:
    """Yields all that ends at bars of these kinds, or of any kind where none are given, also where
    nothing stands in it."""
    inside: list[Syllable] = []
    items: list[Item] = []
    for syllable in syllables:
        waits = True
        for it in syllable.items:
            if isinstance(it, Note) and waits:
                inside.append(syllable)
                waits = False
            items.append(it)
            if isinstance(it, Bar) and (kinds is None or it.name in kinds):
                if waits and not syllable.notes:
                    inside.append(syllable)
                    waits = False
                yield Phrase(tuple(inside), tuple(items), it)
                inside, items = [], []
        if waits:
            inside.append(syllable)
    yield Phrase(tuple(inside), tuple(items), None)


def phrases_of(
    syllables: Sequence[Syllable], kinds: Collection[str] | None = None
) -> tuple[Phrase, ...]:
    """Returns the music between bars of these kinds, or of any kind if none are given, if it has a
    note or a word."""
    return tuple(it for it in _divided(syllables, kinds) if it.notes or _has_letters(it.text))
