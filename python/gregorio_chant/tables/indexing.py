"""What an index says of each score: a row for the command, and plain data for a call."""
from __future__ import annotations

from collections.abc import Iterator, Sequence
from dataclasses import dataclass, field, fields
from itertools import chain, islice

from gregorio_chant.errors import UsageError
from gregorio_chant.export.volpiano import volpiano_of
from gregorio_chant.objects.item import Item
from gregorio_chant.objects.passages import Word, each_word
from gregorio_chant.objects.reading import ScoreError
from gregorio_chant.objects.score import Score
from gregorio_chant.tables.searching import degree_of, degrees_of
from gregorio_chant.tables.tables import PLACE, Row

# How much of a score an index shows.
_NOTES, _WORDS = 12, 6


@dataclass(frozen=True)
class IndexEntry:
    """What an index says of a score. Its place is that of the first note. `text` and `volpiano` are
    of the first six words, `degrees` of the first twelve notes; `steps` counts from the lowest note
    to the highest. `headers` has the headers that were asked for. What a score lacks is `None`.
    `fault` is the fatal fault that stopped the score, as `LINE:COLUMN: CODE: TEXT`."""

    line: int
    column: int
    name: str | None = None
    office_part: str | None = None
    mode: str | None = None
    text: str = ""
    degrees: str = ""
    final: str | None = None
    lowest: str | None = None
    highest: str | None = None
    steps: int | None = None
    volpiano: str | None = None
    headers: dict[str, str | None] = field(default_factory=dict)
    fault: str | None = None


# The columns of the command, but for the headers that are asked for.
COLUMNS = tuple(
    it.name for it in fields(IndexEntry) if it.name not in ("line", "column", "headers", "fault")
)


def _incipit(words: Sequence[Word]) -> str | None:
    """Returns the melody of words in Volpiano, if it has letters for it."""
    try:
        return volpiano_of(syllable for it in words for syllable in it.syllables)
    except ValueError:
        return None


def entry_of(score: Score, headers: Sequence[str] = ()) -> IndexEntry:
    """Returns what an index says of a score, with these headers."""
    reach, final = score.range, score.final
    notes = [score.note(it) for it in range(min(_NOTES, len(score.note_numbers)))]
    first = next(chain[Item](notes, score.each_syllable()), None)
    words = list(islice(each_word(score.each_syllable()), _WORDS))
    fault = score.fault
    return IndexEntry(
        first.source.line if first else 1,
        first.source.column if first else 1,
        score.header("name"),
        score.header("office-part"),
        score.header("mode"),
        " ".join(it.text for it in words),
        degrees_of(notes),
        degree_of(final) if final else None,
        degree_of(reach.low) if reach else None,
        degree_of(reach.high) if reach else None,
        (reach.high.step or 0) - (reach.low.step or 0) if reach else None,
        _incipit(words),
        {it: score.header(it) for it in headers},
        None if fault is None else str(ScoreError(fault)),
    )


@dataclass(frozen=True)
class Index:
    """Makes the row of each score, with a column for each of these headers after the others."""

    headers: tuple[str, ...] = ()

    @classmethod
    def of(cls, words: Sequence[str]) -> Index:
        """Takes names with commas between them. Raises `UsageError` for what can be no name, and
        for one that the index has already."""
        headers = tuple(
            dict.fromkeys(it.strip() for word in words for it in word.split(",") if it.strip())
        )
        if words and not headers:
            raise UsageError("--header needs the name of a header, as in --header book")
        for it in headers:
            if ":" in it:
                raise UsageError(f"--header {it}: the name of a header has no colon")
            if it.replace("-", "_") in (*PLACE, *COLUMNS):
                raise UsageError(f"--header {it}: the index has a column of this name already")
        return cls(headers)

    @property
    def columns(self) -> tuple[str, ...]:
        return (*COLUMNS, *self.headers)

    def __call__(self, score: Score) -> Iterator[Row]:
        """Yields one row."""
        it = entry_of(score, self.headers)
        yield Row(
            it.line, it.column, (*(getattr(it, name) for name in COLUMNS), *it.headers.values())
        )
