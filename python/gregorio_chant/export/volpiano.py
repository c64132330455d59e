"""A score in Volpiano, the letters in which chant databases keep melodies: `1` is the clef, `---`
parts words, `--` syllables, `-` neumes."""
from __future__ import annotations

from collections.abc import Iterable, Iterator

from gregorio_chant.errors import GregorioError
from gregorio_chant.export import NoHeight, Way
from gregorio_chant.export.losses import (
    ATTRIBUTES,
    BREAKS,
    CUSTODES,
    EPISEMATA,
    ICTUS,
    MORAE,
    NABC,
    SHAPES,
    STYLES,
    TRANSLATIONS,
    VIRGULAE,
)
from gregorio_chant.objects.items import Note
from gregorio_chant.objects.syllables import Syllable

# The letters from the f below the staff on. The one at `_UT` is that of step 0, the c in which a
# melody of the first mode has its lowest c.
LETTERS, _UT = "89abcdefghjklmnopqrs", 4
# Letters of liquescent notes, in the same order.
_LIQUESCENT = "()ABCDEFGHJKLMNOPQRS"
# The sign of a flat before each letter that may have one; of a natural it is the capital.
_FLATS = {"b": "y", "e": "w", "j": "i", "m": "x", "q": "z"}
_BARS = {"minima": "3", "minor": "3", "maior": "3", "finalis": "4"}


class OutOfRange(GregorioError, ValueError):
    """A note that Volpiano has no letter for."""

    def __init__(self, note: Note) -> None:
        super().__init__(
            f"{note.source}: Volpiano has no letter for a note so high or so low, or so altered"
        )


class _Altered:
    """Which letters have a flat since the last word began: a sign holds up to its end."""

    def __init__(self) -> None:
        self._flat: set[str] = set()

    def begin_word(self) -> None:
        self._flat.clear()

    def sign(self, letter: str, note: Note) -> str:
        """Returns the sign that has to stand before this letter. Raises `OutOfRange`."""
        wanted = note.alteration == "flat"
        if note.alteration == "sharp" or (wanted and letter not in _FLATS):
            raise OutOfRange(note)
        if wanted == (letter in self._flat):
            return ""
        (self._flat.add if wanted else self._flat.discard)(letter)
        return _FLATS[letter] if wanted else _FLATS[letter].upper()


def _note(note: Note, altered: _Altered) -> str:
    if note.step is None:
        raise NoHeight(note)
    at = note.step + _UT
    if not 0 <= at < len(LETTERS):
        raise OutOfRange(note)
    letter = (_LIQUESCENT if note.liquescence else LETTERS)[at]
    return altered.sign(LETTERS[at], note) + letter * note.times


def _parts(syllables: Iterable[Syllable]) -> Iterator[tuple[str, str]]:
    """Yields the neumes and bars of each syllable, each with what parts it from the one before."""
    altered = _Altered()
    for syllable in syllables:
        hyphens = "---" if syllable.begins_word else "--"
        if syllable.begins_word:
            altered.begin_word()
        for item in syllable.notes_and_bars:
            if isinstance(item, Note):
                yield hyphens if item.begins_neume else "", _note(item, altered)
                hyphens = "-"
            elif item.name in _BARS:
                yield "---", _BARS[item.name]
                hyphens = "---"


def volpiano_of(syllables: Iterable[Syllable]) -> str:
    """Returns the melody of syllables. Raises `NoHeight` and `OutOfRange`."""
    return "1" + "".join(f"{hyphens}{letters}" for hyphens, letters in _parts(syllables))


def letter_of(note: Note) -> str | None:
    """Returns the small letter of a note, without a sign before it; `None` if it has none."""
    at = -1 if note.step is None else note.step + _UT
    return LETTERS[at] if 0 <= at < len(LETTERS) else None


WAY = Way(
    "volpiano",
    ".volpiano",
    lambda score: f"{volpiano_of(score.syllables)}\n".encode(),
    frozenset(
        (
            NABC,
            STYLES,
            TRANSLATIONS,
            ATTRIBUTES,
            BREAKS,
            CUSTODES,
            SHAPES,
            MORAE,
            EPISEMATA,
            ICTUS,
            VIRGULAE,
        )
    ),
)
