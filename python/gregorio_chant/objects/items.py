"""What stands in a snippet of notes: notes, alterations, clefs, bars, spaces and more."""
from __future__ import annotations

import math
from typing import TYPE_CHECKING

from gregorio_chant._native.node_kinds import NodeKind
from gregorio_chant.objects.item import PITCHES, SIGNS, Item
from gregorio_chant.objects.signs import Episema, NoteSigns, signs_of

if TYPE_CHECKING:
    from gregorio_chant.objects.reading import Reading

SHAPES = (
    "punctum",
    "inclinatum",
    "virga",
    "bivirga",
    "trivirga",
    "virga-reversa",
    "stropha",
    "distropha",
    "tristropha",
    "oriscus",
    "oriscus-scapus",
    "quilisma",
    "quilisma-quadratum",
    "quadratum",
    "cavum",
    "lined",
    "linea",
)
_DEGREES = ("ut", "re", "mi", "fa", "sol", "la", "si", None)
# How many semitones each degree stands above ut, and what a sign adds.
_SEMITONES = (0, 2, 4, 5, 7, 9, 11)
_ALTERED = (0, -1, 0, 1)
# How often a shape sounds, if more than once.
_TIMES = {"bivirga": 2, "distropha": 2, "trivirga": 3, "tristropha": 3}
_BARS = ("virgula", "minimis", "minima", "minor", "maior", "finalis")
# The step of what a clef stands for.
_CLEF_STEPS = (7, 3)
_FACTOR, _BLANKS = 4, 6
_DIVIDERS = frozenset((0, 1, _FACTOR, _BLANKS))
_AUTOMATIC = 15


def semitones_of(step: int, sign: int) -> int:
    """Returns the semitones of a note at this step with this number of an alteration."""
    return 12 * (step // 7) + _SEMITONES[step % 7] + _ALTERED[sign]


class Clef(Item):
    """A clef, or two that are joined: then the first one counts."""

    __slots__ = ("_is_second",)

    def __init__(self, score: Reading, number: int, is_second: bool = False) -> None:
        super().__init__(score, number)
        self._is_second = is_second

    def __eq__(self, other: object) -> bool:
        return super().__eq__(other) is True and self._is_second == getattr(other, "_is_second")

    __hash__ = Item.__hash__

    @property
    def _values(self) -> tuple[int, int, int]:
        """Whether it is f, whether it has a flat, and its line."""
        if self._is_second:
            return self._c >> 1 & 1, self._c >> 2 & 1, self._c >> 3 & 7
        return self._a & 1, self._a >> 1, self._b

    @property
    def _begin(self) -> int:
        """How many characters of both clefs stand before it."""
        return 3 + (self._a >> 1) if self._is_second else 0

    @property
    def spelling(self) -> str:
        """Its text in the canonical form."""
        both = super().spelling
        return both[self._begin :] if self._is_second else both

    @property
    def _bytes(self) -> tuple[int, int]:
        begin, end = super()._bytes
        return (
            (self._score.byte_of(self._number, self._begin), end)
            if self._is_second
            else (begin, end)
        )

    @property
    def letter(self) -> str:
        """c or f."""
        return "cf"[self._values[0]]

    @property
    def has_flat(self) -> bool:
        return bool(self._values[1])

    @property
    def line(self) -> int:
        """The line that it stands on, from 1."""
        return self._values[2]

    @property
    def second(self) -> Clef | None:
        """The clef that is joined to it."""
        return (
            Clef(self._score, self._number, True) if self._c & 1 and not self._is_second else None
        )

    def step(self, height: int) -> int:
        """Returns the step of a note at this height."""
        is_f, _, line = self._values
        return height - 2 * line - 1 + _CLEF_STEPS[is_f]


class Note(Item):
    """A note."""

    __slots__ = ()

    @property
    def height(self) -> int:
        """Its height on the staff: 0 for `a`, a step for each letter."""
        return self._a & 15

    @property
    def pitch(self) -> str:
        """Its small letter."""
        return PITCHES[self._a & 15]

    @property
    def shape(self) -> str:
        """The name of its shape."""
        return SHAPES[self._b & 31]

    @property
    def degree(self) -> str | None:
        """Its degree, `None` before any clef."""
        return _DEGREES[self._c & 7]

    @property
    def alteration(self) -> str:
        """What alters it: none, flat, natural or sharp."""
        return SIGNS[self._c >> 3 & 3]

    @property
    def clef(self) -> Clef | None:
        """The clef in force."""
        return self._score.clef_before(self._number)

    @property
    def step(self) -> int | None:
        """The number of degrees above the ut an octave below that of a c clef: 7 on the line of a c
        clef, 3 on that of an f clef. `None` before any clef."""
        base = self._score.base_before(self._number)
        return None if base is None else base + self.height

    @property
    def semitones(self) -> int | None:
        """The same in semitones, with its alteration."""
        step = self.step
        return None if step is None else semitones_of(step, self._c >> 3 & 3)

    @property
    def signs(self) -> NoteSigns:
        """All signs that it has, as the properties below."""
        at = 10 * self._number + 7
        return signs_of(*self._score.tree.narrow[at : at + 3])

    @property
    def begins_neume(self) -> bool:
        """Whether it is the first note of its neume, whose node comes directly before its own."""
        return self._score.tree.kinds[self._number - 1] == NodeKind.GLYPH

    @property
    def times(self) -> int:
        """How often it sounds: 2 for a bivirga or a distropha, 3 for a trivirga or a
        tristropha."""
        return _TIMES.get(self.shape, 1)

    @property
    def morae(self) -> int:
        """How many puncta mora it has; of two, one belongs to the note before it."""
        return self._b >> 7 & 3

    @property
    def ictus(self) -> str | None:
        """The side of its ictus: `auto`, `over` or `under`; `None` if it has none."""
        return self.signs.ictus

    @property
    def episemata(self) -> tuple[Episema, ...]:
        """Its horizontal episemata, of which each says how many notes back it reaches."""
        return self.signs.episemata

    @property
    def liquescence(self) -> str | None:
        """`deminutus`, `augmented` or `diminished`; `None` if it is not liquescent."""
        return self.signs.liquescence

    @property
    def is_initio_debilis(self) -> bool:
        return self.signs.is_initio_debilis

    @property
    def is_hollow(self) -> bool:
        """Whether it is a cavum, or a hollow punctum inclinatum."""
        return self.signs.is_hollow

    @property
    def is_lined(self) -> bool:
        """Whether lines stand at both of its sides."""
        return self.signs.is_lined

    @property
    def over_staff(self) -> tuple[str, ...]:
        """The signs over the staff at this note: `accent`, `grave`, `circle`, `lower-arc`,
        `upper-arc`, `flat`, `natural` or `sharp`."""
        return self.signs.over_staff

    @property
    def points_up(self) -> bool | None:
        """Whether an oriscus is told to point up, or down; `None` if the notes after it say so."""
        return self.signs.points_up


class Alteration(Item):
    """A sign before notes."""

    __slots__ = ()

    @property
    def pitch(self) -> str:
        return PITCHES[self._a]

    @property
    def sign(self) -> str:
        """Flat, natural or sharp."""
        return SIGNS[self._b]

    @property
    def is_bracketed(self) -> bool:
        """Whether it is a reminder, in brackets."""
        return bool(self._c & 1)


class Bar(Item):
    """A bar."""

    __slots__ = ()

    @property
    def name(self) -> str:
        """Virgula, minimis, minima, minor, maior or finalis."""
        return _BARS[self._a]

    @property
    def position(self) -> int | None:
        """The number after its sign: the position of a Dominican bar, or 0 for a bar on the ledger
        line over the staff."""
        return self._b - 1 if self._b else None

    @property
    def is_dotted(self) -> bool:
        return "?" in self.spelling

    @property
    def has_ictus(self) -> bool:
        return "'" in self.spelling

    @property
    def has_brace(self) -> bool:
        return "_" in self.spelling


class Space(Item):
    """A spacing of notes or of NABC; a run of blanks is one."""

    __slots__ = ()

    @property
    def is_blank(self) -> bool:
        return self._is_of_notes and self._a == _BLANKS

    @property
    def is_divider(self) -> bool:
        """Whether it parts neumes, among notes."""
        return not self._is_of_notes or self._a in _DIVIDERS

    @property
    def factor(self) -> float | None:
        """How wide a spacing `/[..]` is, as a factor of the large one; `None` for every other
        spacing, and if it is no number."""
        if not self._is_of_notes or self._a != _FACTOR:
            return None
        try:
            factor = float(self.spelling[2:-1])
        except ValueError:
            return None
        return factor if math.isfinite(factor) else None

    @property
    def _is_of_notes(self) -> bool:
        return self._score.tree.kinds[self._number] == NodeKind.SPACING


class Custos(Item):
    """A custos."""

    __slots__ = ()

    @property
    def pitch(self) -> str | None:
        """Its small letter, `None` for an automatic one."""
        return None if self._a == _AUTOMATIC else PITCHES[self._a]


class Break(Item):
    """The end of a line."""

    __slots__ = ()

    @property
    def is_justified(self) -> bool:
        """Whether its line is as wide as the others: `z`, and not `Z`."""
        return self._a == 0

    @property
    def has_custos(self) -> bool:
        """Whether a custos may stand at its line's end."""
        return self._b != 2


class Attribute(Item):
    """An attribute."""

    __slots__ = ()

    @property
    def raw(self) -> str:
        """The text between its brackets."""
        return self.spelling[1:-1]


class Fusion(Item):
    """A mark of fusion."""

    __slots__ = ()
