"""The signs of a note: what its node says beside its height and shape (GregorioRef, *One-Note
Neumes*, *Oriscus Orientation*, *Additional Symbols*, *Rhythmic signs*)."""
from __future__ import annotations

from dataclasses import dataclass
from functools import lru_cache
from typing import NamedTuple

AUTO, OVER, UNDER = "auto", "over", "under"
_SIDES = (AUTO, OVER, UNDER)
_ICTUS = (None, *_SIDES)
_SIZES = ("whole", "left", "centre", "right")
_LIQUESCENCES = (None, "deminutus", "augmented", "diminished")
_OVER_STAFF = ("accent", "grave", "circle", "lower-arc", "upper-arc", "flat", "natural", "sharp")
_POINTS_UP = (None, False, True)


@dataclass(frozen=True, slots=True)
class Episema:
    """A horizontal episema. It covers `count` notes: the one that has it, and those before that
    one. `side` is `auto`, `over` or `under`. `size` is `whole`, or of a small episema how it is
    aligned: `left`, `centre` or `right`. `is_bridged` says whether it may be joined to the episema
    of the next note."""

    count: int = 1
    side: str = AUTO
    size: str = "whole"
    is_bridged: bool = True


class NoteSigns(NamedTuple):
    """The signs of one note. The properties of `Note` say what each means."""

    morae: int
    ictus: str | None
    episemata: tuple[Episema, ...]
    liquescence: str | None
    is_initio_debilis: bool
    is_hollow: bool
    is_lined: bool
    over_staff: tuple[str, ...]
    points_up: bool | None


@lru_cache(maxsize=4096)
def signs_of(a: int, b: int, c: int) -> NoteSigns:
    """Returns the signs of a note with these numbers (docs/FORMATS.md, *The tree*)."""
    size, is_bridged = _SIZES[b >> 11 & 3], not b >> 13 & 1
    counts = zip(_SIDES, (c >> 7 & 7, c >> 10 & 7, c >> 13 & 7))
    return NoteSigns(
        morae=b >> 7 & 3,
        ictus=_ICTUS[b >> 9 & 3],
        episemata=tuple(Episema(count, side, size, is_bridged) for side, count in counts if count),
        liquescence=_LIQUESCENCES[b >> 5 & 3],
        is_initio_debilis=bool(c >> 5 & 1),
        is_hollow=bool(a >> 12 & 1),
        is_lined=bool(a >> 13 & 1),
        over_staff=tuple(it for bit, it in enumerate(_OVER_STAFF) if a >> 4 + bit & 1),
        points_up=_POINTS_UP[a >> 14],
    )
