"""The signs of a note once more, read from its spelling (GregorioRef, *One-Note Neumes*, *Oriscus
Orientation*, *Additional Symbols*, *Rhythmic signs*)."""
from __future__ import annotations

import re

from gregorio_chant.objects.signs import AUTO, OVER, UNDER, Episema, NoteSigns

# What a sign of a bar or a note is, beside the letters of shapes: a letter or a run of `_`, with
# its digits.
_SIGN = re.compile(r"([.'~<>roO]|_+)([0-9]*)")
_LIQUESCENCES = {"~": "deminutus", "<": "augmented", ">": "diminished"}
_OVER_STAFF = {
    "1": "accent",
    "2": "grave",
    "3": "circle",
    "4": "lower-arc",
    "5": "upper-arc",
    "6": "flat",
    "7": "natural",
    "8": "sharp",
}
_SIZES = {"3": "left", "4": "centre", "5": "right"}


def _side_of(digits: str) -> str:
    """Returns the side that digits name: the last one counts."""
    named = [it for it in digits if it in "01"]
    return AUTO if not named else OVER if named[-1] == "1" else UNDER


def _episema_of(bars: str, digits: str) -> Episema:
    size = next((_SIZES[it] for it in reversed(digits) if it in _SIZES), "whole")
    return Episema(len(bars), _side_of(digits), size, "2" not in digits)


def spelled_signs(spelling: str) -> NoteSigns:
    """Returns the signs of a note that is spelled so."""
    found = _SIGN.findall(spelling)
    ictus = next((_side_of(digits) for sign, digits in found if sign == "'"), None)
    hollow = [digits for sign, digits in found if sign == "r" and digits in ("", "0")]
    told = next(
        (digits[0] for sign, digits in found if sign in "oO" and digits[:1] in ("0", "1")), None
    )
    return NoteSigns(
        morae=sum(sign == "." for sign, _ in found),
        ictus=ictus,
        episemata=tuple(_episema_of(sign, digits) for sign, digits in found if sign[0] == "_"),
        liquescence=next((name for sign, name in _LIQUESCENCES.items() if sign in spelling), None),
        is_initio_debilis=spelling.startswith("-"),
        is_hollow=bool(hollow),
        is_lined="R" in spelling or "0" in hollow,
        over_staff=tuple(
            _OVER_STAFF[digits] for sign, digits in found if sign == "r" and digits in _OVER_STAFF
        ),
        points_up=None if told is None else told == "1",
    )
