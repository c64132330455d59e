"""What users choose of a picture: its width, its outlines, and whether it has an initial."""
from __future__ import annotations

from dataclasses import dataclass

from gregorio_chant.pictures.alone import USUAL_WIDTH
from gregorio_chant.pictures.outlines import AUTO, SQUARE, Face


@dataclass(frozen=True)
class Look:
    """How a picture looks. `width` is in pixels; `hand` names that of the NABC; `has_initial` says
    whether the first letter stands before the first row, as large as the header `initial-style`
    says, and `has_notes` whether a line at the foot says what is not drawn."""

    width: float = USUAL_WIDTH
    face: Face = SQUARE
    hand: str = AUTO
    has_initial: bool = True
    has_notes: bool = True
