"""The names that the library gives to outlines of notes and signs: which notes an outline shows,
and what GregorioTeX calls the glyph of its fonts that is this outline."""
from __future__ import annotations

import itertools
import re
from typing import NamedTuple

# The families of outlines of several notes, in the order of their numbers: the name of each, its
# name in a font, and whether each note is higher or lower than the one before.
FAMILIES = {
    "pes": ("Pes", "+"),
    "pes-quadratum": ("PesQuadratum", "+"),
    "pes-quassus": ("PesQuassus", "+"),
    "quilisma-pes": ("QuilismaPes", "+"),
    "quilisma-pes-quadratum": ("QuilismaPesQuadratum", "+"),
    "clivis": ("Flexus", "-"),
    "clivis-oriscus": ("FlexusOriscus", "-"),
    "torculus": ("Torculus", "+-"),
    "torculus-quilisma": ("TorculusQuilisma", "+-"),
    "porrectus": ("Porrectus", "-+"),
    "scandicus": ("Scandicus", "++"),
    "salicus": ("Salicus", "++"),
    "torculus-resupinus": ("TorculusResupinus", "+-+"),
    "torculus-resupinus-quilisma": ("TorculusResupinusQuilisma", "+-+"),
    "porrectus-flexus": ("PorrectusFlexus", "-+-"),
}
ENDINGS = ("", "deminutus", "ascendens", "descendens")
_STEPS = ("One", "Two", "Three", "Four", "Five")
# The outlines of one note, and those of signs.
_NOTES = {
    "punctum": "Punctum",
    "punctum-ascendens": "PunctumAscendens",
    "punctum-descendens": "PunctumDescendens",
    "punctum-deminutus": "PunctumDeminutus",
    "inclinatum": "DescendensPunctumInclinatum",
    "inclinatum-auctus": "PunctumInclinatumAuctus",
    "inclinatum-deminutus": "PunctumInclinatumDeminutus",
    "stropha": "Stropha",
    "stropha-aucta": "StrophaAucta",
    "quilisma": "Quilisma",
    "oriscus-up": "AscendensOriscus",
    "oriscus-down": "DescendensOriscus",
    "oriscus-up-scapus": "AscendensOriscusScapus",
    "oriscus-down-scapus": "DescendensOriscusScapus",
    "oriscus-deminutus": "OriscusDeminutus",
    "linea": "Linea",
    "linea-punctum": "LineaPunctum",
    "virga": "Virga",
    "virga-reversa": "VirgaReversa",
    "virga-reversa-ascendens": "VirgaReversaAscendens",
    "virga-reversa-descendens": "VirgaReversaDescendens",
}
_SIGNS = {
    "c-clef": "CClef",
    "f-clef": "FClef",
    "flat": "Flat",
    "natural": "Natural",
    "sharp": "Sharp",
    "custos-up": "CustosUpMedium",
    "custos-down": "CustosDownMedium",
}
# The outlines of signs of which no font has a glyph.
_OWN_SIGNS = (
    "mora tail-up tail-down virgula accent grave circle lower-arc upper-arc brace bracket-left"
    " bracket-right"
)
SIGNS = frozenset((*_SIGNS, *_OWN_SIGNS.split()))
CLEFS = frozenset(("CClef", "FClef"))
_JOINED = re.compile(f"({'|'.join(FAMILIES)})-([1-5]+)0*(-debilis)?(?:-({'|'.join(ENDINGS[1:])}))?")
_STROKE = re.compile("stroke-([1-5])")


class Joined(NamedTuple):
    """Which notes an outline shows: its family, by how many steps each note is higher or lower
    than the one before, whether it begins with an initio debilis, and how it ends."""

    family: str
    steps: tuple[int, ...]
    is_debilis: bool
    ending: str

    @property
    def rises(self) -> tuple[int, ...]:
        """By how many steps each note is higher than the one before; less than 0 if it is
        lower."""
        signs = FAMILIES[self.family][1]
        return tuple(it if sign == "+" else -it for it, sign in zip(self.steps, signs))

    @property
    def glyph(self) -> str:
        """The name of its glyph in a font."""
        steps = "".join(_STEPS[it - 1] for it in self.steps)
        end = ("InitioDebilis" if self.is_debilis else "") + self.ending.title()
        return f"{FAMILIES[self.family][0]}{steps}{end or 'Nothing'}"


def joined_of(name: str) -> Joined | None:
    """Returns which notes the outline `name` shows, if it is one of a family.

    >>> joined_of("torculus-120-deminutus")
    Joined(family='torculus', steps=(1, 2), is_debilis=False, ending='deminutus')
    """
    found = _JOINED.fullmatch(name)
    if found is None:
        return None
    family, steps, debilis, ending = found.groups()
    return Joined(family, tuple(map(int, steps)), debilis is not None, ending or "")


def fall_of(name: str) -> int:
    """Returns by how many steps the broad stroke `name` falls; 0 if it is none."""
    found = _STROKE.fullmatch(name)
    return int(found[1]) if found else 0


def glyph_of(name: str) -> str:
    """Returns the name of the glyph of a font that is the outline `name`; nothing if fonts have
    none.

    >>> glyph_of("clivis-200"), glyph_of("flat"), glyph_of("mora")
    ('FlexusTwoNothing', 'Flat', '')
    """
    joined = joined_of(name)
    return joined.glyph if joined else _NOTES.get(name, _SIGNS.get(name, ""))


def names() -> list[str]:
    """Returns the names of all outlines of which a font may have a glyph, in order."""
    joined = (
        f"{family}-{''.join(map(str, steps)):0<3}{debilis}{end}"
        for family, (_, signs) in FAMILIES.items()
        for steps in itertools.product(range(1, 6), repeat=len(signs))
        for debilis in ("", "-debilis")
        for end in ("", *(f"-{it}" for it in ENDINGS[1:]))
    )
    return sorted((*_NOTES, *_SIGNS, *joined))
