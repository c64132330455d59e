"""Neumes of NABC: descriptors and their parts."""
from __future__ import annotations

import re
from collections.abc import Iterator
from typing import Union

from gregorio_chant._native.node_kinds import NodeKind
from gregorio_chant.objects.item import PITCHES, Item
from gregorio_chant.text.vocabulary import NABC_NAMES

_MODIFIER = re.compile("[^0-9][0-9]?")


class NabcPart(Item):
    """A part of a descriptor."""

    __slots__ = ()

    @property
    def pitch(self) -> str | None:
        """The small letter after its `h`, or `None`."""
        _, h, letter = self._after_digit.partition("h")
        return letter if h else None

    @property
    def _after_digit(self) -> str:
        """What stands after its digit."""
        return self.spelling.partition(str(self._c))[2]


class NabcGlyph(NabcPart):
    """A glyph."""

    __slots__ = ()

    @property
    def code(self) -> str:
        """Its two letters."""
        return chr(self._a) + chr(self._b)

    @property
    def name(self) -> str:
        """The name of its code; of one without a name the code."""
        return NABC_NAMES.get(self.code, self.code)

    @property
    def modifiers(self) -> tuple[str, ...]:
        """Its modifiers, each with its number if it has one."""
        end = -2 if self._c else None
        return tuple(_MODIFIER.findall(self.spelling[2:end]))

    @property
    def pitch(self) -> str | None:
        """The small letter after its `h`, or `None`."""
        return PITCHES[self._c - 1] if self._c else None


class NabcPoints(NabcPart):
    """Points after a glyph, `su`, or before it, `pp`."""

    __slots__ = ()

    @property
    def kind(self) -> str:
        return ("su", "pp")[self._a]

    @property
    def letter(self) -> str:
        """Their kind, which may be empty."""
        return chr(self._b) if self._b else ""

    @property
    def count(self) -> int:
        """Their number."""
        return self._c


class NabcLetters(NabcPart):
    """Significant letters, `ls`, or Tironian notes, `lt`."""

    __slots__ = ()

    @property
    def kind(self) -> str:
        return ("ls", "lt")[self._a]

    @property
    def text(self) -> str:
        """The letters."""
        return self.spelling[2:].partition(str(self._c))[0]

    @property
    def position(self) -> int:
        """A number from 1 to 9 for the place around the glyph."""
        return self._c


Part = Union[NabcGlyph, NabcPoints, NabcLetters]
_PARTS: dict[int, type[Part]] = {
    NodeKind.NABC_GLYPH: NabcGlyph,
    NodeKind.NABC_POINTS: NabcPoints,
    NodeKind.NABC_LETTERS: NabcLetters,
}


class Descriptor(Item):
    """A descriptor of NABC."""

    __slots__ = ()

    @property
    def names(self) -> tuple[str, ...]:
        """The names of its codes."""
        tree = self._score.tree
        codes = [
            "".join(map(chr, tree.narrow[10 * it + 7 : 10 * it + 9]))
            for it in tree.children(self._number)
            if tree.kinds[it] == NodeKind.NABC_GLYPH
        ]
        return tuple([NABC_NAMES.get(it, it) for it in codes])

    @property
    def parts(self) -> tuple[Part, ...]:
        """Its glyphs, points and letters, in order."""
        return tuple(self._parts())

    @property
    def glyphs(self) -> tuple[NabcGlyph, ...]:
        return tuple(it for it in self._parts() if isinstance(it, NabcGlyph))

    @property
    def points(self) -> tuple[NabcPoints, ...]:
        return tuple(it for it in self._parts() if isinstance(it, NabcPoints))

    @property
    def letters(self) -> tuple[NabcLetters, ...]:
        return tuple(it for it in self._parts() if isinstance(it, NabcLetters))

    def _parts(self) -> Iterator[Part]:
        tree = self._score.tree
        for number in tree.children(self._number):
            part = _PARTS.get(tree.kinds[number])
            if part is not None:
                yield part(self._score, number)
