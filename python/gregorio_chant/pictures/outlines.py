"""The outlines that pictures are drawn with, by the names that the library gives to them. They are
tables in the folder `symbols`, which `tools/make_symbols` makes of gregorio's fonts. They stand
under the SIL Open Font License, as the file OFL.txt beside them says."""
from __future__ import annotations

from collections.abc import Iterable, Iterator
from functools import lru_cache
from pathlib import Path
from typing import NamedTuple

from gregorio_chant._native.drawings import UNITS

_FOLDER = Path(__file__).with_name("symbols")
AUTO, TEXT = "auto", "text"
# The hands in which NABC is drawn.
HANDS = ("stgall", "modern", "laon")


class Outline(NamedTuple):
    """A path, its width, and how far it goes up and down from its origin, in tenths of a staff
    space, which are pixels."""

    path: str
    width: float
    up: float
    down: float


class Table:
    """A table of outlines: after lines that say where they come from, each beginning with `#`, a
    line for each outline, with its name, width, how far it goes up and down, and its path; or with
    its name and that of the outline that it shares."""

    def __init__(self, text: str) -> None:
        lines = text.split("\n")
        self.origin = "\n".join(it[2:] for it in lines if it.startswith("#"))
        self._rows = dict(it.split("\t", 1) for it in lines if "\t" in it)

    def __iter__(self) -> Iterator[str]:
        return iter(self._rows)

    def outline(self, name: str) -> Outline | None:
        """Returns the outline `name`; nothing if the table has none."""
        row = self._rows.get(name, "").split("\t")
        if len(row) == 1:
            return self.outline(row[0]) if row[0] else None
        width, up, down, path = row
        return Outline(path, float(width), float(up), float(down))


@lru_cache(maxsize=None)
def table(name: str) -> Table:
    """Returns a table by its name. Each is read once."""
    return Table((_FOLDER / f"{name}.tsv").read_text(encoding="utf-8"))


def path_of(outline: Outline, attributes: str) -> str:
    """Returns the element of an outline, with these attributes, in units of the library."""
    return f'<path {attributes} transform="scale({UNITS})" fill-rule="evenodd" d="{outline.path}"/>'


class Face:
    """The outlines of notes and signs: those of square notes, and the project's own, which fonts
    lack."""

    def outline(self, name: str) -> Outline:
        """Returns the outline `name`."""
        found = table("square").outline(name) or table("own").outline(name)
        if found is None:
            raise KeyError(name)
        return found

    def element(self, name: str, identifier: str) -> str:
        """Returns the outline `name` as an element that is used by this id."""
        return path_of(self.outline(name), f'id="{identifier}"')

    @property
    def origin(self) -> str:
        """Whose the outlines are, and under which licence."""
        return f"{table('square').origin}\n{table('own').origin}"


SQUARE = Face()


def _neume_of(name: str) -> tuple[str, str] | None:
    """Returns the hand and the spelling of an outline of NABC; nothing if it is none."""
    hand, _, spelled = name.partition("-")
    return (hand, spelled) if hand in HANDS else None


class Outlines:
    """The outlines of a picture: those of notes and signs of a face, and those of NABC of the hand
    that the library chose, or of another one for what that has."""

    def __init__(self, face: Face = SQUARE, hand: str = AUTO) -> None:
        self._face, self._hand = face, hand
        self._known: dict[str, Outline] = {}

    def named(self, name: str) -> str:
        """Returns the name of the outline that is drawn for what the library names."""
        neume = _neume_of(name)
        if neume is None or self._hand not in HANDS:
            return name
        return f"{self._hand}-{neume[1]}" if neume[1] in table(self._hand) else name

    def outline(self, name: str) -> Outline:
        """Returns the outline `name`. Each is looked for once."""
        known = self._known.get(name)
        if known is None:
            neume = _neume_of(name)
            known = table(neume[0]).outline(neume[1]) if neume else self._face.outline(name)
            if known is None:
                raise KeyError(name)
            self._known[name] = known
        return known

    def elements(self, names: Iterable[str], prefix: str) -> str:
        """Returns these outlines as elements, whose ids begin with `prefix`."""
        return "".join(
            path_of(self.outline(it), f'id="{prefix}{it}"')
            if _neume_of(it)
            else self._face.element(it, f"{prefix}{it}")
            for it in sorted(names)
        )

    def origins(self, names: Iterable[str]) -> str:
        """Returns whose these outlines are."""
        hands = sorted({neume[0] for it in names for neume in [_neume_of(it)] if neume})
        return "\n\n".join([self._face.origin, *(table(it).origin for it in hands)])
