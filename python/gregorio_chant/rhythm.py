"""How far the rhythmic signs of notes reach: a mora or an episema may belong to notes before the
one that has it."""
from __future__ import annotations

from collections.abc import Iterable, Sequence

from gregorio_chant.objects.item import Item
from gregorio_chant.objects.items import Attribute, Fusion, Note
from gregorio_chant.objects.signs import Episema


def morae_of(notes: Sequence[Note]) -> list[int]:
    """Returns how many morae stand at each of `notes`: of two at one note, one belongs to the
    note before it, if there is one (GregorioRef, *Punctum Mora*)."""
    morae = [0] * len(notes)
    for at, note in enumerate(notes):
        own = note.morae
        if own > 1 and at:
            morae[at - 1] = max(morae[at - 1], 1)
            own = 1
        morae[at] = max(morae[at], own)
    return morae


def episemata_of(items: Iterable[Item]) -> dict[Note, tuple[Episema, ...]]:
    """Returns the episemata that cover each note among `items`, by the offset of the note: first
    its own, then those of later notes that reach back to it. None reaches back over anything that
    is no note, but for attributes and marks of fusion. A note that no episema covers is left
    out."""
    covered: dict[Note, tuple[Episema, ...]] = {}
    row: list[Note] = []
    for it in items:
        if isinstance(it, Note):
            row.append(it)
            for episema in it.episemata:
                for note in row[-episema.count :]:
                    covered[note] = (*covered.get(note, ()), episema)
        elif not isinstance(it, (Attribute, Fusion)):
            row.clear()
    return covered
