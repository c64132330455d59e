"""A score in MEI 5, by its module of neumes: syllables, neumes and their components with pitches,
clefs, bars, alterations, custodes and line ends."""
from __future__ import annotations

from xml.etree import ElementTree

from gregorio_chant.export import NoHeight, Way
from gregorio_chant.export.losses import ATTRIBUTES, MORAE, NABC, STYLES, TRANSLATIONS
from gregorio_chant.objects.item import PITCHES, Item
from gregorio_chant.objects.items import Alteration, Bar, Break, Clef, Custos, Note
from gregorio_chant.objects.score import Score
from gregorio_chant.objects.syllables import Glyph, NoteSnippet, Syllable

_MEI = "http://www.music-encoding.org/ns/mei"
_PITCHES = "cdefgab"
# The octave of step 0.
_OCTAVE = 3
# The bars by the names of the Vatican edition.
_BARS = {
    "virgula": "virgula",
    "minimis": "virgula",
    "minima": "minima",
    "minor": "maior",
    "maior": "maxima",
    "finalis": "finalis",
}
_ACCIDENTALS = {"flat": "f", "natural": "n", "sharp": "s"}
_WORD = {"one": "s", "beginning": "i", "middle": "m", "end": "t"}
# The child of a component of these shapes, or how it tilts.
_CHILDREN = {
    "quilisma": "quilisma",
    "quilisma-quadratum": "quilisma",
    "oriscus": "oriscus",
    "oriscus-scapus": "oriscus",
    "stropha": "strophicus",
    "stropha-aucta": "strophicus",
    "distropha": "strophicus",
    "tristropha": "strophicus",
}
_TILTS = {"virga": "s", "virga-reversa": "n", "bivirga": "s", "trivirga": "s", "inclinatum": "se"}


def _child(
    parent: ElementTree.Element, name: str, text: str | None = None, **attributes: str
) -> ElementTree.Element:
    made = ElementTree.SubElement(
        parent, f"{{{_MEI}}}{name}", {key.replace("_", "."): it for key, it in attributes.items()}
    )
    made.text = text
    return made


def _pitch_of(step: int) -> dict[str, str]:
    return {"pname": _PITCHES[step % 7], "oct": str(_OCTAVE + step // 7)}


def _add_component(neume: ElementTree.Element, note: Note) -> None:
    """Adds a note to a neume, as often as it sounds. Raises `NoHeight`."""
    if note.step is None:
        raise NoHeight(note)
    for _ in range(note.times):
        made = _child(neume, "nc", **_pitch_of(note.step))
        if note.shape in _TILTS:
            made.set("tilt", _TILTS[note.shape])
        if note.shape in _CHILDREN:
            _child(made, _CHILDREN[note.shape])
        if note.liquescence:
            _child(made, "liquescent")
        if note.episemata:
            _child(made, "episema", form="h")
        if note.ictus:
            _child(made, "episema", form="v")


def _add_other(parent: ElementTree.Element, item: Item, clef: Clef | None) -> None:
    """Adds what is no note."""
    if isinstance(item, Clef):
        _child(parent, "clef", shape=item.letter.upper(), line=str(item.line))
        if item.has_flat:
            _child(parent, "accid", accid="f", ploc="b")
    elif isinstance(item, Bar):
        _child(parent, "divLine", form=_BARS[item.name])
    elif isinstance(item, Break):
        _child(parent, "sb")
    elif isinstance(item, Alteration):
        made = _child(parent, "accid", accid=_ACCIDENTALS[item.sign])
        if clef is not None:
            step = _pitch_of(clef.step(PITCHES.index(item.pitch)))
            made.set("ploc", step["pname"])
            made.set("oloc", step["oct"])
    elif isinstance(item, Custos) and item.pitch is not None and clef is not None:
        _child(parent, "custos", **_pitch_of(clef.step(PITCHES.index(item.pitch))))


class _Layer:
    """The layer of a score: what its syllables hold, and between them clefs, bars and line ends."""

    def __init__(self, layer: ElementTree.Element) -> None:
        self._layer = layer
        self._clef: Clef | None = None

    def add(self, syllable: Syllable) -> None:
        """Adds a syllable. Raises `NoHeight`."""
        made: ElementTree.Element | None = None
        of_glyphs: dict[Item, Glyph] = {
            note: glyph for glyph in syllable.glyphs for note in glyph.notes
        }
        last: Glyph | None = None
        neume: ElementTree.Element | None = None
        text = syllable.plain.strip()
        if text:
            made = self._begin(syllable, text)
        for snippet in (it for it in syllable.snippets if isinstance(it, NoteSnippet)):
            for item in snippet.items:
                if isinstance(item, Note):
                    made = self._begin(syllable, text) if made is None else made
                    glyph = of_glyphs.get(item)
                    if neume is None or glyph != last:
                        neume = _child(
                            made, "neume", **({"type": glyph.kind} if glyph is not None else {})
                        )
                    last = glyph
                    _add_component(neume, item)
                    continue
                if isinstance(item, Clef):
                    self._clef = item
                _add_other(
                    self._layer if made is None or isinstance(item, (Bar, Break, Clef)) else made,
                    item,
                    self._clef,
                )

    def _begin(self, syllable: Syllable, text: str) -> ElementTree.Element:
        made = _child(self._layer, "syllable")
        _child(made, "syl", text, wordpos=_WORD[syllable.position])
        return made


def mei_of(score: Score) -> bytes:
    """Returns the file of a score. Raises `NoHeight`."""
    ElementTree.register_namespace("", _MEI)
    root = ElementTree.Element(f"{{{_MEI}}}mei", meiversion="5.0")
    described = _child(_child(root, "meiHead"), "fileDesc")
    _child(_child(described, "titleStmt"), "title", score.header("name") or "")
    _child(described, "pubStmt")
    held = _child(_child(_child(_child(root, "music"), "body"), "mdiv"), "score")
    lines = score.header("staff-lines") or "4"
    _child(
        _child(_child(held, "scoreDef"), "staffGrp"),
        "staffDef",
        n="1",
        lines=lines if lines in "2345" else "4",
        notationtype="neume",
    )
    layer = _Layer(_child(_child(_child(held, "section"), "staff", n="1"), "layer", n="1"))
    for syllable in score.syllables:
        layer.add(syllable)
    tree: bytes = ElementTree.tostring(root, encoding="utf-8")
    return b'<?xml version="1.0" encoding="UTF-8"?>\n' + tree + b"\n"


WAY = Way("mei", ".mei", mei_of, frozenset((NABC, STYLES, TRANSLATIONS, ATTRIBUTES, MORAE)))
