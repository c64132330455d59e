"""A score as MusicXML 4.0, for editors of modern notation: notes without stems, slurs over neumes,
the text as lyrics, bars as in chant."""
from __future__ import annotations

from xml.etree import ElementTree

from gregorio_chant.export import NoHeight, Way
from gregorio_chant.export.losses import (
    ATTRIBUTES,
    BREAKS,
    CUSTODES,
    EPISEMATA,
    ICTUS,
    LIQUESCENCE,
    NABC,
    SHAPES,
    STYLES,
    TRANSLATIONS,
)
from gregorio_chant.objects.items import Bar, Note
from gregorio_chant.objects.score import Score
from gregorio_chant.objects.syllables import NoteSnippet, Syllable
from gregorio_chant.rhythm import morae_of

_STEPS = "CDEFGAB"
_ALTERED = {"flat": -1, "sharp": 1}
_BARS = {
    "virgula": "tick",
    "minimis": "tick",
    "minima": "short",
    "minor": "dashed",
    "maior": "regular",
    "finalis": "light-light",
}
_SYLLABIC = {"one": "single", "beginning": "begin", "middle": "middle", "end": "end"}
# The octave of step 0: the ut of a c clef is the c in the middle.
_OCTAVE = 3
# What stands before the tree.
_HEAD = """<?xml version="1.0" encoding="UTF-8"?>
<!DOCTYPE score-partwise PUBLIC "-//Recordare//DTD MusicXML 4.0 Partwise//EN" "http://www.musicxml.org/dtds/partwise.dtd">
"""


def _child(
    parent: ElementTree.Element, name: str, text: str | None = None, **attributes: str
) -> ElementTree.Element:
    made = ElementTree.SubElement(
        parent, name, {key.replace("_", "-"): it for key, it in attributes.items()}
    )
    made.text = text
    return made


class _Part:
    """The part of a score, a measure for what lies between two bars."""

    def __init__(self, part: ElementTree.Element) -> None:
        self._part, self._number = part, 0
        self._measure = self._begun()

    def _begun(self) -> ElementTree.Element:
        self._number += 1
        return _child(self._part, "measure", number=str(self._number), implicit="yes")

    def begin(self) -> None:
        """Writes what the first measure says of all: no key, no time."""
        of_all = _child(self._measure, "attributes")
        _child(of_all, "divisions", "2")
        _child(_child(of_all, "key"), "fifths", "0")
        _child(_child(of_all, "time", print_object="no"), "senza-misura")
        clef = _child(of_all, "clef")
        _child(clef, "sign", "G")
        _child(clef, "line", "2")
        _child(clef, "clef-octave-change", "-1")

    def add_bar(self, bar: Bar) -> None:
        """Ends the measure with a bar."""
        if len(self._measure) == 0 or self._measure[-1].tag == "barline":
            return
        _child(_child(self._measure, "barline", location="right"), "bar-style", _BARS[bar.name])
        self._measure = self._begun()

    def add_note(
        self, note: Note, is_long: bool, slurs: list[str], lyric: tuple[str, str] | None
    ) -> None:
        """Adds a note with its slurs and its lyric: how the syllable stands in its word, and its
        text. Raises `NoHeight`."""
        if note.step is None:
            raise NoHeight(note)
        made = _child(self._measure, "note")
        pitch = _child(made, "pitch")
        _child(pitch, "step", _STEPS[note.step % 7])
        if note.alteration in _ALTERED:
            _child(pitch, "alter", str(_ALTERED[note.alteration]))
        _child(pitch, "octave", str(_OCTAVE + note.step // 7))
        _child(made, "duration", "2" if is_long else "1")
        _child(made, "type", "quarter" if is_long else "eighth")
        _child(made, "stem", "none")
        if slurs:
            notations = _child(made, "notations")
            for it in slurs:
                _child(notations, "slur", type=it, number="1")
        if lyric is not None:
            text = _child(made, "lyric", number="1")
            _child(text, "syllabic", lyric[0])
            _child(text, "text", lyric[1])

    def end(self) -> None:
        """Leaves out a measure with nothing in it."""
        if len(self._measure) == 0 and self._number > 1:
            self._part.remove(self._measure)


def _lyric_of(syllable: Syllable) -> tuple[str, str] | None:
    text = syllable.plain.strip()
    return (_SYLLABIC[syllable.position], text) if text else None


def _slurs_of(syllable: Syllable, note: Note) -> list[str]:
    """Returns where slurs over neumes begin and end at a note."""
    ends = [(glyph.notes[0], glyph.notes[-1]) for glyph in syllable.glyphs if len(glyph.notes) > 1]
    return ["stop" for _, last in ends if last == note] + [
        "start" for first, _ in ends if first == note
    ]


def _add_syllable(part: _Part, syllable: Syllable) -> None:
    lyric = _lyric_of(syllable)
    for snippet in (it for it in syllable.snippets if isinstance(it, NoteSnippet)):
        lengths = iter(morae_of([it for it in snippet.items if isinstance(it, Note)]))
        for item in snippet.items:
            if isinstance(item, Bar):
                part.add_bar(item)
            if not isinstance(item, Note):
                continue
            is_long, slurs = next(lengths) > 0, _slurs_of(syllable, item)
            for at in range(item.times):
                is_first, is_last = at == 0, at == item.times - 1
                part.add_note(
                    item,
                    is_long,
                    [it for it in slurs if (is_first if it == "start" else is_last)],
                    lyric,
                )
                lyric = None


def musicxml_of(score: Score) -> bytes:
    """Returns the file of a score. Raises `NoHeight`."""
    root = ElementTree.Element("score-partwise", version="4.0")
    _child(_child(root, "work"), "work-title", score.header("name") or "")
    _child(_child(_child(root, "part-list"), "score-part", id="P1"), "part-name", "")
    part = _Part(_child(root, "part", id="P1"))
    part.begin()
    for syllable in score.syllables:
        _add_syllable(part, syllable)
    part.end()
    tree: bytes = ElementTree.tostring(root, encoding="utf-8")
    return _HEAD.encode() + tree + b"\n"


WAY = Way(
    "musicxml",
    ".musicxml",
    musicxml_of,
    frozenset(
        (
            NABC,
            STYLES,
            TRANSLATIONS,
            ATTRIBUTES,
            BREAKS,
            CUSTODES,
            SHAPES,
            EPISEMATA,
            ICTUS,
            LIQUESCENCE,
        )
    ),
)
