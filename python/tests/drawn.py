"""What the tests of pictures share: scores, and what stands in their pictures."""
from __future__ import annotations

from collections.abc import Iterator
from typing import NamedTuple
from xml.etree import ElementTree as Xml

from gregorio_chant._native.drawings import drawn
from gregorio_chant.dump import Score
from gregorio_chant.pictures.drawing import draw
from gregorio_chant.pictures.look import Look
from gregorio_chant.pictures.sheet import Group, Row, sheet_of

SVG = "{http://www.w3.org/2000/svg}"
# How broad a thin line is, in units of the library.
THIN = 90
_PITCHES = "abcdefghijklmnp"
# Every kind of neume, with notes of each.
KINDS = {
    "pes": "fg fh fi fj wg",
    "clivis": "gf hf if jf",
    "torculus": "fgf fhf fif",
    "porrectus": "gfg hfh ifi jfk kfk",
    "scandicus": "fgh fghi fhj",
    "scandicus-flexus": "fghg fghih",
    "torculus-resupinus": "fgfg fhfh",
    "porrectus-flexus": "gfgf hfhf",
    "torculus-resupinus-flexus": "fgfgf fhfhf",
    "pes-subpunctis": "fgFE fhG",
    "clivis-subpunctis": "gfED",
    "torculus-subpunctis": "fgfED",
    "porrectus-subpunctis": "gfgF",
    "scandicus-subpunctis": "fghGF",
    "pes-subpunctis-resupinus": "fgFEg",
    "scandicus-subpunctis-resupinus": "fghGFh",
    "climacus": "hGF hvGFE",
    "climacus-resupinus": "hGFg",
    "inclinata": "F FGF",
    "scandicus-flexus-subpunctis": "fghgFE",
    "torculus-resupinus-subpunctis": "fgfgF",
    "punctum": "f f~ f< f> -f f. f.. f' f'1 f_ f_0 fr1 fr8",
    "virga": "fv",
    "virga-reversa": "fV",
    "bivirga": "fvv",
    "trivirga": "fvvv",
    "stropha": "fs fs<",
    "distropha": "fss",
    "tristropha": "fsss",
    "oriscus": "fo fo0",
    "oriscus-scapus": "fO",
    "quilisma": "fw",
    "quilisma-quadratum": "fW",
    "quadratum": "fq",
    "cavum": "fr fr0",
    "lined": "fR",
    "linea": "f=",
}
HOSTILE = (
    "name: <script>alert(1)</script> \" ' ]]> \u202e &amp;;\nannotation:"
    ' </text><script>;\ncommentary: ]]>&lt;;\n%%\n(c4) a$<script$>b$</script$>[</svg><script>"]]>'
    " \u202e]](fg) x\"'&y\u2066(g) <alt></title><script></alt>k(g) <v></style><script></v>e(f)"
    ' <sp></style>\x1b\u202e</sp>(g[nv:</svg>]) <foo onclick="x">z\x01\x1b\x7f\x85(g[<script>])'
    " <b>c(g&)\n"
)


class Sign(NamedTuple):
    """An outline, or a rectangle, which has no name, in its group."""

    name: str
    x: int
    y: int
    width: int = 0
    height: int = 0


def text_with(notes: str) -> str:
    """Returns a score of one syllable with these notes, after a clef."""
    return f"name: x;\n%%\n(c4) a({notes})\n"


def score_with(notes: str) -> Score:
    return Score.parse(text_with(notes))


def height_of(pitch: str) -> int:
    """Returns the y of a pitch."""
    return -500 * (_PITCHES.index(pitch) - _PITCHES.index("d"))


def rows_of(score: str | bytes, width: float = 700.0) -> tuple[Row, ...]:
    """Returns the rows of the picture of the library."""
    return tuple(sheet_of(drawn(score, width)).rows)


def rows_with(body: str, width: float) -> tuple[Row, ...]:
    """Returns the rows of a score with this body, after a clef. It has no initial."""
    return rows_of(f"name: x;\ninitial-style: 0;\n%%\n(c4) {body}\n", width)


def signs_of(content: str) -> Iterator[Sign]:
    """Yields the outlines and the rectangles of a group or of a row, but lines of staves."""
    for it in Xml.fromstring(f"<g>{content}</g>").iter():
        x, y, width, height = (int(it.get(name, 0)) for name in ("x", "y", "width", "height"))
        if it.tag == "use" or it.tag == "rect" and it.get("class") is None:
            yield Sign(it.get("href", "")[1:], x, y, width, height)


def group_of(notes: str) -> Group:
    """Returns the group of a syllable with these notes."""
    return rows_of(text_with(notes))[0].groups[1]


def signs_with(notes: str) -> list[Sign]:
    """Returns the outlines and rectangles of a syllable with these notes."""
    return list(signs_of(group_of(notes).content))


def texts_in(content: str) -> list[tuple[int, int, int, str]]:
    """Returns the texts of a group or of a row: where each begins, its height, its width, and its
    letters."""
    return [
        (int(it.get("x", 0)), int(it.get("y", 0)), int(it.get("textLength", 0)), it.text or "")
        for it in Xml.fromstring(f"<g>{content}</g>").iter("text")
    ]


def picture(score: str | bytes, look: Look = Look()) -> str:
    """Returns the picture that `show --svg` writes."""
    return draw(score.encode() if isinstance(score, str) else score, look=look).svg


def groups_of(root: Xml.Element) -> list[Xml.Element]:
    """Returns the groups of syllables of a picture."""
    return [it for it in root.iter(f"{SVG}g") if it.get("class") == "syllable"]
