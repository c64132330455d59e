"""The table of codes: what each means, with a wrong line and its right one.

The texts are those of the compiler, the meanings those of the man page; `python/tests` compares
them.
"""
from __future__ import annotations

from dataclasses import dataclass

from gregorio_chant._native.results import Kind

# What stands before and after a line of a score, and after a line of headers.
_SCORE = "name: Kyrie;\n%%\n(c4) "
_NABC = "name: Kyrie;\nnabc-lines: 1;\n%%\n(c4) "
_HEADERS = "name: Kyrie;\n"
_BODY = "\n%%\n(c4) Ky(f)\n"
_LONGEST_SHOWN = 60


@dataclass(frozen=True)
class Code:
    """A code. `wrong` is a line that gives it, and `right` one that does not, where `before` stands
    before and `after` after it."""

    name: str
    text: str
    meaning: str
    wrong: str
    right: str
    before: str = _SCORE
    after: str = "\n"
    is_tried: bool = True

    @property
    def kind(self) -> Kind:
        """How grave a message with this code is."""
        return {"E": Kind.ERROR, "W": Kind.WARNING, "F": Kind.FATAL}[self.name[0]]

    def score_with(self, line: str) -> bytes:
        """Returns the whole score in which `line` stands. A lone surrogate stands for a byte that
        is no UTF-8."""
        return (self.before + line + self.after).encode("utf-8", "surrogateescape")


def shown(line: str) -> str:
    """Returns `line` as it can be printed: cut where it is long, and with `\\xff` for a byte that
    is no UTF-8."""
    if len(line) > _LONGEST_SHOWN:
        line = f"{line[: _LONGEST_SHOWN // 2]} .. ({len(line):,} characters)"
    return line.encode("utf-8", "surrogateescape").decode("utf-8", "backslashreplace")


_ERRORS = (
    Code(
        "E1",
        "character left out of the notes",
        (
            "A character of the notes fits nowhere, and was left out. Look for a typing mistake,"
            " such as a capital letter or a digit after the wrong note."
        ),
        "Ky(g5)ri(g)",
        "Ky(g.)ri(g)",
    ),
    Code(
        "E2",
        "character left out of the text",
        (
            "A character of a text was left out: a ), ] or > without its opening bracket. Remove"
            " it, or write $ before it."
        ),
        "Ky(f))ri(g)",
        "Ky(f)ri(g)",
    ),
    Code(
        "E3",
        "character left out of the NABC notes",
        (
            "A character of the NABC notes fits nowhere, and was left out. Compare the descriptor"
            " with the manual."
        ),
        "Ky(fg|pe1)",
        "Ky(fg|peS1)",
        before=_NABC,
    ),
    Code(
        "E4",
        "header without a usable name left out",
        "A header line has no :, or its name is empty or longer than 64 bytes. Write name: value;.",
        "office-part Kyriale;",
        "office-part: Kyriale;",
        before=_HEADERS,
        after=_BODY,
    ),
    Code(
        "E5",
        "nabc-lines out of range left out",
        "The header nabc-lines is not 0, 1, 2, 3 or 4. Write one of these digits.",
        "nabc-lines: 01;",
        "nabc-lines: 1;",
        before=_HEADERS,
        after=_BODY,
    ),
    Code(
        "E6",
        "unfinished end of the notes left out",
        (
            "The notes of a syllable end too early, for example with a - and no note after it."
            " Finish or remove the end."
        ),
        "Ky(fg-)",
        "Ky(f-g)",
    ),
)

_WARNINGS = (
    Code(
        "W1",
        "no name header",
        "There is no header name. Add one.",
        "mode: 1;",
        "name: Kyrie;",
        before="",
        after=_BODY,
    ),
    Code(
        "W2",
        "header given again",
        "A header occurs twice. Its last value counts: remove the others.",
        "mode: 1;\nmode: 2;",
        "mode: 2;",
        before=_HEADERS,
        after=_BODY,
    ),
    Code(
        "W3",
        "style tag not matched",
        (
            "A style tag has no partner, or a style is open at the end of a syllable. Close each"
            " style in its own syllable."
        ),
        "<i>Ky(f)ri</i>(g)",
        "<i>Ky</i>(f)<i>ri</i>(g)",
    ),
    Code(
        "W4",
        "centring brace not matched or second",
        (
            "A brace of the centre has no partner, is the second of its kind, or is still open."
            " Keep one pair in a syllable."
        ),
        "{K}{y}(f)",
        "{Ky}(f)",
    ),
    Code(
        "W5",
        "second translation left out",
        "A second translation was left out. Keep one in a syllable.",
        "Ky[Lord]ri[God](f)",
        "Ky[Lord God]ri(f)",
    ),
    Code(
        "W6",
        "tag not known",
        "A tag is unknown. It is kept: look for a mistake in its name.",
        "<it>Ky</it>(f)",
        "<i>Ky</i>(f)",
    ),
    Code(
        "W7",
        "NABC code not known",
        "An NABC code is unknown. It is kept: compare it with the manual.",
        "Ky(fg|ep)",
        "Ky(fg|pe)",
        before=_NABC,
    ),
    Code(
        "W8",
        "macro not defined",
        "A macro is used, but the header def-m with its digit is missing. Add the header.",
        "%%\n(c4) Ky(f[nm1])",
        "def-m1: \\grecross;\n%%\n(c4) Ky(f[nm1])",
        before=_HEADERS,
    ),
    Code(
        "W9",
        "text without notes at the end",
        "There is text without notes at the end. Empty notes were added: add () or the notes.",
        "Ky(f)ri",
        "Ky(f)ri(g)",
    ),
    Code(
        "W10",
        "fusion bracket not matched",
        "A fusion bracket @[ has no ], or a ] has no @[. Close it in its own snippet.",
        "Ky(@[fg)",
        "Ky(@[fg])",
    ),
    Code(
        "W11",
        "eu or nlba open at the end",
        "A span <eu> or <nlba> is open at the end. Close it.",
        "<eu>e(h) u(g)",
        "<eu>e(h) u</eu>(g)",
    ),
    Code(
        "W12",
        "note before any clef",
        "The first note comes before any clef. Write a clef, such as (c4), before it.",
        "Ky(f)",
        "(c4) Ky(f)",
        before="name: Kyrie;\n%%\n",
    ),
)

_FAULTS = (
    Code(
        "F1",
        "not UTF-8",
        "The input is not UTF-8 from here on. Convert it.",
        "Kyri\udce9(f)",
        "Kyri\u00e9(f)",
    ),
    Code(
        "F2",
        "no %% line",
        "No line begins with %%. Write one between the headers and the score.",
        "(c4) Ky(f)",
        "%%\n(c4) Ky(f)",
        before=_HEADERS,
    ),
    Code(
        "F3",
        "header value not ended",
        "The value of a header has no end. End it with ;, or with ;; if it has several lines.",
        "mode: 1",
        "mode: 1;",
        before=_HEADERS,
        after=_BODY,
    ),
    Code(
        "F4",
        "header limit",
        "The headers are longer than 65,536 bytes. Shorten them.",
        "commentary: " + "Graduale " * 8_000 + ";",
        "commentary: Graduale;",
        before=_HEADERS,
        after=_BODY,
    ),
    Code(
        "F5",
        "syllable limit",
        "A syllable is longer than 16,384 bytes. Look for a missing ( or ).",
        "Kyrie " + "eleison " * 2_500 + "(f)",
        "Kyrie(f) eleison(g)",
    ),
    Code(
        "F6",
        "input ends inside notes, a tag, a raw part or a translation",
        (
            "The input ends inside notes, a tag, a raw part or a translation. Close the part that"
            " begins at this place."
        ),
        "Ky(f)ri(g",
        "Ky(f)ri(g)",
    ),
    Code(
        "F7",
        "input limit",
        "The input or its canonical form is longer than 4,294,967,295 bytes. Split it.",
        "one file of 5,000,000,000 bytes",
        "two files of 2,500,000,000 bytes",
        is_tried=False,
    ),
)

CODES: dict[str, Code] = {it.name: it for it in _ERRORS + _WARNINGS + _FAULTS}
