"""The table of repairs. `mending` has what finds each, and `repairing` judges and makes them.

A safe repair changes no header, note, other sign or sung letter. All others guess: `changes` says
what they change, and an editor is shown both readings.
"""
from __future__ import annotations

from dataclasses import dataclass

_SCORE = "name: Kyrie;\n%%\n(c4) "
_BEGUN = "name: Kyrie;\n"
_BODY = "\n%%\n(c4) Ky(f)\n"
_TEXT_TO_NOTES, _NOTES_TO_TEXT = "text becomes notes", "notes become text"
_NABC = "name: Kyrie;\nnabc-lines: 1;\n%%\n(c4) "


@dataclass(frozen=True)
class Repair:
    """A repair. `wrong` is a line that it turns into `right`, where `before` stands before and
    `after` after it; `codes` are those that ask for it. A safe one has no `changes`."""

    name: str
    codes: frozenset[str]
    meaning: str
    changes: str
    wrong: str
    right: str
    before: str = _SCORE
    after: str = "\n"

    @property
    def is_safe(self) -> bool:
        return not self.changes

    def score_with(self, line: str) -> bytes:
        """Returns the whole score in which `line` stands."""
        return (self.before + line + self.after).encode("utf-8")


def _codes(*names: str) -> frozenset[str]:
    return frozenset(names)


REPAIRS: dict[str, Repair] = {
    it.name: it
    for it in (
        Repair(
            "escape",
            _codes("E2"),
            "Write $ before a > that is part of the text.",
            "",
            "Ky>(f)ri(g)",
            "Ky$>(f)ri(g)",
        ),
        Repair(
            "style-in-each-syllable",
            _codes("W3"),
            "Close a style over several syllables in each of them, and open it again in the next.",
            "",
            "<i>Ky(f)ri(g)e</i>(h)",
            "<i>Ky</i>(f)<i>ri</i>(g)<i>e</i>(h)",
        ),
        Repair(
            "open-notes",
            _codes("E2"),
            "Write the missing ( before notes.",
            _TEXT_TO_NOTES,
            "Ky(f)rigfg)e(h)",
            "Ky(f)ri(gfg)e(h)",
        ),
        Repair(
            "remove-opener",
            _codes("E1", "E3"),
            "Remove one of two (.",
            "no note changes",
            "Ky((f)ri(g)",
            "Ky(f)ri(g)",
        ),
        Repair(
            "close-notes",
            _codes("E1", "E3"),
            "Write the missing ) after notes.",
            _NOTES_TO_TEXT,
            "Ky(f ri(gfg)",
            "Ky(f) ri(gfg)",
        ),
        Repair(
            "close-at-end",
            _codes("F6"),
            "Write the missing ) at the end.",
            "the last notes are read",
            "Ky(f)ri(gfg",
            "Ky(f)ri(gfg)",
        ),
        Repair(
            "notes-in-brackets",
            _codes("notes-in-translation"),
            "Write ( and ) in place of [ and ].",
            "a translation becomes notes",
            "Ky[fg]ri(h)",
            "Ky(fg)ri(h)",
        ),
        Repair(
            "clef",
            _codes("E1", "W12", "lone-capital"),
            "Write a clef as c or f and its line.",
            "notes become a clef",
            "(4c) Ky(f)",
            "(c4) Ky(f)",
            "name: Kyrie;\n%%\n",
        ),
        Repair(
            "double-bar",
            _codes("E1"),
            "Write a double bar as ::.",
            "a bar is added",
            "Ky(f) (||)",
            "Ky(f) (::)",
        ),
        Repair(
            "apostrophe",
            _codes("E1"),
            "Write the typewriter's apostrophe.",
            "a note gets an ictus",
            "Ky(f’)ri(g)",
            "Ky(f')ri(g)",
        ),
        Repair(
            "sign-before-attribute",
            _codes("E1"),
            "Move a letter or sign of a note before the attribute.",
            "a sign is added",
            "Ky(f[ll:1]v)",
            "Ky(fv[ll:1])",
        ),
        Repair(
            "nabc-header",
            _codes("E1", "nabc-without-header"),
            "Write the missing header nabc-lines, since the notes have a |.",
            "the text after each | becomes neumes",
            "%%\n(c4) Ky(f|pu)",
            "nabc-lines: 1;\n%%\n(c4) Ky(f|pu)",
            _BEGUN,
        ),
        Repair(
            "leave-out-of-nabc",
            _codes("E3"),
            "Remove a number or letter that NABC does not take.",
            "no neume changes",
            "Ky(f|un1)",
            "Ky(f|un)",
            _NABC,
        ),
        Repair(
            "close-tag",
            _codes("W6"),
            "Write the missing > after the name of a tag.",
            _TEXT_TO_NOTES,
            "<iKy</i>(f)",
            "<i>Ky</i>(f)",
        ),
        Repair(
            "escape-less",
            _codes("W6"),
            "Write $ before a < that takes notes for its tag.",
            _TEXT_TO_NOTES,
            "Ky<(f)ri(g>)",
            "Ky$<(f)ri(g>)",
        ),
        Repair(
            "html-tag",
            _codes("W6"),
            (
                "Remove a tag of HTML, or the end of a tag that is not open; or write the tag of"
                " GABC for it."
            ),
            "a tag goes",
            "Ky<br>(f)",
            "Ky(f)",
        ),
        Repair(
            "barred-letter",
            _codes("unknown-special"),
            "Write A/, R/ or V/ between <sp> and </sp> for the barred letter.",
            "a sign is added",
            "<sp>Rx</sp>(::)",
            "<sp>R/</sp>(::)",
        ),
        Repair(
            "html-entity",
            _codes("html-entity"),
            "Write the character itself in place of its name in HTML.",
            "letters change",
            "D&oacute;(f)",
            "D\u00f3(f)",
        ),
        Repair(
            "score-line",
            _codes("F2", "F3"),
            "Remove the blanks before %%.",
            "the lines below become the score",
            " %%",
            "%%",
            _BEGUN,
            "\n(c4) Ky(f)\n",
        ),
        Repair(
            "end-header",
            _codes("F3"),
            "Write the missing ; after the value of a header.",
            "the lines below are read",
            "mode: 1",
            "mode: 1;",
            _BEGUN,
            _BODY,
        ),
        Repair(
            "header-colon",
            _codes("E4"),
            "Write name: value; for a header without its colon.",
            "a header is added",
            "mode - 1;",
            "mode: 1;",
            _BEGUN,
            _BODY,
        ),
        Repair(
            "header-name",
            _codes("misspelled-header"),
            "Write the name of a header as GregorioTeX does.",
            "a header gets another name",
            "moed: 1;",
            "mode: 1;",
            _BEGUN,
            _BODY,
        ),
        Repair(
            "mode-number",
            _codes("mode-without-number"),
            "Write the mode as a number.",
            "the mode becomes a number",
            "mode: VII;",
            "mode: 7;",
            _BEGUN,
            _BODY,
        ),
    )
}
