"""The table of rules: what the compiler leaves open, and is looked for if it is asked for.
`finding` has what finds each."""
from __future__ import annotations

from dataclasses import dataclass

from gregorio_chant._native.results import Kind

_SCORE = "name: Kyrie;\n%%\n(c4) "
_BEGUN, _BODY = "name: Kyrie;\n", "\n%%\n(c4) Ky(f)\n"


@dataclass(frozen=True)
class Rule:
    """A rule. `wrong` is a line that breaks it, and `right` one that does not, where `before`
    stands before and `after` after it."""

    name: str
    meaning: str
    wrong: str
    right: str
    before: str = _SCORE
    after: str = "\n"
    kind: Kind = Kind.WARNING

    def score_with(self, line: str) -> bytes:
        """Returns the whole score in which `line` stands."""
        return (self.before + line + self.after).encode()


_ALL = (
    Rule(
        "outside-staff",
        (
            "A note, a sign or a custos is higher than the staff allows: more than three steps"
            " above its top line (header staff-lines, or 4 lines). Look for a typing mistake."
        ),
        "Ky(fn)",
        "Ky(fm)",
    ),
    Rule(
        "bracket-in-attribute",
        (
            "An attribute or a spacing in brackets contains a ( or a ). Its ] may be missing:"
            " write it."
        ),
        "Ky(f[cs:a)ri(g])",
        "Ky(f[cs:a])ri(g)",
    ),
    Rule(
        "nabc-without-header",
        (
            "The notes have a |, but there is no header nabc-lines. Write one, such as nabc-lines:"
            " 1;. This message replaces the E1 of each character after the |."
        ),
        "%%\n(c4) Ky(f|pu) ri(gh|pe)",
        "nabc-lines: 1;\n%%\n(c4) Ky(f|pu) ri(gh|pe)",
        _BEGUN,
        kind=Kind.ERROR,
    ),
    Rule(
        "comment",
        (
            "The score has a comment, and the canonical form keeps none. This rule is tried only if"
            " the settings ask for the canonical form, or if --select names it. Write the comment"
            " into a header, such as user-notes."
        ),
        "Ky(f) % by hand",
        "Ky(f)",
    ),
    Rule(
        "asterisk-without-bar",
        (
            "An asterisk marks the entry of the choir. This one has no bar, but there is one after"
            " the next word: look whether they belong together."
        ),
        "Ky(f)ri(g)e(h) *() e(f)lé(g) (,) i(f)",
        "Ky(f)ri(g)e(h) *(,) e(f)lé(g) (,) i(f)",
    ),
    Rule(
        "clef-off-staff",
        (
            "A clef is on a line that the staff does not have (header staff-lines, or 4 lines)."
            " Look for a typing mistake."
        ),
        "(c5) Ky(f)",
        "(c4) Ky(f)",
        before="name: Kyrie;\n%%\n",
    ),
    Rule(
        "unknown-mode",
        "The header mode begins with a number other than 1 to 8. Look for a typing mistake.",
        "mode: 9;",
        "mode: 6;",
        _BEGUN,
        _BODY,
    ),
    Rule(
        "mode-without-number",
        (
            "The header mode has words or a Roman number. GregorioTeX needs 1 to 8 there. Write"
            " that, and the Roman number as an annotation."
        ),
        "mode: VII;",
        "mode: 7;",
        _BEGUN,
        _BODY,
    ),
    Rule(
        "misspelled-header",
        (
            "The name of a header is nearly one of GregorioTeX's. An unknown header is kept, and"
            " does nothing: correct the name."
        ),
        "moed: 7;",
        "mode: 7;",
        _BEGUN,
        _BODY,
    ),
    Rule(
        "blank-before-notes",
        (
            "There is a blank between a word and the ( of its notes. GregorioTeX sets it as part of"
            " the text. Remove it."
        ),
        "Ky (f)ri(g)",
        "Ky(f)ri(g)",
    ),
    Rule(
        "late-punctuation",
        (
            "A comma or another sign of punctuation follows the notes of its word. Write it before"
            " their (."
        ),
        "Ky(f)ri(g)e(h), (;)",
        "Ky(f)ri(g)e,(h) (;)",
    ),
    Rule(
        "missing-blank",
        (
            "A syllable ends with punctuation, and a letter follows its notes directly. So both are"
            " one word: write a blank after the )."
        ),
        "me,(f)et(g)",
        "me,(f) et(g)",
    ),
    Rule(
        "bar-as-text",
        (
            "A ; or another sign of a bar is in a text, and would be sung. Write a bar with ( and )"
            " around it."
        ),
        "me(f) ; et(g)",
        "me(f) (;) et(g)",
    ),
    Rule(
        "typed-hyphen",
        (
            "A syllable ends with a hyphen. GregorioTeX writes hyphens between syllables by itself."
            " Remove it."
        ),
        "Ky-(f)ri-(g)e(h)",
        "Ky(f)ri(g)e(h)",
    ),
    Rule(
        "html-entity",
        (
            "A text has the name of a character in HTML. It is kept letter for letter: write the"
            " character itself."
        ),
        "D&oacute;(f)mi(g)",
        "D\u00f3(f)mi(g)",
    ),
    Rule(
        "syllable-without-notes",
        (
            "A syllable within a word has letters, and no notes. Write its notes, or join it to the"
            " next syllable."
        ),
        "De()us(f)",
        "De(g)us(f)",
    ),
    Rule(
        "notes-in-translation",
        "A translation in [ and ] is within a word, and looks like notes. Write notes in ( and ).",
        "D\u00f3[hi]mi(f)ne(g)",
        "D\u00f3(hi)mi(f)ne(g)",
    ),
    Rule(
        "unused-alteration",
        (
            "No note at the pitch of a flat, a natural or a sharp follows in its word, before the"
            " next clef or bar. Write it before the note that it alters."
        ),
        "De(hiix)us(h)",
        "De(hixi)us(h)",
    ),
    Rule(
        "second-score-line",
        (
            "The score has a line %%, which is only a comment there. Remove it, or split two scores"
            " into two files."
        ),
        "Ky(f)\n%%\nri(g)",
        "Ky(f)\nri(g)",
    ),
    Rule(
        "lone-capital",
        (
            "A capital pitch, which is a punctum inclinatum, is alone among notes with small"
            " letters. It may be a typing mistake. If it is right, silence the message by a"
            " comment."
        ),
        "Ky(f)ri(G)e(h)",
        "Ky(f)ri(g)e(h)",
    ),
    Rule(
        "unknown-special",
        (
            "The text between <sp> and </sp> is none of GregorioTeX's own special characters. Look"
            " for a typing mistake, or define it there."
        ),
        "<sp>Rx</sp>(::)",
        "<sp>R/</sp>(::)",
    ),
    Rule(
        "unused-ignore",
        (
            "A comment silences a code that has no message on its line, or in the score. Remove the"
            " code, or look for a mistake in it."
        ),
        "<it>Ky</it>(f) % gregorio: ignore W6, W7, comment",
        "<it>Ky</it>(f) % gregorio: ignore W6, comment",
    ),
)
RULES: dict[str, Rule] = {it.name: it for it in _ALL}
