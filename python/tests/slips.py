"""Slips of the pen: where each can be planted in a score, what is told of it, and what its repair
makes."""
from __future__ import annotations

import re
from collections.abc import Iterator
from dataclasses import dataclass

# A score in which nothing is found, and each slip can be planted.
SCORE = (
    "name: Asperges me;\noffice-part: Antiphona;\nmode: 7;\nannotation: Ant.;\nannotation:"
    " VII;\n%%\n(c3) A(e)spér(eh)ges(hh) me,(h.) *(,) Dó(hi)mi(h)ne,(h.) (;) hys(h)só(j)po,(ji..)"
    " (:)\net(h) mun(hh)dá(ij)bor:(h.) la(f)vá(h)bis(g') me,(f.) (;)\net(f) su(h)per(g)"
    " ni(f)vem(gf) <i>de</i>(e)al(fe)bá(e.f!gwh)bor.(e.) <sp>V/</sp>.(::)\nMi(e)se(eh)ré(hjh)re(h>)"
    " me(hv)i,(ixhi) De(h)us(h.) (::)\n"
)
BACK, STAYS = "back", "stays"


@dataclass(frozen=True)
class Slip:
    """A slip: `right` is a pattern of what it is made of, `wrong` what stands there then. `code` is
    told of it in `SCORE`, nothing where none is; its help, or the text of its rule, holds `help`.
    Guesses bring the score `BACK`, or it `STAYS` as it is; another text is what they write for
    `wrong`. The pattern has to match in `SCORE` once, or else its first place counts."""

    right: str
    wrong: str
    code: str | None = None
    help: str = ""
    repaired: str = STAYS

    def planted(self, score: str) -> Iterator[str]:
        """Yields the score with this slip, at each place where it can stand."""
        for it in re.finditer(self.right, score, re.MULTILINE):
            made = score[: it.start()] + it.expand(self.wrong) + score[it.end() :]
            if made != score:
                yield made


_WORD = r"(?<=[^\W\d])"
SLIPS = (
    # Headers.
    Slip(r"^mode: ?(\d);", r"mode: \1,", "F3", "ends with , and not with ;", BACK),
    Slip(r"^mode: ?(\d);", r"mode: \1:", "F3", "ends with : and not with ;", BACK),
    Slip(r"^mode: ?(\d);", r"mode: \1", "F3", "lacks its ;", BACK),
    Slip(r"^name: ?([^;]*);", r"name: \1", "F3", "lacks its ;", BACK),
    Slip(r"^mode: ?(\d);", r"mode - \1;", "E4", "write 'mode: 7;'", BACK),
    Slip(r"^mode: ?(\d);", r"mode \1;", "E4", "write 'mode: 7;'", BACK),
    Slip(r"^mode: ?(\d);", r"mode; \1;", "E4", "write 'mode: 7;'", BACK),
    Slip(r"^mode: ?(\d);", r"mode = \1;", "E4", "write 'mode: 7;'", BACK),
    Slip(r"^mode: ?(\d);", r": \1;", "E4", "there is no name before the colon"),
    Slip(r"^mode: ?7;", "mode: VII;", "mode-without-number", "write mode: 7;", BACK),
    Slip(r"^mode: ?\d;", "mode: seven;", "mode-without-number", "write one of 1 to 8"),
    Slip(r"^mode: ?\d;", "mode: 9;", "unknown-mode", "modes go from 1 to 8"),
    Slip(r"^mode: ?(\d);", r"moed: \1;", "misspelled-header", "did you mean mode?", BACK),
    Slip(r"^office-part:", "ofice-part:", "misspelled-header", "did you mean office-part?", BACK),
    Slip(r"^annotation:", "anotation:", "misspelled-header", "did you mean annotation?", BACK),
    Slip(r"^name:", "nmae:", "misspelled-header", "did you mean name?", BACK),
    Slip(r"^name:.*\n", "", "W1", "write name: ..; before the %%"),
    Slip(r"^(mode:.*\n)", r"\1\1", "W2", "remove one of them"),
    Slip(r"^%%\n", " %%\n", "F3", "remove the blank before it", BACK),
    Slip(r"^%%\n", "\t%%\n", "F3", "remove the blank before it", BACK),
    Slip(r"^%%\n", "%\n", "F3", "write a line %% before the first line of the score"),
    Slip(r"^%%\n", "", "F3", "write a line %% before the first line of the score"),
    Slip(r"\A", "Just a text file\n", "E4", "a header is name: value;"),
    Slip(r"\A", "<!DOCTYPE html>\n<html>\n<body>\n", "E4", "this is a web page"),
    # Clefs and bars.
    Slip(r"^\(c(\d)\)", r"(C\1)", "W12", "is no clef: write c3", BACK),
    Slip(r"^\(c(\d)\)", r"(\1c)", "E1", "is no clef: write c3", BACK),
    Slip(r"^\(c(\d)\)", r"(cl\1)", "E1", "is no clef: write c3", BACK),
    Slip(r"^\(c\d\)", "(c6)", "E1", "is no clef: write c or f and its line"),
    Slip(r"^\(c\d\)", "(g2)", "E1", "is no clef: write c or f and its line"),
    Slip(r"^\(c\d\) ", "", "W12", "write a clef"),
    Slip(r"^\(c\d\)", "()", "W12", "write a clef"),
    Slip(r"^\(c\d\)", "(c5)", "clef-off-staff", "needs a line 5"),
    Slip(r"\(::\)", "(||)", "E1", "a double bar is ::", BACK),
    Slip(r"\(::\)", "(| |)", "E1", "a double bar is ::", BACK),
    Slip(r" \(;\)", " ;", "bar-as-text", "did you mean the bar (;)?"),
    Slip(r"\*\(,\)", "*()", "asterisk-without-bar", "no bar follows this asterisk"),
    # Lost brackets, and brackets too many.
    Slip(
        _WORD + r"\((?=[a-m]{2}\)\w)", "", "E2", "a ( is missing before it, probably at 7:14", BACK
    ),
    Slip(_WORD + r"\((?=[a-m]\)\w)", "", "E2", "a ( is missing before it", BACK),
    Slip(_WORD + r"\((?=[a-m]+'?\.?\) )", "", "E2", "a ( is missing before it", BACK),
    Slip(
        _WORD + r"\((?=[a-m]{2}\)\w)", "9", "E2", "a ( is missing before it, probably at 7:14", BACK
    ),
    Slip(
        _WORD + r"\((?=[a-m]{2}\)\w)", "8", "E2", "a ( is missing before it, probably at 7:14", BACK
    ),
    Slip(r"\((?=[a-m]\.\) )", "", "E2", "a ( is missing before it", BACK),
    Slip(_WORD + r"\((?=[a-m]~?>\))", "", "E2", "a ( is missing before it", BACK),
    Slip(r"(?<= )\((?=[,;]\))", "", "E2", "a ( is missing before it", BACK),
    Slip(
        r"(\([a-m]{2})\)(?=\w)",
        r"\1",
        "E1",
        "lacks its ): did you mean 'A(e)spér(eh)ges(hh)'?",
        BACK,
    ),
    Slip(r"(\([a-m])\)(?=\w)", r"\1", "E1", "lacks its )", BACK),
    Slip(r"(\([a-m])\)(?=\w)", r"\g<1>0", "E1", "lacks its )", BACK),
    Slip(r"(\([a-m]+'?\.?)\) ", r"\1 ", "E1", "lacks its )", BACK),
    Slip(r"(\([,;:])\) ", r"\1 ", "E1", "lacks its )", BACK),
    Slip(r"\)(?=\n\Z)", "", "F6", "is not closed: write )", BACK),
    Slip(_WORD + r"\((?=[a-m]\))", "((", "E1", "is doubled: remove one of them", BACK),
    Slip(_WORD + r"(\([a-m]\))", r"\1)", "E2", "remove this one"),
    Slip(
        _WORD + r"\(([a-m]{2})\)(?=\w)", r"[\1]", "notes-in-translation", "did you mean (eh)?", BACK
    ),
    Slip(_WORD + r"\(([a-m]{2})\)(?=\w)", r"{\1}"),
    Slip(_WORD + r"\(([a-m]{2})\)(?=\w)", r"<\1>", "W6", "there is no tag"),
    Slip(_WORD + r"\(([a-m]{2})\)(?=\w)", r"(\1]", "E1", "lacks its )"),
    Slip(
        _WORD + r"\(([a-m]{2})\)(?=\w)",
        "()",
        "syllable-without-notes",
        "has no notes within its word",
    ),
    # Notes.
    Slip(r"\([a-m]\)", "(q)", "E1", "is no pitch"),
    Slip(r"\([a-m]\)", "(o)", "E1", "is no pitch"),
    Slip(r"\([a-m]\)", "(h5)", "E1", "is no sign of the note before it"),
    Slip(r"\([a-m]\)", "(h&)", "E1", "is no note and no sign"),
    Slip(r"\([a-m]\)", "(-)", "E6", "needs a note after it"),
    Slip(r"\([a-m]\)", "(n)", "outside-staff", "is outside a staff of 4 lines"),
    Slip(_WORD + r"\(h\)", "(H)", "lone-capital", "did you mean h?"),
    Slip(r"\(h\)", "(hs)", None),
    Slip(r"\(hi\)", "(h i)", None),
    Slip(r"\(([a-m])[a-m]\)", r"(\1o)", None),
    Slip(r"\(([a-m])([a-m])\)", r"(\1Z\2)", None),
    Slip(r"\(([a-m])\.\)", r"(\1,)", None),
    Slip(
        r"\(ix([a-m]+)\)", r"(\1ix)", "unused-alteration", "write it before the note that it alters"
    ),
    Slip(r"\(ix(?=[a-m]+\))", "(jx", "unused-alteration", "no note at j follows"),
    Slip(r"(!)([a-m])w", r"\1w\2", "E1", "is no pitch"),
    Slip(r"(?<=[a-m])'(?=\))", "’", "E1", "typographic apostrophe", BACK),
    Slip(r"(?<=[a-m])'(?=\))", "´", "E1", "typographic apostrophe", BACK),
    Slip(r"\(([a-m])\.\)", r"(\1[ll:1].)", "E1", "write it before the [", "(h.[ll:1])"),
    Slip(r"\(([a-m]\.)\)", r"(\1[ll:1)", "F6", "is not closed: write ]"),
    Slip(r"\(([a-m]{2})\)", r"(@[\1)", "W10", "is not closed"),
    Slip(r"\(([a-m]{2})\)", r"(\1[nm1])", "W8", "write the header def-m1"),
    Slip(
        r"\(([a-m]{2})\)", r"(\1|vi)", "nabc-without-header", "Write nabc-lines: 1; before the %%"
    ),
    # Texts.
    Slip(r"<i>([^<]*)</i>", r"<i>\1<i>", "W3", "write </i> if it ends here"),
    Slip(r"<i>([^<]*)</i>", r"<i>\1", "W3", "ends with the text of its syllable"),
    Slip(r"<i>([^<]*)</i>", r"\1</i>", "W3", "closes no style that is open"),
    Slip(r"<i>([^<]*)</i>", r"i>\1</i>", "E2", "look for a missing <"),
    Slip(r"<i>([^<]*)</i>", r"<i>\1/i>", "E2", "look for a missing <"),
    Slip(r"<i>([^<]*)</i>", r"<i\1</i>", "W6", "there is no tag", BACK),
    Slip(r"<i>([^<]*)</i>", r"<it>\1</it>", "W6", "did you mean <i>?"),
    Slip(r"<i>([^<]*)</i>", r"<em>\1</em>", "W6", "is a tag of HTML: write <i>", BACK),
    Slip(r"<sp>V/</sp>", "<sp>V/<sp>", "F6", "write </sp>"),
    Slip(r"<sp>V/</sp>", "V/</sp>", "W6", "</sp> closes nothing", "V/"),
    Slip(r"<sp>V/</sp>", "<sp>Vx</sp>", "unknown-special", "is none of GregorioTeX's", BACK),
    Slip(r"<sp>V/</sp>", "<spV/</sp>", "W6", "there is no tag", BACK),
    Slip(r"(?<=\w)(?=\([a-m]+\) )", "<br>", "W6", "is a tag of HTML: remove it", BACK),
    Slip(r"ó(?=\()", "&oacute;", "html-entity", "write ó", BACK),
    Slip(r"é(?=\w*\()", "&#233;", "html-entity", "write é", BACK),
    Slip(r"(?<=\w)(?=\([a-m]+\)\w)", "-", "typed-hyphen", "leave it out"),
    Slip(_WORD + r",(\([a-m]+\.*\)) ", r"\1, ", "late-punctuation", "write it before their ("),
    Slip(_WORD + r"([,.:]\([a-m]+\.*\)) (?=[a-z])", r"\1", "missing-blank", "so both are one word"),
    Slip(_WORD + r"(\([a-m]+\)) (?=[a-z])", r"\1", None),
    Slip(r"(?<=[\W])(\w+\([a-m]+\))(?=\w)", r"\1\1", None),
    Slip(r"(?<= )(\w+)(\([a-m]+v?\))(\w)", r"\2\1\3", None),
    Slip(r"(?<=\w)(?=\([a-m]\))", "{", "W4", "is not closed"),
    Slip(r"(?<=\w)(?=\([a-m]\))", "[Lord][God]", "W5", "put both into one pair of brackets"),
    Slip(r"(?<=\w)(?=\([a-m]\))", "]", "E2", "look for a missing ["),
    Slip(
        r"(?<=\w)(?=\([a-m]\))",
        " ",
        "blank-before-notes",
        "there is a blank between a word and its notes",
    ),
    Slip(r"\n(?=et)", "\n%%\n", "second-score-line", "is a comment"),
    Slip(r"\(::\)\n\Z", "(::) et\n", "W9", "has no notes"),
)
