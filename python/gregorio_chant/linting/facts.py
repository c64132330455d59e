"""What can be said of the place of a message: the facts that the sentences of helps name. Each is a
function of the score and of the place, as an offset, and has a value or none."""
from __future__ import annotations

import re
import unicodedata
from collections.abc import Callable
from typing import Optional

from gregorio_chant._native.node_kinds import NodeKind
from gregorio_chant.linting.guesses import Bracket
from gregorio_chant.linting.slips import (
    NOTES,
    Subject,
    bars_for,
    clef_for,
    closing_bracket,
    meant_header,
    open_styles,
    opening_bracket,
    readings,
    struck_for_mark,
)
from gregorio_chant.text.nearest import nearest
from gregorio_chant.text.vocabulary import HTML_TAGS, NABC_CODES, TAGS

Fact = Callable[[Subject, int], Optional[str]]

_NAME = re.compile(r"</?([A-Za-z]+)")
_PAGE = re.compile(r"\s*<(?:!doctype|html|head|body|\?xml)\b", re.IGNORECASE)
_PART = re.compile(r"<(v|sp|alt)>|.?", re.DOTALL)
_RAW_ENDS = ("</v>", "</sp>", "</alt>")
_UNFINISHED = 106
_CLOSERS = {"(": ")", "[": "]", "<": ">"}
_LONGEST = 40


def named(text: str) -> str:
    """Returns a part of a score as a help names it: between quotes, or by its number where it is a
    character that cannot be seen."""
    if len(text) == 1 and (text.isspace() or not text.isprintable() or unicodedata.combining(text)):
        return f"the character U+{ord(text):04X}"
    shown = "".join(it if it.isprintable() else " " for it in text)
    return f"'{shown}'" if len(shown) <= _LONGEST else f"'{shown[:_LONGEST]}..'"


def _char(subject: Subject, at: int) -> str:
    return named(subject.text[at : at + 1])


def _node(subject: Subject, at: int) -> str | None:
    node = subject.node_at(at)
    return None if node is None else named(node.kept)


# ---- brackets


def _doubled(subject: Subject, at: int) -> str | None:
    opener = subject.unclosed(at)
    is_doubled = opener is not None and subject.text.startswith("((", opener)
    return subject.place(opener) if opener is not None and is_doubled else None


def _opener(subject: Subject, at: int) -> str | None:
    opener = subject.unclosed(at)
    return None if opener is None else subject.place(opener)


def _reading(subject: Subject, it: Bracket | None) -> str | None:
    """Returns how a text reads with a bracket that may be missing."""
    return None if it is None else named(readings(subject.text, [(it.offset, it.old, it.new)])[1])


def _closed(subject: Subject, at: int) -> str | None:
    return _reading(subject, closing_bracket(subject, at))


def _lost_opener(subject: Subject, at: int) -> str | None:
    it = opening_bracket(subject, at)
    return None if it is None else subject.place(it.offset)


def _opened(subject: Subject, at: int) -> str | None:
    return _reading(subject, opening_bracket(subject, at))


def _part(subject: Subject, at: int) -> str | None:
    part = _PART.match(subject.text, at)
    return None if part is None else part[0]


def _part_end(subject: Subject, at: int) -> str | None:
    part = _PART.match(subject.text, at)
    return (
        None if part is None else (f"</{part[1]}>" if part[1] else _CLOSERS.get(part[0], "its end"))
    )


# ---- notes


def _clef(subject: Subject, at: int) -> str | None:
    clef = clef_for(subject, at)
    return None if clef is None else named(clef.spelling)


def _clef_meant(subject: Subject, at: int) -> str | None:
    clef = clef_for(subject, at)
    return None if clef is None else clef.meant


def _double_bar(subject: Subject, at: int) -> str | None:
    bars = bars_for(subject, at)
    return None if bars is None else bars.spelling


def _end(subject: Subject, at: int) -> str | None:
    """Returns what was left out before the place, since it is unfinished, with what stands before
    it up to a blank. In what is not read it goes up to the place."""
    it = subject.syllable_at(at)
    if it is None:
        return None
    end = 0
    for node in subject.nodes_in(it.notes, at, NodeKind.LEFT_OUT):
        if node.a == _UNFINISHED or node.begin == end and not node.source.isspace():
            end = node.end
    past = subject.tree.places.counted(end) if end else at
    return named(re.split(r"[\s(|]", subject.text[it.notes : past])[-1])


def _pair(subject: Subject, at: int) -> str:
    return named(subject.text[max(at - 1, 0) : at + 1])


def _pair_meant(subject: Subject, at: int) -> str | None:
    turned = subject.text[max(at - 1, 0) : at + 1][::-1]
    return turned if turned in NABC_CODES else None


def _macro(subject: Subject, at: int) -> str:
    return f"def-m{subject.text[at + 3 : at + 4]}"


# ---- headers and lines


def _web_page(subject: Subject, at: int) -> str | None:
    page = _PAGE.match(subject.text)
    return None if page is None else page[0]


def _blank_score_line(subject: Subject, at: int) -> str | None:
    unread = subject.score_line
    return None if unread is None else str(subject.lines.place(unread.begin).line)


def _header_line(subject: Subject, at: int) -> str:
    return subject.line_from(at).strip(" \t")


def _without_colon(subject: Subject, at: int) -> str | None:
    line = _header_line(subject, at)
    return None if ":" in line else named(line)


def _header_meant(subject: Subject, at: int) -> str | None:
    meant = meant_header(_header_line(subject, at))
    return None if meant is None else named(meant)


def _name_length(subject: Subject, at: int) -> str | None:
    name = _header_line(subject, at).partition(":")[0].strip(" \t")
    return str(len(name.encode("utf-8", "replace"))) if name else None


def _value(subject: Subject, at: int) -> str:
    return named(_header_line(subject, at).partition(":")[2].partition(";")[0].strip(" \t"))


def _name(subject: Subject, at: int) -> str | None:
    header = subject.header_at(at)
    return None if header is None else named(header.name or "")


def _earlier_line(subject: Subject, at: int) -> str | None:
    header = subject.header_at(at)
    if header is None:
        return None
    same = [it for it in subject.parts.headers if it.name == header.name and it.begin < at]
    return str(subject.lines.place(same[-1].begin).line) if same else None


def _line(subject: Subject, at: int) -> str:
    return str(subject.lines.place(at).line)


def _line_at(subject: Subject, at: int) -> str:
    """Returns the line that holds this offset, without a comment."""
    return subject.lines.line(subject.lines.place(at).line).partition("%")[0].rstrip(" \t")


def _notes(subject: Subject, at: int) -> str | None:
    notes = NOTES.search(_line_at(subject, at))
    return None if notes is None else notes[0]


def _struck(subject: Subject, at: int) -> str | None:
    return struck_for_mark(_line_at(subject, at))


def _line_meant(subject: Subject, at: int) -> str:
    line = _line_at(subject, at)
    return named((line[:-1] if struck_for_mark(line) else line) + ";")


# ---- texts


def _tag(subject: Subject, at: int) -> str | None:
    return subject.tag_at(at) or None


def _tag_closing(subject: Subject, at: int) -> str | None:
    tag = subject.tag_at(at)
    return f"</{tag[1:]}" if tag and tag[1] != "/" else None


def _tag_opening(subject: Subject, at: int) -> str | None:
    tag = subject.tag_at(at)
    return f"<{tag[2:]}" if tag and tag[1] == "/" else None


def _long_tag(subject: Subject, at: int) -> str | None:
    tag = subject.tag_at(at)
    return tag if "(" in tag or "\n" in tag else None


def _word_of(subject: Subject, at: int) -> str | None:
    """Returns the word that the tag at this offset begins with, in small letters."""
    name = _NAME.match(subject.tag_at(at))
    return name[1].lower() if name else None


def _long_tag_word(subject: Subject, at: int) -> str | None:
    return _long_tag(subject, at) and _word_of(subject, at)


def _raw_end(subject: Subject, at: int) -> str | None:
    tag = subject.tag_at(at)
    return tag if tag in _RAW_ENDS else None


def _html_tag(subject: Subject, at: int) -> str | None:
    return named(subject.tag_at(at)) if _word_of(subject, at) in HTML_TAGS else None


def _html_tag_meant(subject: Subject, at: int) -> str | None:
    like = HTML_TAGS.get(_word_of(subject, at) or "")
    return f"<{_slash(subject, at)}{like}>" if like else None


def _slash(subject: Subject, at: int) -> str:
    """Returns the slash of the tag at this offset, if it closes."""
    return "/" if _tag_opening(subject, at) else ""


def _tag_meant(subject: Subject, at: int) -> str | None:
    tag = subject.tag_at(at)[1:-1].removeprefix("/")
    near = nearest(tag, TAGS)
    return f"<{_slash(subject, at)}{near}>" if near and near != tag else None


def _open_styles(subject: Subject, at: int) -> list[str]:
    it = subject.syllable_at(at)
    return open_styles(subject, it) if it else []


def _styles(subject: Subject, at: int) -> str:
    return "".join(f"<{it}>" for it in _open_styles(subject, at))


def _styles_closed(subject: Subject, at: int) -> str:
    return "".join(f"</{it}>" for it in reversed(_open_styles(subject, at)))


def _last_text(subject: Subject, at: int) -> str:
    it = subject.parts.syllables[-1] if subject.parts.syllables else None
    return named(subject.text[it.begin : it.end].strip() if it else "")


def _open_spans(subject: Subject, at: int) -> str:
    found = {it.name: None if it.closes else it.begin for it in subject.parts.span_marks()}
    return " and the ".join(
        f"<{name}> at {subject.place(begin)}" for name, begin in found.items() if begin is not None
    )


def _syllable(subject: Subject, at: int) -> str:
    it = subject.syllable_at(at)
    begin = it.notes if it is not None and it.notes < at else it.begin if it is not None else at
    return subject.place(begin)


# By the names that the table of helps gives them.
FACTS: dict[str, Fact] = {
    "char": _char,
    "node": _node,
    "doubled": _doubled,
    "opener": _opener,
    "closed": _closed,
    "lostOpener": _lost_opener,
    "opened": _opened,
    "clef": _clef,
    "clefMeant": _clef_meant,
    "doubleBar": _double_bar,
    "webPage": _web_page,
    "blankScoreLine": _blank_score_line,
    "withoutColon": _without_colon,
    "headerMeant": _header_meant,
    "nameLength": _name_length,
    "value": _value,
    "end": _end,
    "name": _name,
    "earlierLine": _earlier_line,
    "tag": _tag,
    "tagClosing": _tag_closing,
    "tagOpening": _tag_opening,
    "styles": _styles,
    "stylesClosed": _styles_closed,
    "longTag": _long_tag,
    "longTagWord": _long_tag_word,
    "rawEnd": _raw_end,
    "htmlTag": _html_tag,
    "htmlTagMeant": _html_tag_meant,
    "tagMeant": _tag_meant,
    "pair": _pair,
    "pairMeant": _pair_meant,
    "macro": _macro,
    "lastText": _last_text,
    "openSpans": _open_spans,
    "line": _line,
    "notes": _notes,
    "struck": _struck,
    "lineMeant": _line_meant,
    "syllable": _syllable,
    "part": _part,
    "partPlace": Subject.place,
    "partEnd": _part_end,
}
