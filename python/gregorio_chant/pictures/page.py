"""A page of HTML with pictures, their messages and sources, and an index of pages. A page needs
no script, and asks for no address."""
from __future__ import annotations

import base64
import hashlib
import json
import os
from collections import Counter
from collections.abc import Iterable, Iterator, Sequence
from dataclasses import dataclass, field
from html import escape
from pathlib import Path

from gregorio_chant._native.results import Kind
from gregorio_chant.objects.sounds import TICKS, Sound
from gregorio_chant.pictures.alone import STYLE as PICTURE_STYLE
from gregorio_chant.pictures.drawing import Picture
from gregorio_chant.pictures.shown import shown
from gregorio_chant.report.reports import Checked, summary_of

# How pictures look in a page.
CHANT_STYLE = (
    PICTURE_STYLE
    + """
.chant{display:block;max-width:100%;height:auto;margin:auto}
.chant .now{fill:#e60;fill-opacity:.55}
@media(prefers-color-scheme:dark){
.chant{color:#ddd}.chant .paper{fill:#161616}.chant .staff{fill:#c65}.chant .red,.chant .code{fill:#f88}
.chant .mark{fill:#f66;stroke:#f66}.chant .mark.w{fill:#db6;stroke:#db6}}
@media print{.chant{color:#000}.chant .paper{fill:#fff}}
"""
)
STYLE = (
    CHANT_STYLE
    + """
:root{color-scheme:light dark}
body{margin:0 auto;padding:1rem;max-width:60rem;font:1rem/1.5 sans-serif;color:#111;background:#fff}
h1{font-size:1.4rem}h2{font-size:1.1rem;overflow-wrap:anywhere}
section{border-top:1px solid #8888;margin-top:2rem}
.messages{padding-left:2.5rem;overflow-wrap:anywhere}.help{display:block;opacity:.8}
.kind{font-weight:bold}.error,.fatal{color:#a00}.warning{color:#750}
a{color:#048}:target{outline:2px solid #06c;outline-offset:2px}
pre{overflow-x:auto;font-size:.85rem;line-height:1.4}
pre span{display:block;padding-left:4.5em;text-indent:-4.5em;white-space:pre-wrap;overflow-wrap:anywhere}
pre span::before{content:attr(data-n);display:inline-block;width:3.5em;margin-right:1em;text-align:right;text-indent:0;opacity:.6}
table{border-collapse:collapse;margin-bottom:1.5rem}td,th{text-align:left;padding:.2rem .8rem .2rem 0;vertical-align:top}td{overflow-wrap:anywhere}td.n,th.n{text-align:right}
.sing input{vertical-align:middle}
.narrow{display:none}
@media(max-width:36rem){.wide{display:none}.narrow{display:revert}.picture{overflow-x:auto}
.index tr{display:flex;flex-wrap:wrap;border-top:1px solid #8888}.index td{padding:.1rem .6rem .1rem 0}.index tr:first-child{display:none}
.index td:nth-child(-n+2){flex-basis:100%}.index .n:nth-child(3)::before{content:"errors "}.index .n:nth-child(4)::before{content:"warnings "}}
@media(prefers-color-scheme:dark){body{color:#ddd;background:#161616}a{color:#8bf}.error,.fatal{color:#f88}.warning{color:#db6}}
@media print{details,.back,.sing,.messages .way,.messages .wide,.messages .narrow,.picture.narrow{display:none}.picture.wide{display:block}.messages a{color:inherit;text-decoration:none}body{max-width:none;padding:0;color:#000;background:#fff}section{break-inside:avoid-page}}
"""
)
# How wide a picture for narrow screens is, in pixels.
NARROW = 360.0
# The most bytes of a score that is drawn while it is written, in a browser or an editor.
MOST_BYTES = 1_000_000
_POLICY = "default-src 'none'; style-src 'unsafe-inline'; base-uri 'none'; form-action 'none'"


def text(it: str) -> str:
    """Returns text as it stands in HTML, within an element or an attribute."""
    return escape(shown(it))


@dataclass(frozen=True)
class Shown:
    """A score on a page: what was found in it, its picture, and what begins its ids. `narrow` is a
    picture for narrow screens; the browser chooses."""

    checked: Checked
    name: str
    picture: Picture
    source: str
    prefix: str = ""
    narrow: Picture | None = None
    with_messages: bool = True
    sounds: Sequence[Sound] = ()


@dataclass
class Entry:
    """A line of an index: `address` leads to the page of the score, `title` is its name header."""

    name: str
    title: str
    address: str
    kinds: Counter[Kind] = field(default_factory=Counter)
    codes: Counter[str] = field(default_factory=Counter)

    @property
    def rank(self) -> tuple[int, int, int, str]:
        """What comes first is less: fatal faults, then errors, then warnings."""
        return (
            -self.kinds[Kind.FATAL],
            -self.kinds[Kind.ERROR],
            -self.kinds[Kind.WARNING],
            self.name,
        )


# The script by which a page sings.
SINGER = Path(__file__).with_name("sing.js").read_text(encoding="utf-8")


def _hash_of(script: str) -> str:
    """Returns how a policy names a script that it lets run."""
    return f"'sha256-{base64.b64encode(hashlib.sha256(script.encode()).digest()).decode()}'"


def sing_panel(sounds: Iterable[Sound], prefixes: str) -> str:
    """Returns the button and the slider by which a score is sung, whose pictures have these
    prefixes."""
    notes = json.dumps(notes_of(sounds), separators=(",", ":"))
    return (
        f'<p class="sing" data-prefixes="{escape(prefixes)}" data-sounds="{escape(notes)}"'
        ' hidden><button type="button">Sing</button> <label>Notes a minute <input type="range"'
        ' min="60" max="240" value="140"></label></p>\n'
    )


def notes_of(sounds: Iterable[Sound]) -> list[tuple[int, int, int | None, float]]:
    """Returns sounds as the script takes them: number of the syllable, number of the note in it,
    key, and how many notes long."""
    return [(it.syllable, it.note, it.key, it.ticks / TICKS) for it in sounds]


def head(title: str, *, sings: bool = False) -> str:
    """Returns a page up to its body. Its policy lets no script run, but the one that sings, if it
    does."""
    policy = f"{_POLICY}; script-src {_hash_of(SINGER)}" if sings else _POLICY
    return (
        '<!DOCTYPE html>\n<html lang="en">\n<head>\n<meta charset="utf-8">\n<meta'
        f' http-equiv="Content-Security-Policy" content="{policy}">\n'
        '<meta name="viewport" content="width=device-width,'
        f' initial-scale=1">\n<title>{text(title)}</title>\n<style>{STYLE}</style>\n</head>\n<body>\n'
    )


FOOT = "</body>\n</html>\n"


def _foot(*, sings: bool) -> str:
    return f"<script>{SINGER}</script>\n{FOOT}" if sings else FOOT


def leading_to(address: str) -> str:
    """Returns a page that leads a browser to another one: what opens a file for a browser often
    drops the place in it."""
    to = escape(address)
    return (
        '<!DOCTYPE html>\n<html lang="en">\n<meta charset="utf-8">\n<meta http-equiv="refresh"'
        f' content="0;url={to}">\n<title>The picture</title>\n<p><a href="{to}">The'
        " picture</a></p>\n</html>\n"
    )


def list_of_messages(score: Shown) -> Iterator[str]:
    """Yields the list of messages: each leads into the picture and to its line, and the picture
    leads to it."""
    if not score.checked.messages:
        yield "<p>Nothing was found.</p>\n"
        return
    yield '<ol class="messages">\n'
    for number, (message, help) in enumerate(score.checked.helped(), 1):
        link = "".join(_links(score, number))
        line = f'<a href="#{score.prefix}l{message.line}">{message.line}:{message.column}</a>'
        told = (
            '<span class="kind'
            f' {message.kind.value}">{message.kind.value} {text(message.code)}</span>:'
            f" {text(message.text)}"
        )
        more = f'<span class="help">{text(help)}</span>' if help else ""
        yield f'<li id="{score.prefix}m{number}">{line} {told}{link}{more}</li>\n'
    yield "</ol>\n"


def _links(score: Shown, number: int) -> Iterator[str]:
    """Yields the links from a message into the pictures."""
    kinds = (
        ((' class="way"', score.picture),)
        if score.narrow is None
        else ((' class="wide"', score.picture), (' class="narrow"', score.narrow))
    )
    for kind, picture in kinds:
        place = picture.places.get(number)
        if place:
            yield f' <a{kind} href="#{place}">in the picture</a>'


def _source(score: Shown) -> Iterator[str]:
    """Yields the lines of the source, with that after the last one where a message stands there."""
    lines = score.source.split("\n")
    if not lines[-1] and all(it.line < len(lines) for it in score.checked.messages):
        lines.pop()
    yield "<details><summary>Source</summary>\n<pre>"
    for number, line in enumerate(lines, 1):
        yield f'<span id="{score.prefix}l{number}" data-n="{number}">{text(line)}</span>'
    yield "</pre>\n</details>\n"


def section(score: Shown) -> Iterator[str]:
    """Yields the part of a page that a score has."""
    yield f"<section>\n<h2><bdi>{text(score.name)}</bdi></h2>\n"
    yield f'<div class="picture{"" if score.narrow is None else " wide"}">\n'
    yield from score.picture.pieces
    yield "</div>\n"
    if score.narrow is not None:
        yield '<div class="picture narrow">\n'
        yield from score.narrow.pieces
        yield "</div>\n"
    if score.sounds:
        yield sing_panel(
            score.sounds,
            score.prefix if score.narrow is None else f"{score.prefix} {score.prefix}n-",
        )
    if score.with_messages:
        yield from list_of_messages(score)
    yield from _source(score)
    yield "</section>\n"


def page_of(scores: Sequence[Shown], title: str, note: str = "", back: str = "") -> Iterator[str]:
    """Yields a page with scores; `back` is the address of its index."""
    sings = any(it.sounds for it in scores)
    yield head(title, sings=sings)
    if back:
        yield f'<p class="back"><a href="{escape(back)}">All scores</a></p>\n'
    else:
        yield f"<h1>{text(title)}</h1>\n"
    for score in scores:
        yield from section(score)
    yield f"<p>{text(note)}</p>\n{_foot(sings=sings)}" if note else _foot(sings=sings)


def _common_folder(names: Sequence[str]) -> str:
    """Returns the folder that all names begin with, with its last `/`; nothing if there is none."""
    common = (
        os.path.commonprefix([it.rpartition("/")[0] + "/" for it in names if "/" in it])
        if all("/" in it for it in names)
        else ""
    )
    return common[: common.rfind("/") + 1]


def index_of(entries: Sequence[Entry], failed: int) -> Iterator[str]:
    """Yields an index: scores with errors first, and how often each code was found."""
    kinds = sum((it.kinds for it in entries), Counter[Kind]())
    codes = sum((it.codes for it in entries), Counter[str]())
    title = summary_of(len(entries), failed, kinds)
    yield head(title)
    yield f"<h1>{text(title)}</h1>\n"
    if codes:
        yield '<table>\n<tr><th>Code<th class="n">Found</tr>\n'
        yield from (
            f'<tr><td>{text(code)}<td class="n">{count:,}</tr>\n'
            for code, count in sorted(codes.items(), key=lambda it: (-it[1], it[0]))
        )
        yield "</table>\n"
    yield (
        '<table class="index">\n<tr><th>Score<th>Name<th class="n">Errors<th'
        ' class="n">Warnings<th>Codes</tr>\n'
    )
    common = _common_folder([it.name for it in entries])
    for it in sorted(entries, key=lambda it: it.rank):
        errors = it.kinds[Kind.ERROR] + it.kinds[Kind.FATAL]
        yield (
            "<tr><td><a"
            f' href="{escape(it.address)}"><bdi>{text(it.name[len(common) :])}</bdi></a><td><bdi>{text(it.title)}</bdi><td'
            f' class="n">{errors:,}<td'
            f" class=\"n\">{it.kinds[Kind.WARNING]:,}<td>{text(' '.join(sorted(it.codes)))}</tr>\n"
        )
    yield f"</table>\n{FOOT}"
