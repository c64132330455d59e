"""Guesses where a lost bracket stood, by how likely a part of a text is one sung syllable, and how
likely it is notes. Patterns and frequencies are enough for a guess: the compiler reads what is made
of it, and the editor sees both readings."""
from __future__ import annotations

import re
import unicodedata
from collections import Counter
from collections.abc import Iterator
from dataclasses import dataclass
from math import log

from gregorio_chant._native.node_kinds import NodeKind
from gregorio_chant._native.nodes import Tree
from gregorio_chant.objects.item import PITCHES

# The most characters between a bracket and the one that may be lost.
_LONGEST = 80
_ENDS_WORD = " \t\n)("
# Keys beside those of brackets, which may be struck for one.
_RAW_OR_BAR = re.compile(r"\[[^\]]*\]|(?<=[,;:])[,;:?0-9]+")
_STRUCK_FOR_OPENER, _STRUCK_FOR_CLOSER = "89", "09"
# What is a sign in notes more often than the end of a syllable, or its begin.
_SIGNS = ("'", "!", "-", "_", ".", "~", *"0123456789")
_MARKUP = re.compile(r"<(v|alt)>.*?</\1>|<[^>\n]*>|[{}]", re.DOTALL)
_NOTES = re.compile(
    r"(?:-?[a-npA-NP](?:[vVsoOwWqrR=~<>.'_0-9!/@xy#`+"
    r" ]|-?[a-npA-NP]|\[[^\]\n]*\])*)?(?:[,;:`][,;:?'_0-9]*)?(?:z0?|Z|[a-m]\+)?|(?:c|f|cb|fb)[1-5]"
)
# Notes with neumes of NABC, which end at a blank.
_NABC = re.compile(r"[^|\s]*(?:\|[^|\s]+)+")
_ONSET = (
    "qu|ngu|chr|sch|scr|spr|str|thr|phr|phl|shr|[bcdfgkptv]r|[bcfgkps]l|[cgkprstw]h|g[nu]|kn|mn"
    "|p[nst]|s[cmnptqwuk]|tw|wr|[bcdfghjklmnpqrstvwxz]"
)
_NUCLEUS = "[aeiouyæœ]|ae|oe|au|eu|[aeo][eiouy]|ie|ou"
_CODA = (
    "[bcdfghklmnprstwxyz]|[lnr][bcdfgkpstxz]|[bcp]s|[cps]t|nct|n[cg]s|[cgst]h|ght|[fls]{2}|ck|nn"
    "|mm|wn|rn"
)
_SYLLABLE = re.compile(rf"({_ONSET})?({_NUCLEUS})({_CODA})?")
# How often a syllable of Latin ends so, among a thousand; one that is not here is rarer.
_CODAS = {
    "": 500,
    "s": 120,
    "m": 90,
    "n": 80,
    "t": 60,
    "r": 50,
    "l": 20,
    "nt": 20,
    "c": 15,
    "d": 12,
    "x": 8,
    "ns": 8,
    "b": 8,
    "nc": 6,
    "p": 5,
    "st": 4,
    "g": 3,
    "rs": 3,
    "ct": 3,
    "ps": 2,
    "f": 1,
    "h": 1,
}
# How often one begins so.
_ONSETS = {
    "": 150,
    "t": 90,
    "s": 80,
    "m": 70,
    "r": 70,
    "n": 65,
    "d": 60,
    "c": 50,
    "l": 50,
    "p": 50,
    "v": 50,
    "qu": 30,
    "b": 30,
    "f": 30,
    "g": 25,
    "h": 20,
    "j": 20,
    "tr": 15,
    "pr": 15,
    "st": 10,
    "cr": 8,
    "br": 8,
    "x": 6,
    "gr": 6,
    "gn": 6,
    "gu": 4,
    "gl": 4,
    "sp": 6,
    "sc": 6,
    "ch": 6,
    "pl": 5,
    "cl": 4,
}
# How often each pitch is written.
_PITCHES = dict(zip(PITCHES, (2, 3, 20, 70, 100, 150, 190, 200, 110, 80, 40, 20, 8, 0.3, 0.2)))
_RARE, _SIGN, _ONE_MORE, _DIPHTHONG = (
    log(0.0005),
    log(0.12),
    log(0.5),
    {"ae": 0.03, "oe": 0.01, "au": 0.02, "eu": 0.01, "æ": 0.03, "œ": 0.01},
)


@dataclass(frozen=True)
class Bracket:
    """A bracket that may be lost: at `offset` it is written in place of `old`, which is nothing or
    the key that was struck for it."""

    offset: int
    old: str
    new: str


class Weights:
    """How often each pitch is written in a score."""

    def __init__(self, tree: Tree) -> None:
        heights = Counter(tree.narrow[10 * it + 7] & 15 for it in tree.numbers_of(NodeKind.NOTE))
        total = heights.total() + 100
        self._of = {
            it: log((heights[height] + usual / 10) / total)
            for height, (it, usual) in enumerate(_PITCHES.items())
        }

    def notes(self, notes: str) -> float:
        """Returns the weight of notes."""
        bare = _RAW_OR_BAR.sub("", notes)
        return sum(self._of.get(it.lower(), _SIGN) + _ONE_MORE for it in bare) - _ONE_MORE * (
            not bare
        )


def lost_opener(text: str, closer: int, weigh: Weights) -> Bracket | None:
    """Returns where the `(` may have stood that belongs to the `)` at the offset `closer`."""
    begin = closer
    while begin > max(0, closer - _LONGEST) and text[begin - 1] not in _ENDS_WORD:
        begin -= 1
    head = text[begin:closer]
    if not head or text.startswith("(", closer + 1):
        return None
    found: list[tuple[float, Bracket]] = []
    for cut in range(len(head)):
        notes = head[cut:]
        if _NOTES.fullmatch(notes) is None:
            continue
        found += [
            (syllable + weigh.notes(notes), it)
            for syllable, it in _openers(head, cut, begin, text[closer + 1 : closer + 2])
        ]
    return max(found, key=lambda it: it[0])[1] if found else None


def _openers(head: str, cut: int, begin: int, after: str) -> Iterator[tuple[float, Bracket]]:
    if cut > 1 and head[cut - 1] in _STRUCK_FOR_OPENER and head[cut - 2].isalpha():
        syllable = _syllable(head[: cut - 1], after)
        if syllable is not None:
            yield syllable, Bracket(begin + cut - 1, head[cut - 1], "(")
    syllable = _syllable(head[:cut], after)
    if syllable is not None:
        yield syllable, Bracket(begin + cut, "", "(")


def lost_closer(text: str, opener: int, inner: int, weigh: Weights) -> Bracket | None:
    """Returns where the `)` may have stood that belongs to the `(` at the offset `opener`, before
    the next one at `inner`."""
    inside = text[opener + 1 : min(inner, opener + 1 + _LONGEST)]
    found: list[tuple[float, Bracket]] = []
    for cut in range(1, len(inside) + 1):
        is_nabc = _NABC.fullmatch(inside, 0, cut) is not None and inside[cut : cut + 1].isspace()
        if not is_nabc and _NOTES.fullmatch(inside, 0, cut) is None or inside[cut - 1] in " \t\n":
            continue
        struck = (
            inside[cut : cut + 1]
            if inside[cut : cut + 1] and inside[cut : cut + 1] in _STRUCK_FOR_CLOSER
            else ""
        )
        rest = inside[cut + len(struck) :]
        syllable = None if rest[:1] in _SIGNS else _rest(rest)
        if syllable is not None:
            found.append(
                (weigh.notes(inside[:cut]) + syllable, Bracket(opener + 1 + cut, struck, ")"))
            )
    return max(found, key=lambda it: it[0])[1] if found else None


def _rest(rest: str) -> float | None:
    """Returns the weight of what stands between lost notes and the next ones: a syllable, or the
    next word; a blank makes it likely."""
    word = rest.lstrip(" \t\n")
    is_apart = word != rest
    if not word:
        return log(0.5) if is_apart else None
    weights = [_syllable(it, "") for it in word.split()]
    if is_apart:
        return log(20) + (log(0.0005) if weights[-1] is None else weights[-1])
    return weights[-1]


def _syllable(text: str, after: str) -> float | None:
    """Returns the weight of a text as that of one syllable; nothing if it is none. `after` is the
    character after its notes."""
    plain = _bare(_MARKUP.sub("", text)).strip("0123456789.,;:!?'’\"*†-–()/ \t\n")
    if not plain:
        return log(0.02)
    found = _SYLLABLE.fullmatch(plain)
    if found is None:
        return log(0.0005) if "<sp>" in text else None
    onset, nucleus, coda = found[1] or "", found[2], found[3] or ""
    weight = log(0.01) if text[-1] in "'!-_~:" else 0.0
    weight += log(_ONSETS.get(onset, 1) / 1000) + log(_CODAS.get(coda, 0.5) / 1000)
    weight += log(0.15) if len(nucleus) == 1 else log(_DIPHTHONG.get(nucleus, 0.003))
    if coda and after.isalpha():
        weight += _joint(coda, _bare(after))
    return weight


def _joint(coda: str, after: str) -> float:
    """Returns the weight of a consonant before the next letter of its word: before a vowel it would
    begin that syllable, and f and h stand before their like."""
    if after in "aeiouyæœ":
        return log(0.05)
    return log(0.1) if coda in ("f", "h", "g", "t") and after != coda else 0.0


def _bare(text: str) -> str:
    return "".join(
        it for it in unicodedata.normalize("NFD", text) if not unicodedata.combining(it)
    ).lower()
