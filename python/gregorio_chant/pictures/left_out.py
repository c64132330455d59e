"""What of a score stands in no picture."""
from __future__ import annotations

import re

from gregorio_chant._native.node_kinds import NodeKind
from gregorio_chant.objects.score import Score
from gregorio_chant.report.reports import counted

_LENGTH = r"-?[0-9]*\.?[0-9]+(?:mm|cm|pt|bp|in|ex|em)"
# The attributes that the library draws (GregorioRef, *Choral Signs*, *Braces*, *Custom Ledger
# Lines*, *Simple Slurs*, *Above Lines Text Within Notes*).
_DRAWN = re.compile(
    rf"nocustos|[ou](?:slur|b|cb|cba):[012](?:;{_LENGTH}(?:,{_LENGTH})?|[{{}}])"
    rf"|[ou]ll:(?:[01]|{_LENGTH});{_LENGTH}|(?:cs|alt):.*",
    re.DOTALL,
)


def not_drawn(score: Score) -> str:
    """Returns a note on what is not drawn of a score; nothing if all is."""
    tree = score.tree
    given = (it.kept[1:-1] for it in tree.of_kind(NodeKind.ATTRIBUTE))
    attributes = sum(_DRAWN.fullmatch(it) is None for it in given)
    # Raw TeX is a raw part of the kind 0.
    raw = sum(it.b == 0 for it in tree.of_kind(NodeKind.RAW))
    things = [counted(attributes, "attribute")] if attributes else []
    things += [f"{counted(raw, 'part')} of raw TeX"] if raw else []
    return f"Not drawn: {' and '.join(things)}." if things else ""
