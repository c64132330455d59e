"""What may be typed next: the names of headers, tags, special characters, and codes of NABC with
their names."""
from __future__ import annotations

import re

from gregorio_chant._native.node_kinds import NodeKind
from gregorio_chant._native.nodes import Tree
from gregorio_chant._native.trees import tree
from gregorio_chant.server.document import Document
from gregorio_chant.server.protocol import Json, Params
from gregorio_chant.text.vocabulary import HEADERS, NABC_NAMES, SPECIALS, TAGS

_PROPERTY, _KEYWORD, _CONSTANT, _VALUE = 10, 14, 21, 12
# What may have been typed of a special character and of a tag, and what ends each: the name of no
# known tag ends with an x.
_SPECIAL, _SPECIAL_CLOSED = re.compile(r"<sp>([^<>(\n]*)"), "</sp>"
_TAG, _TAG_CLOSED = re.compile(r"</?[a-z]*"), "x>"
# What ends a comment, and then the notes.
_CLOSED = "\n)"
_CODE = re.compile(r"(?:^|[^a-z])(?:[a-z]{2})*([a-z]?)$")
TRIGGERS = ["<", ">", "|"]


def completion(document: Document, params: Params) -> Json:
    """Returns what may stand at this position, in the place of what has been typed of it."""
    offset = document.text.offset(params["position"].position())
    before = document.text.plain[:offset]
    made = tree(before)
    if NodeKind.SCORE_LINE not in made.kinds:
        return _headers(document, before)
    is_open = NodeKind.UNREAD in made.kinds
    if is_open:
        made = tree(before + _CLOSED)
    if _is_in_comment(made, len(before.encode("utf-8", "surrogatepass"))):
        return []
    if is_open and NodeKind.UNREAD not in made.kinds:
        return _in_notes(document, made, offset)
    return _in_text(document, before, offset)


def _is_in_comment(made: Tree, byte: int) -> bool:
    """Returns whether a comment goes up to this byte of a score."""
    return any(it.end == byte for it in made.of_kind(NodeKind.COMMENT))


def _item(
    document: Document, label: str, kind: int, detail: str, new: str, begin: int, end: int
) -> Json:
    edit = {"range": document.text.range(begin, end).to_json(), "newText": new}
    return {"label": label, "kind": kind, "detail": detail, "textEdit": edit}


def _headers(document: Document, before: str) -> Json:
    begin = before.rfind("\n") + 1
    line = before[begin:]
    if ":" in line or line.lstrip(" \t").startswith("%"):
        return []
    return [
        _item(document, it, _PROPERTY, meaning, f"{it}: ", begin, len(before))
        for it, meaning in HEADERS.items()
    ]


def _ends_with(text: str, kind: NodeKind) -> bool:
    """Returns whether the last node of a score is of this kind, and ends with it."""
    last = tree(text)[-1]
    return last.kind == kind and last.end == len(last.tree.source)


def _in_text(document: Document, before: str, end: int) -> Json:
    typed = before[max(before.rfind("<"), 0) :]
    special = _SPECIAL.fullmatch(typed)
    if special is not None and _ends_with(before + _SPECIAL_CLOSED, NodeKind.RAW):
        closing = "" if document.text.plain.startswith(_SPECIAL_CLOSED, end) else _SPECIAL_CLOSED
        begin = end - len(special[1])
        return [
            _item(document, it, _CONSTANT, "special character", it + closing, begin, end)
            for it in SPECIALS
        ]
    if not _TAG.fullmatch(typed) or not _ends_with(before + _TAG_CLOSED, NodeKind.TAG):
        return []
    slash = "/" if typed.startswith("</") else ""
    closing = "" if document.text.plain.startswith(">", end) else ">"
    return [
        _item(
            document,
            f"<{slash}{it}>",
            _KEYWORD,
            meaning,
            f"<{slash}{it}{closing}",
            end - len(typed),
            end,
        )
        for it, meaning in TAGS.items()
    ]


def _in_notes(document: Document, made: Tree, end: int) -> Json:
    """Returns the codes of NABC where a line of it stands."""
    snippet = made[made.kinds.rindex(NodeKind.SNIPPET)]
    code = _CODE.search(snippet.text.removesuffix("\n"))
    if snippet.a == 0 or code is None:
        return []
    begin = end - len(code[1])
    return [
        _item(document, it, _VALUE, name, it, begin, end)
        for it, name in NABC_NAMES.items()
        if it.startswith(code[1])
    ]
