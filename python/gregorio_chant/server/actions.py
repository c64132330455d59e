"""What an editor offers at a message: its repairs, all safe repairs, and to silence it."""
from __future__ import annotations

import os
from collections.abc import Iterator
from itertools import islice

from gregorio_chant._native.results import Kind, Message
from gregorio_chant.linting.finding import unsilenced
from gregorio_chant.linting.ignores import IGNORE
from gregorio_chant.linting.mending import Edit
from gregorio_chant.linting.repairing import How, has_safe_repair, proposals_for, repair, with_edits
from gregorio_chant.linting.rules import RULES
from gregorio_chant.objects.compiled import Compiled
from gregorio_chant.server.diagnostics import diagnostic, range_of
from gregorio_chant.server.document import Document
from gregorio_chant.server.protocol import Json, Params

# Of so many messages the repairs are looked for at one request.
_MOST_MESSAGES = 20
_QUICK = "quickfix"
FIX_ALL = "source.fixAll.gregorio-chant"
KINDS = [_QUICK, FIX_ALL]


def actions(document: Document, params: Params) -> Json:
    """Returns what can be done about the messages in a range, and about those that the editor
    names, of 20 messages at most. What would change the score otherwise than it says is not
    offered."""
    where, context = params["range"].range(), params["context"]
    only = [it.text() for it in context["only"].parts()] if context.has("only") else []
    named = (
        [it["range"].range() for it in context["diagnostics"].parts()]
        if context.has("diagnostics")
        else []
    )
    if not document.is_text:
        return []
    all_here = (
        it
        for it in document.messages
        if range_of(document, it).meets(where) or range_of(document, it) in named
    )
    here = list(islice(all_here, _MOST_MESSAGES))
    made: list[Json] = []
    if _is_wanted(_QUICK, only):
        made += [*_repairs(document, here), *_silences(document, here)]
    if _is_wanted(FIX_ALL, only) and has_safe_repair(
        document.subject, document.messages if only else here
    ):
        made += _all_repairs(document)
    return made


def _is_wanted(kind: str, only: list[str]) -> bool:
    """Returns whether a kind is one of those that alone are asked for, or one below them."""
    return not only or any(kind == it or kind.startswith(f"{it}.") for it in only)


def _action(
    document: Document, title: str, kind: str, edits: list[Json], message: Message | None = None
) -> dict[str, Json]:
    """Returns an action, with the message that it is about."""
    file = document.file
    if file.takes_versions:
        edit: Json = {
            "documentChanges": [
                {"textDocument": {"uri": file.uri, "version": document.version}, "edits": edits}
            ]
        }
    else:
        edit = {"changes": {file.uri: edits}}
    action: dict[str, Json] = {"title": title, "kind": kind, "edit": edit}
    if message is not None:
        help = document.helps[document.messages.index(message)]
        action["diagnostics"] = [diagnostic(document, message, help)]
    return action


def _edits(document: Document, edits: tuple[Edit, ...]) -> list[Json]:
    text = document.text
    return [
        {
            "range": text.range(it.offset, it.end).to_json(),
            "newText": it.new.replace("\n", text.line_end),
        }
        for it in edits
    ]


def _repairs(document: Document, messages: list[Message]) -> Iterator[Json]:
    """Yields an action for each repair; one that guesses says so, and shows both readings."""
    with_rules = document.file.with_rules and any(it.code in RULES for it in messages)
    for it in proposals_for(document.compiled, messages, with_rules, document.pause):
        title, edits = it.repair.meaning.rstrip("."), _edits(document, it.edits)
        if it.repair.is_safe:
            yield _action(document, title, _QUICK, edits, it.message) | {"isPreferred": True}
        else:
            yield _action(
                document, f"{title} ({it.line(document.text.plain)})", _QUICK, edits, it.message
            )


def _all_repairs(document: Document) -> list[Json]:
    """Returns the action that makes all safe repairs, and no guess; none if there is nothing to
    repair. Its edits are looked for when it is chosen, if the editor asks for them then."""
    title = "Make all safe repairs"
    if document.file.resolves_actions:
        return [{"title": title, "kind": FIX_ALL, "data": {"uri": document.file.uri}}]
    edits = _edits_of_all(document)
    return [_action(document, title, FIX_ALL, edits)] if edits else []


def _edits_of_all(document: Document) -> list[Json]:
    old = document.text.raw
    how = How(with_rules=document.file.with_rules, selection=document.file.selection)
    new = repair(document.compiled, how, document.pause).data.decode("utf-8", "surrogatepass")
    if new == old:
        return []
    begin = len(os.path.commonprefix([old, new]))
    end = len(os.path.commonprefix([old[begin:][::-1], new[begin:][::-1]]))
    where = document.text.raw_range(begin, len(old) - end)
    return [{"range": where.to_json(), "newText": new[begin : len(new) - end]}]


def resolved(document: Document, params: Params) -> Json:
    """Returns the action that makes all safe repairs, with its edits."""
    return _action(document, params["title"].text(), FIX_ALL, _edits_of_all(document))


# ---- to silence a message


def _silences(document: Document, messages: list[Message]) -> Iterator[Json]:
    """Yields for each code an action for its line and one for the score, where nothing else
    changes."""
    for code in dict.fromkeys(
        it.code for it in messages if it.kind is not Kind.FATAL and it.code != "unused-ignore"
    ):
        message = next(it for it in messages if it.code == code)
        for title, edit in _silencing(document, message):
            if _silences_alone(document, message, edit):
                yield _action(document, title, _QUICK, _edits(document, (edit,)), message)


def _silencing(document: Document, message: Message) -> Iterator[tuple[str, Edit]]:
    text, code = document.text.plain, message.code
    yield f"Silence {code} on this line", _comment_at(
        text, document.offset(message), "ignore", code
    )
    yield f"Silence {code} in this score", _comment_at(
        text, document.parts.score, "ignore-file", code
    )


def _comment_at(text: str, offset: int, word: str, code: str) -> Edit:
    """Returns the edit that names a code in the comment at the end of this line, or adds such a
    comment."""
    begin, end = text.rfind("\n", 0, offset) + 1, text.find("\n", offset)
    line = text[begin : len(text) if end < 0 else end].rstrip(" \t")
    spelled = line.encode("utf-8", "surrogatepass")
    found = [
        it
        for it in IGNORE.finditer(spelled)
        if it[1] == word.encode() and it.end() == len(spelled) and it[2].strip()
    ]
    return Edit(begin + len(line), "", f", {code}" if found else f" % gregorio: {word} {code}")


def _silences_alone(document: Document, message: Message, edit: Edit) -> bool:
    """Returns whether the message goes, no other one of the compiler comes, and the canonical form
    stays."""
    old = document.compiled
    new = Compiled(with_edits(old.data, (edit,)))
    before, after = unsilenced(old), unsilenced(new)
    if new.canonical != old.canonical or [it.code for it in old.messages] != [
        it.code for it in new.messages
    ]:
        return False
    places = {(it.line, it.column, it.code) for it in after}
    return (message.line, message.column, message.code) not in places and places <= {
        (it.line, it.column, it.code) for it in before
    }
