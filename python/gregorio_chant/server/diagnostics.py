"""The messages of a score, as an editor shows them."""
from __future__ import annotations

from gregorio_chant._native.results import Kind, Message
from gregorio_chant.server.document import Document
from gregorio_chant.server.protocol import Json, Range
from gregorio_chant.work.streams import NAME

_ERROR, _WARNING = 1, 2


def range_of(document: Document, message: Message) -> Range:
    """Returns where a message is shown: at one character."""
    return document.text.character(document.offset(message))


def diagnostic(document: Document, message: Message, help: str | None) -> Json:
    return {
        "range": range_of(document, message).to_json(),
        "severity": _WARNING if message.kind is Kind.WARNING else _ERROR,
        "code": message.code,
        "source": NAME,
        "message": message.text if help is None else f"{message.text}\n{help}",
    }


def diagnostics(document: Document) -> Json:
    """Returns what an editor is told of a score, with the version of the text that it belongs
    to."""
    shown = [diagnostic(document, it, help) for it, help in zip(document.messages, document.helps)]
    return {"uri": document.file.uri, "diagnostics": shown} | (
        {} if document.version is None else {"version": document.version}
    )


def no_diagnostics(uri: str) -> Json:
    return {"uri": uri, "diagnostics": []}
