"""What the server says to one editor: it answers messages in their order, and checks what has
changed when nothing else waits."""
from __future__ import annotations

import enum
import os
from collections.abc import Callable
from urllib.parse import unquote_to_bytes, urlsplit

from gregorio_chant.objects.compiled import TooLong
from gregorio_chant.objects.pauses import Pause
from gregorio_chant.server.diagnostics import diagnostics, no_diagnostics
from gregorio_chant.server.document import Document, File
from gregorio_chant.server.features import CAPABILITIES, FEATURES, RESOLVE, SHOW, RequestRefused
from gregorio_chant.server.inbox import Inbox, Message
from gregorio_chant.server.pictures import Pages
from gregorio_chant.server.protocol import Code, Json, Params, ProtocolError
from gregorio_chant.server.text import Text
from gregorio_chant.server.wire import Unreadable
from gregorio_chant.work.needs import MissingDependency
from gregorio_chant.work.settings import Finder, Settings, SettingsError
from gregorio_chant.work.streams import STDIN

_ERROR, _WARNING, _INFO = 1, 2, 3


class _Phase(enum.Enum):
    """How far the editor and the server are."""

    BEFORE = enum.auto()
    OPEN = enum.auto()
    SHUT_DOWN = enum.auto()


class _Overtaken(Exception):
    """Another message came while a score was checked."""


def name_of(uri: str) -> str:
    """Returns the name of the file at a URI; that of standard input where it is the URI of none."""
    try:
        parts = urlsplit(uri)
    except ValueError:
        return STDIN
    path = unquote_to_bytes(parts.path)
    return os.fsdecode(path) if parts.scheme == "file" and path and b"\0" not in path else STDIN


def _lists(params: Params, word: str, *names: str) -> bool:
    """Returns whether the list at the end of these names has a word; there may be none."""
    for name in names:
        if not params.has(name):
            return False
        params = params[name]
    return word in [it.text() for it in params.parts()]


class Session:
    """Answers an editor about the scores that it has open. `send` sends it a message."""

    def __init__(self, send: Callable[[Json], None], with_rules: bool, settings: Finder) -> None:
        self._send = send
        self._with_rules = with_rules
        self._settings = settings
        self._documents: dict[str, Document] = {}
        # The documents that have changed since they were checked, the first one first.
        self._unchecked: dict[str, None] = {}
        self._phase = _Phase.BEFORE
        self._takes_versions = (
            self._shows_documents
        ) = self._resolves_actions = self._takes_markdown = False
        # Whether a message waits that changes a document.
        self._is_changed: Callable[[str], bool] = lambda uri: False
        self._pages = Pages()
        # How many documents the editor was asked to show.
        self._asked = 0
        self._told: dict[str, Callable[[Params], None]] = {
            "textDocument/didOpen": self._opened,
            "textDocument/didChange": self._changed,
            "textDocument/didClose": self._closed,
        }

    @property
    def is_shut_down(self) -> bool:
        return self._phase is _Phase.SHUT_DOWN

    def run(self, inbox: Inbox) -> None:
        """Answers until nothing more comes. A message that comes while a score is checked is
        answered first, and the check begins again after it."""

        def pause() -> None:
            if not inbox.is_empty or inbox.is_closed:
                raise _Overtaken

        self._is_changed = inbox.changes
        while True:
            message = inbox.take(waits=not self._unchecked)
            if message is not None:
                self._take(message)
            elif inbox.is_closed:
                return
            else:
                self._check(next(iter(self._unchecked)), pause)

    def close(self) -> None:
        """Removes what was written for the editor."""
        self._pages.close()

    def _notify(self, method: str, params: Json) -> None:
        self._send({"jsonrpc": "2.0", "method": method, "params": params})

    def _warn(self, text: str, kind: int = _WARNING) -> None:
        self._notify("window/showMessage", {"type": kind, "message": text})

    # ---- messages

    def _take(self, message: Message) -> None:
        """Answers a message. Whatever goes wrong is an error of the protocol, and the next message
        is answered."""
        key, told = "error", ""
        try:
            key, answer = "result", self._answer(message)
        except ProtocolError as error:
            answer, told = error.to_json(), str(error)
        except Exception:
            told = "the server failed here, which is a defect of gregorio-chant"
            answer = ProtocolError(Code.INTERNAL, told).to_json()
        if message.wants_answer:
            self._send({"jsonrpc": "2.0", "id": message.id, key: answer})
        elif key == "error":
            self._notify(
                "window/logMessage",
                {"type": _ERROR, "message": f"{(message.method or '')[:80]}: {told}"},
            )

    def _answer(self, message: Message) -> Json:
        value = message.value
        if isinstance(value, Unreadable):
            raise ProtocolError(Code.NO_JSON, value.reason)
        if message.is_answer:
            return None
        if not isinstance(value, dict) or value.get("jsonrpc") != "2.0":
            raise ProtocolError(Code.NO_REQUEST, "a message is an object with jsonrpc 2.0")
        if message.is_cancelled:
            raise ProtocolError(Code.CANCELLED, "the request was cancelled")
        if message.method is None or message.id is None and "id" in value:
            raise ProtocolError(
                Code.NO_REQUEST, "a request has a method, and an id that is a text or a number"
            )
        params = Params(value.get("params"))
        if message.id is not None:
            return self._ask(message.method, params)
        if self._phase is _Phase.OPEN and message.method in self._told:
            self._told[message.method](params)
        return None

    def _ask(self, method: str, params: Params) -> Json:
        if method == "initialize":
            return self._initialize(params)
        if self._phase is _Phase.BEFORE:
            raise ProtocolError(Code.NOT_INITIALIZED, "the first request is initialize")
        if self._phase is _Phase.SHUT_DOWN:
            raise ProtocolError(Code.NO_REQUEST, "the server is shut down")
        if method == "shutdown":
            self._phase = _Phase.SHUT_DOWN
            self._unchecked.clear()
            return None
        try:
            if method == "workspace/executeCommand":
                return self._show(params)
            if method not in FEATURES:
                raise ProtocolError(Code.NO_METHOD, f"there is no method {method[:80]}")
            uri = params["data"]["uri"].text() if method == RESOLVE else params.uri()
            return FEATURES[method](self._asked_about(uri), params)
        except _Overtaken:
            raise ProtocolError(Code.CHANGED, "the document was changed meanwhile") from None
        except (RequestRefused, TooLong) as refused:
            self._warn(str(refused))
            return []

    def _document(self, uri: str) -> Document:
        document = self._documents.get(uri)
        if document is None:
            raise ProtocolError(Code.BAD_PARAMETERS, "this document is not open")
        return document

    def _asked_about(self, uri: str) -> Document:
        """Returns a document whose answers are given up once a change of it waits."""
        document = self._document(uri)

        def pause() -> None:
            if self._is_changed(uri):
                raise _Overtaken

        document.pause = pause
        return document

    def _show(self, params: Params) -> Json:
        """Has the editor open the picture in a browser, at the syllable of a position: the command
        has the document's URI and the position as arguments."""
        arguments = list(params["arguments"].parts()) if params["command"].text() == SHOW else []
        if len(arguments) != 2:
            raise ProtocolError(
                Code.BAD_PARAMETERS, f"the command is {SHOW}, with a document's URI and a position"
            )
        uri = self._pages.put(self._document(arguments[0].text()), arguments[1].position())
        if self._shows_documents:
            self._asked += 1
            self._send(
                {
                    "jsonrpc": "2.0",
                    "id": f"show-{self._asked}",
                    "method": "window/showDocument",
                    "params": {"uri": uri, "external": True},
                }
            )
        else:
            self._warn(f"The picture is at {uri}", _INFO)
        return None

    def _initialize(self, params: Params) -> Json:
        if self._phase is not _Phase.BEFORE:
            raise ProtocolError(Code.NO_REQUEST, "the server is initialized")
        self._phase = _Phase.OPEN
        self._takes_versions = params.flag(
            "capabilities", "workspace", "workspaceEdit", "documentChanges"
        )
        self._shows_documents = params.flag("capabilities", "window", "showDocument", "support")
        texts = ("capabilities", "textDocument")
        self._resolves_actions = _lists(
            params, "edit", *texts, "codeAction", "resolveSupport", "properties"
        )
        self._takes_markdown = _lists(params, "markdown", *texts, "hover", "contentFormat")
        return CAPABILITIES

    # ---- documents

    def _opened(self, params: Params) -> None:
        it, uri = params["textDocument"], params.uri()
        text, name = Text(it["text"].text()), name_of(uri)
        settings = self._settings_of(name)
        with_rules = self._with_rules or settings.rules is True
        file = File(
            uri,
            name,
            settings,
            with_rules,
            self._takes_versions,
            self._resolves_actions,
            self._takes_markdown,
        )
        self._keep(Document(file, text, it.version()))

    def _settings_of(self, name: str) -> Settings:
        try:
            return self._settings.of(name)
        except (SettingsError, MissingDependency) as error:
            self._warn(str(error))
            return Settings()

    def _changed(self, params: Params) -> None:
        document = self._documents.get(params.uri())
        changes = [
            (it["range"].range() if it.has("range") else None, it["text"].text())
            for it in params["contentChanges"].parts()
        ]
        if document is None:
            return

        def change(text: Text) -> Text:
            for where, new in changes:
                text = text.changed(where, new)
            return text

        self._keep(document.changed(change, params["textDocument"].version()))

    def _keep(self, document: Document) -> None:
        self._documents[document.file.uri] = document
        self._unchecked[document.file.uri] = None

    def _closed(self, params: Params) -> None:
        uri = params.uri()
        self._unchecked.pop(uri, None)
        if self._documents.pop(uri, None) is not None:
            self._notify("textDocument/publishDiagnostics", no_diagnostics(uri))

    def _check(self, uri: str, pause: Pause) -> None:
        document = self._documents[uri]
        try:
            document.find(pause)
            told = diagnostics(document)
            del self._unchecked[uri]
        except _Overtaken:
            return
        except TooLong as error:
            del self._unchecked[uri]
            self._warn(f"this score could not be checked: {error}")
            return
        except Exception:
            del self._unchecked[uri]
            self._warn("this score could not be checked, which is a defect of gregorio-chant")
            return
        self._notify("textDocument/publishDiagnostics", told)
