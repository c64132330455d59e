"""What came from the editor and waits to be answered."""
from __future__ import annotations

import threading
from collections import deque
from dataclasses import dataclass

_CANCEL = "$/cancelRequest"
_CHANGES = ("textDocument/didChange", "textDocument/didClose")


@dataclass(eq=False)
class Message:
    """A message that waits; one without an id wants no answer."""

    value: object
    is_cancelled: bool = False

    @property
    def method(self) -> str | None:
        it = self.value.get("method") if isinstance(self.value, dict) else None
        return it if isinstance(it, str) else None

    @property
    def id(self) -> str | int | float | None:
        it = self.value.get("id") if isinstance(self.value, dict) else None
        return it if isinstance(it, (str, int, float)) and not isinstance(it, bool) else None

    @property
    def changed_uri(self) -> object:
        """The URI of the document that it changes or closes, if it does."""
        params = (
            self.value.get("params")
            if isinstance(self.value, dict) and self.method in _CHANGES
            else None
        )
        document = params.get("textDocument") if isinstance(params, dict) else None
        return document.get("uri") if isinstance(document, dict) else None

    @property
    def is_answer(self) -> bool:
        """Whether it answers something that the server has asked."""
        it = self.value
        return (
            isinstance(it, dict)
            and "id" in it
            and "method" not in it
            and ("result" in it or "error" in it)
        )

    @property
    def wants_answer(self) -> bool:
        """Whether it is no notification and no answer: what is no message at all is answered
        too."""
        it = self.value
        return not self.is_answer and (not isinstance(it, dict) or "id" in it or "method" not in it)


class Inbox:
    """Messages in the order in which they came. One thread puts them in, and another one takes them
    out."""

    def __init__(self) -> None:
        self._waiting = deque[Message]()
        self._changed = threading.Condition()
        self.is_closed = False

    def put(self, value: object) -> None:
        """Adds a message. One that cancels a request that still waits marks that one, and goes."""
        message = Message(value)
        with self._changed:
            if message.method == _CANCEL:
                self._cancel(value)
            else:
                self._waiting.append(message)
            self._changed.notify()

    def _cancel(self, value: object) -> None:
        params = value.get("params") if isinstance(value, dict) else None
        if isinstance(params, dict):
            for it in self._waiting:
                it.is_cancelled |= it.id is not None and it.id == params.get("id")

    def close(self) -> None:
        """Says that nothing more comes."""
        with self._changed:
            self.is_closed = True
            self._changed.notify()

    @property
    def is_empty(self) -> bool:
        return not self._waiting

    def changes(self, uri: str) -> bool:
        """Returns whether a message waits that changes or closes this document."""
        with self._changed:
            return any(it.changed_uri == uri for it in self._waiting)

    def take(self, waits: bool) -> Message | None:
        """Takes the first message. Nothing where there is none, once nothing more comes or if it
        does not wait."""
        with self._changed:
            while waits and not self._waiting and not self.is_closed:
                self._changed.wait()
            return self._waiting.popleft() if self._waiting else None
