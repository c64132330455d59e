"""The words of the protocol: errors, and what is read from the parameters of a message."""
from __future__ import annotations

import enum
from collections.abc import Iterator
from dataclasses import dataclass

from gregorio_chant.errors import GregorioError

Json = object


class Code(enum.IntEnum):
    """The number of an error."""

    NO_JSON = -32700
    NO_REQUEST = -32600
    NO_METHOD = -32601
    BAD_PARAMETERS = -32602
    INTERNAL = -32603
    NOT_INITIALIZED = -32002
    CANCELLED = -32800
    CHANGED = -32801
    FAILED = -32803


class ProtocolError(GregorioError):
    """A request that is answered by an error."""

    def __init__(self, code: Code, text: str) -> None:
        super().__init__(text)
        self.code = code

    def to_json(self) -> Json:
        return {"code": int(self.code), "message": str(self)}


@dataclass(frozen=True, order=True)
class Position:
    """A place as an editor counts: lines from 0, and columns in units of UTF-16 from 0."""

    line: int
    character: int

    def to_json(self) -> Json:
        return {"line": self.line, "character": self.character}


@dataclass(frozen=True)
class Range:
    """The characters from `start` up to `end`."""

    start: Position
    end: Position

    def to_json(self) -> Json:
        return {"start": self.start.to_json(), "end": self.end.to_json()}

    def meets(self, other: Range) -> bool:
        """Returns whether both have a place in common, their ends included."""
        return self.start <= other.end and other.start <= self.end


class Params:
    """A part of the parameters of a message. Each method raises `ProtocolError` where something
    else is wanted than what stands there."""

    def __init__(self, value: Json, name: str = "params") -> None:
        self._value, self._name = value, name

    def _fail(self, wanted: str) -> ProtocolError:
        return ProtocolError(Code.BAD_PARAMETERS, f"{self._name}: {wanted} is wanted")

    def has(self, name: str) -> bool:
        """Returns whether a part stands there, and is not null."""
        return isinstance(self._value, dict) and self._value.get(name) is not None

    def __getitem__(self, name: str) -> Params:
        if not isinstance(self._value, dict) or name not in self._value:
            raise self._fail(f"an object with {name}")
        return Params(self._value[name], f"{self._name}.{name}")

    def flag(self, *names: str) -> bool:
        """Returns whether the part at the end of these names is true."""
        at = self
        for it in names:
            if not at.has(it):
                return False
            at = at[it]
        return at._value is True

    def parts(self) -> Iterator[Params]:
        """Yields the parts of a list."""
        if not isinstance(self._value, list):
            raise self._fail("a list")
        return (Params(it, f"{self._name}[{number}]") for number, it in enumerate(self._value))

    def text(self) -> str:
        if not isinstance(self._value, str):
            raise self._fail("a text")
        return self._value

    def number(self) -> int:
        """Returns a whole number, at least 0."""
        if not isinstance(self._value, int) or isinstance(self._value, bool) or self._value < 0:
            raise self._fail("a number from 0 on")
        return self._value

    def version(self) -> int | None:
        """Returns the version of a document, which may be missing, null or any whole number."""
        it = self._value.get("version") if isinstance(self._value, dict) else None
        return it if isinstance(it, int) and not isinstance(it, bool) else None

    def position(self) -> Position:
        return Position(self["line"].number(), self["character"].number())

    def range(self) -> Range:
        return Range(self["start"].position(), self["end"].position())

    def uri(self) -> str:
        """Returns the URI of the document that is meant."""
        return self["textDocument"]["uri"].text()
