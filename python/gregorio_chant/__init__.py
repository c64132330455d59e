"""Reads Gregorian chant in GABC, with unheighted neumes in NABC, by a proved compiler.

>>> from gregorio_chant import compile
>>> result = compile("name: Kyrie;\\n%%\\n(c4) Ky(f)ri(/./)")
>>> print(result.canonical, end="")
name: Kyrie;
%%
(c4)
Ky(f)ri(//)
>>> result.status
<Status.ERRORS: 1>
>>> for message in result:
...     print(message.line, message.column, message.code, message.text)
3 15 E1 character left out of the notes

`lint`, `fix`, `format_text`, `draw` and `index` do what the commands do (`gregorio_chant.calls`).
`Run` takes a score in pieces. `tree` returns all that was read of a score, and what was left out,
with the bytes of each, and `picture` draws a score. `gregorio_chant.dump` reads a score into
objects, each with its place; the command `gregorio-chant` checks and formats files. The answers of
`compile`, `check` and `Run` are proved; the rest of the package is tested.
"""
from __future__ import annotations

from importlib import import_module
from typing import TYPE_CHECKING

if TYPE_CHECKING:
    from gregorio_chant._native.library import check, compile
    from gregorio_chant._native.node_kinds import NodeKind
    from gregorio_chant._native.nodes import Node, Tree
    from gregorio_chant._native.results import (
        Format,
        Kind,
        Message,
        Report,
        Result,
        RunOverError,
        ShownMessages,
        StateError,
        Status,
        Step,
    )
    from gregorio_chant._native.runs import Limits, Run, pieces
    from gregorio_chant._native.trees import tree
    from gregorio_chant.calls import draw, fix, format_text, index, lint
    from gregorio_chant.errors import GregorioError, UsageError
    from gregorio_chant.pictures.alone import picture
    from gregorio_chant.work.settings import Settings

    __version__: str

# Where the names stand. A module is imported when a name of it is asked for, so that the command
# begins at once.
_NAMES = {
    "_native.library": "check compile",
    "_native.node_kinds": "NodeKind",
    "_native.nodes": "Node Tree",
    "_native.results": "Format Kind Message Report Result RunOverError ShownMessages StateError"
    " Status Step",
    "_native.runs": "Limits Run pieces",
    "_native.trees": "tree",
    "calls": "draw fix format_text index lint",
    "errors": "GregorioError UsageError",
    "pictures.alone": "picture",
    "work.settings": "Settings",
}
_MODULES = {name: module for module, names in _NAMES.items() for name in names.split()}
__all__ = [
    "Format",
    "GregorioError",
    "Kind",
    "Limits",
    "Message",
    "Node",
    "NodeKind",
    "Report",
    "Result",
    "Run",
    "RunOverError",
    "Settings",
    "ShownMessages",
    "StateError",
    "Status",
    "Step",
    "Tree",
    "UsageError",
    "check",
    "compile",
    "draw",
    "fix",
    "format_text",
    "index",
    "lint",
    "picture",
    "pieces",
    "tree",
]


def __getattr__(name: str) -> object:
    """Returns what is asked for by this name for the first time."""
    if name == "__version__":
        from gregorio_chant._native.built import version

        value: object = version()
    elif name in _MODULES:
        value = getattr(import_module(f"gregorio_chant.{_MODULES[name]}"), name)
    else:
        raise AttributeError(f"module {__name__!r} has no attribute {name!r}")
    globals()[name] = value
    return value


def __dir__() -> list[str]:
    return sorted({*globals(), *__all__, "__version__"})
