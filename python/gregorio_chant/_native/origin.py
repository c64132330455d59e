"""Of what the package and its library were made."""
from __future__ import annotations

import ctypes
from dataclasses import dataclass
from pathlib import Path

from gregorio_chant import __version__
from gregorio_chant._native import library
from gregorio_chant._native.built import built

_UNKNOWN = "unknown"


@dataclass(frozen=True)
class Origin:
    """The versions of the package and of the library, and the commit and the kit that the
    library was built of."""

    version: str
    library: str
    commit: str = _UNKNOWN
    kit: str = _UNKNOWN


def origin() -> Origin:
    """Returns what the library says of itself, and what the file BUILD beside it says, which
    `tools/build_c` writes with it."""
    version = ctypes.string_at(
        ctypes.addressof(ctypes.c_char.in_dll(library.LIBRARY, "gregorio_version"))
    )
    lines = _lines_of(Path(built("BUILD")))
    return Origin(
        __version__, version.decode(), lines.get("commit", _UNKNOWN), lines.get("kit", _UNKNOWN)
    )


def _lines_of(file: Path) -> dict[str, str]:
    """Returns what stands after the first word of each line; nothing where there is no file."""
    if not file.exists():
        return {}
    return {
        word: rest
        for word, _, rest in (
            it.partition(" ") for it in file.read_text(encoding="utf-8").splitlines()
        )
    }
