"""Where the files are that are built with the package: beside its modules, or in a clone of the
repository where they are built. It begins with the command, so it imports little."""
from __future__ import annotations

import os.path
import sys

# The shared object of the library.
LIBRARY = "gregorio.dll" if sys.platform == "win32" else "libgregorio.so"
_PACKAGE = os.path.dirname(os.path.dirname(os.path.abspath(__file__)))
_CLONE = os.path.dirname(os.path.dirname(_PACKAGE))


def _file(name: str, *folders: str) -> str:
    """Returns the file `name` of the package, or of these folders of the clone if it has none."""
    own = os.path.join(_PACKAGE, name)
    return own if os.path.exists(own) else os.path.join(_CLONE, *folders, name)


def built(name: str) -> str:
    """Returns the file `name` that is built with the library."""
    return _file(name, "crates", "gregorio_c", "out", "c")


def version() -> str:
    """Returns the version of the package."""
    with open(_file("VERSION"), encoding="utf-8") as file:
        return file.read().strip()
