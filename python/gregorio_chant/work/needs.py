"""The packages of Python that parts of the command stand on: what is missing is one line that
names the package."""
from __future__ import annotations

from importlib import import_module

from gregorio_chant.errors import GregorioError

# How Debian calls them.
_DEBIAN = {
    "fonttools": "python3-fonttools",
    "mido": "python3-mido",
    "pathspec": "python3-pathspec",
    "rich": "python3-rich",
    "starlette": "python3-starlette",
    "tomli": "python3-tomli",
    "uvicorn": "python3-uvicorn",
    "watchdog": "python3-watchdog",
}
# The modules that are not called as their packages.
_MODULES = {"fonttools": "fontTools"}


class MissingDependency(GregorioError):
    """A package that was needed is not installed."""

    def __init__(self, part: str, package: str) -> None:
        super().__init__(
            f"{part} needs the package {package}: apt install {_DEBIAN[package]} in Debian, else"
            f" pip install {package}"
        )


def need(part: str, *packages: str) -> None:
    """Raises `MissingDependency` for the first of these packages that a part of the command needs
    and that is not installed."""
    for it in packages:
        try:
            import_module(_MODULES.get(it, it))
        except ImportError:
            raise MissingDependency(part, it) from None
