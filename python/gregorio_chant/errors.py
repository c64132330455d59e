"""The errors of the package: all of them are a `GregorioError`."""
from __future__ import annotations

from gregorio_chant.work.statuses import REFUSED


class GregorioError(Exception):
    """The base of the errors of this package. `status` is the exit status of a command that ends
    with it."""

    status = REFUSED


class UsageError(GregorioError, ValueError):
    """Arguments that are unknown, or that do not go together."""
