"""Pauses in long work."""
from __future__ import annotations

from collections.abc import Callable

# Is called now and then in long work, and may raise to break it off.
Pause = Callable[[], None]


def go_on() -> None:
    """Pauses for nothing."""
