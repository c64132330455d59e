"""The names of a picture's parts."""
from __future__ import annotations

from dataclasses import dataclass


@dataclass(frozen=True)
class Names:
    """The names of a picture's parts: `prefix` begins its ids, which no two pictures of a page
    share, and `links` says whether marks lead to messages, whose ids begin with `messages` if this
    is another one. `has_heads` says whether the picture tells where heads stand, for who sings
    it."""

    prefix: str = ""
    links: bool = False
    messages: str | None = None
    has_heads: bool = False

    def syllable(self, index: int, part: int = 0) -> str:
        return f"{self.prefix}s{index + 1}" + (f"-{part + 1}" if part else "")

    def message(self, index: int) -> str:
        return f"{self.prefix if self.messages is None else self.messages}m{index}"

    def code(self, index: int) -> str:
        return f"{self.prefix}m{index}-at"
