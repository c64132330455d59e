"""Text of a score as a picture and a page can show it: no character of it can end its place or
turn what stands around it."""
from __future__ import annotations

import re

# What no XML may hold, what steers a terminal, and the marks that turn the direction of text.
_HIDDEN = re.compile(
    "[\x00-\x08\x0b-\x1f\x7f-\x9f\u061c\u200e\u200f\u2028-\u202e\u2066-\u2069\ufdd0-\ufdef\ufeff\ufffe\uffff\ud800-\udfff]"
)
_PICTURES = 0x2400
_DELETE = 0x7F


def _shown(found: re.Match[str]) -> str:
    number = ord(found[0])
    if number < 0x20:
        return chr(_PICTURES + number)
    return "\u2421" if number == _DELETE else f"<U+{number:04X}>"


def shown(text: str) -> str:
    """Returns `text` with its control characters as their pictures, and with the numbers of the
    marks that turn its direction.

    >>> shown("a\\x1b\\u202eb")
    'a␛<U+202E>b'
    """
    return text if text.isprintable() else _HIDDEN.sub(_shown, text)
