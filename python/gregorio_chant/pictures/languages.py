"""The language of a score's texts, by its header `language`."""
from __future__ import annotations

import re

LATIN = "la"
# The names of a language that the header may have, beside its code of two letters.
_NAMES = {
    "la": "latin lat",
    "en": "english eng",
    "cu": "slavonic chu",
    "pl": "polish pol",
    "cs": "czech ces cze",
    "sk": "slovak slk slo",
    "hu": "hungarian hun",
    "fr": "french fra fre",
    "de": "german deu ger",
    "it": "italian ita",
    "es": "spanish spa",
    "pt": "portuguese por",
}
_BY_NAME = {name: code for code, names in _NAMES.items() for name in (code, *names.split())}
_CODE = re.compile("[a-z]{2,3}")


def language_of(header: str) -> str:
    """Returns the code of the language that the header `language` names: Latin if it is empty, and
    nothing if it is not known.

    >>> language_of("English"), language_of(""), language_of("de"), language_of("the old one")
    ('en', 'la', 'de', '')
    """
    name = header.strip().lower()
    return _BY_NAME.get(name, name if _CODE.fullmatch(name) else LATIN if not name else "")
