"""The word that somebody meant who wrote another one."""
from __future__ import annotations

from collections.abc import Iterable


def nearest(word: str, known: Iterable[str], alike: float = 0.6) -> str | None:
    """Returns the word of `known` that is nearest to `word`, in whichever case; nothing if none is
    `alike`, from 0 to 1."""
    # It takes a while to be imported, and most words are right.
    import difflib

    names = {it.casefold(): it for it in known}
    near = difflib.get_close_matches(word.casefold(), names, 1, alike)
    return names[near[0]] if near else None


def did_you_mean(word: str, known: Iterable[str], otherwise: str) -> str:
    """Returns a question for the word of `known` that is nearest to `word`; `otherwise` if none is
    near."""
    near = nearest(word, known)
    return f"did you mean {near}?" if near else otherwise
