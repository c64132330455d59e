"""Lists sentences of the pages that may be read twice: those with two or more of `what`, `which`,
`that`, `where`, `none` and `if one`, and those with `stands`. A help for whoever writes, and no
part of the gate: many of these sentences are good as they are.

Usage: tools/check_words [PAGE ..]     all pages if none is given
Prints each with its page and line, and last their number beside that of all sentences."""

from __future__ import annotations

import re
import sys
from collections.abc import Iterator
from pathlib import Path

from house.files import ROOT

PAGES = ("*.md", "docs/*.md", "python/*.md", "rust/*.md")
CLAUSES = re.compile(r"\b(?:what|which|that|where|none|if one)\b", re.IGNORECASE)
STANDS = re.compile(r"\bstands?\b", re.IGNORECASE)
# Code, links and the marks of a page are no words.
NO_WORDS = re.compile(
    r"```.*?```|^    [^\n]*$|<!--.*?-->|``[^\n]*?``|`[^`\n]*`|\]\([^)]*\)", re.MULTILINE | re.DOTALL
)
SENTENCE = re.compile(r"[^.!?:|]+(?:[.!?:|]|$)")


def _blanked(found: re.Match[str]) -> str:
    """Returns as much of `_` for a piece of code, and of blanks for all else that is no words."""
    is_code = found[0][0] == "`" and found[0][:3] != "```"
    return re.sub(r"[^\n]", "_" if is_code else " ", found[0])


def sentences_of(text: str) -> Iterator[tuple[int, str]]:
    """Yields the sentences of a page, each after its line, from 1."""
    plain = NO_WORDS.sub(_blanked, text)
    for found in SENTENCE.finditer(plain):
        words = " ".join(found[0].split())
        if len(words.split()) > 3:
            lead = len(found[0]) - len(found[0].lstrip())
            yield plain.count("\n", 0, found.start() + lead) + 1, words


def main(names: list[str], root: str = ROOT) -> int:
    """Lists the sentences of these pages, or of all of the repository at `root`."""
    top = Path(root)
    pages = [Path(it) for it in names] or sorted(it for glob in PAGES for it in top.glob(glob))
    count, found = 0, 0
    for page in pages:
        where = page.relative_to(top) if page.is_relative_to(top) else page
        for line, words in sentences_of(page.read_text(encoding="utf-8")):
            count += 1
            if len(CLAUSES.findall(words)) > 1 or STANDS.search(words):
                found += 1
                print(f"{where}:{line}: {words}")
    print(f"{found} of {count} sentences")
    return 0


if __name__ == "__main__":
    sys.exit(main(sys.argv[1:]))
