"""Wraps the pages, and the comments of the crates, within 100 columns: those of `src` (`//`, `///`,
`//!`) and of `specs` (`--`).

Usage: tools/wrap_comments [FILE ..]
         wraps what is too long, in all pages and sources or in these files
       tools/wrap_comments --check [FILE ..]
         lists the files where something is, and changes nothing

A paragraph of which one line is too long is wrapped anew as a whole; all others stay as they are. A
paragraph ends at an empty line, at one that begins with a `*`, `#` or `|`, is a picture or is
indented, and at a fenced block. An item of a list, with a `-` or a number, goes on with the lines
that are indented as its words are. A row of a table, a comment after code in its line, and a word
that is too long by itself stay.

Exit status: 1 where `--check` lists something, else 0."""

from __future__ import annotations

import re
import sys
import textwrap
from collections.abc import Iterator
from dataclasses import dataclass
from pathlib import Path

from house.files import ROOT

WIDTH = 100
RUST = re.compile(r"(?P<mark>\s*//[/!]? ?)(?P<words>.*)")
ANTT = re.compile(r"(?P<mark>\s*-- ?)(?P<words>(?!-).*)")
PAGE = re.compile(r"(?P<mark>)(?P<words>.*)")
PATTERNS = {".rt": RUST, ".antt": ANTT, ".md": PAGE}
FILES = (
    *("*.md", "docs/*.md", "python/*.md", "rust/*.md", "js/*.md"),
    *("crates/*/src/**/*.rt", "crates/*/specs/**/*.antt"),
)
# An item of a list; in a page it may lie in another one.
ITEM = re.compile(r" {0,3}(?:- |\d+\. +)(?=\S)")
# A further paragraph of an item; in a comment such lines are an example.
INDENTED = re.compile(r" {2,3}(?=\S)")
STANDS_ALONE = re.compile(r"$|[*#|`] |[#|]|```|<!--|!\[|\s")
CODE = re.compile(r"(?<!`)(`+)(?!`).{1,90}?(?<!`)\1(?!`)")


@dataclass
class Paragraph:
    """Lines of a file that belong together, what each of them begins with, and what those after the
    first have besides; and whether they are words."""

    lines: list[str]
    mark: str = ""
    hang: str = ""
    is_wrapped: bool = False

    def goes_on(self, mark: str, words: str) -> bool:
        """Returns whether a line with this mark and these words belongs to it."""
        if not self.is_wrapped or mark != self.mark or ITEM.match(words):
            return False
        return bool(words.startswith(self.hang) and not STANDS_ALONE.match(words[len(self.hang) :]))

    def wrapped(self) -> list[str]:
        """Returns its lines, wrapped where one of them is too long."""
        if not self.is_wrapped or all(len(line) <= WIDTH for line in self.lines):
            return self.lines
        first = self.lines[0][: len(self.mark) + len(self.hang)]
        rest = [line[len(self.mark) :].strip() for line in self.lines[1:]]
        words = " ".join([self.lines[0][len(first) :].strip(), *rest])
        # A piece of code stays on one line.
        words = CODE.sub(lambda found: found[0].replace(" ", "\0"), words)
        wrapper = textwrap.TextWrapper(WIDTH, first, self.mark + self.hang)
        wrapper.break_long_words = wrapper.break_on_hyphens = False
        return [line.replace("\0", " ") for line in wrapper.wrap(words)]


def files(root: Path) -> Iterator[Path]:
    """Yields the pages and the files with comments, in order."""
    for pattern in FILES:
        yield from sorted(root.glob(pattern))


def paragraphs(lines: list[str], comment: re.Pattern[str]) -> Iterator[Paragraph]:
    """Yields the lines in their order, in paragraphs."""
    last = Paragraph([])
    is_fenced = False
    for line in lines:
        found = comment.fullmatch(line)
        mark, words = (found["mark"], found["words"]) if found else ("", "")
        is_fenced = bool(found) and is_fenced != words.startswith("```")
        if not is_fenced and last.goes_on(mark, words):
            last.lines.append(line)
            continue
        yield last
        item = ITEM.match(words) or comment is PAGE and INDENTED.match(words)
        is_plain = not found or is_fenced or not item and bool(STANDS_ALONE.match(words))
        hang = " " * len(item[0]) if item else ""
        last = Paragraph([line]) if is_plain else Paragraph([line], mark, hang, True)
    yield last


def wrapped(text: str, ending: str) -> str:
    """Returns the text of a file whose name ends so, wrapped."""
    found = paragraphs(text.split("\n"), PATTERNS[ending])
    return "\n".join(line for paragraph in found for line in paragraph.wrapped())


def main(words: list[str], root: str = ROOT) -> int:
    """Does what these arguments say for the repository at `root`, and returns the exit status."""
    listed = 0
    is_check = words[:1] == ["--check"]
    given = [Path(it).resolve() for it in words[is_check:]]
    for path in given or files(Path(root)):
        text = path.read_text(encoding="utf-8")
        new = wrapped(text, path.suffix)
        if new == text:
            continue
        if is_check:
            print(f"wrap_comments: {path.relative_to(root)}")
            listed += 1
        else:
            path.write_text(new, encoding="utf-8")
    return 1 if listed else 0


if __name__ == "__main__":
    sys.exit(main(sys.argv[1:]))
