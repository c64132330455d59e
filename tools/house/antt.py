"""The text of definitions and proofs: its words, the names that it binds, and what its `use` lines
bring. It is read as text: a name that is bound somewhere is taken for a variable in all of it."""

from __future__ import annotations

import re
from collections.abc import Iterator

MODIFIERS = {"pub", "abbrev", "unfoldable", "opaque", "data", "record", "ruleset"}
_STRING = re.compile(r'"(?:\\.|[^"\\])*"')
_COMMENT = re.compile(r"(?m)(^|\s)--.*$")
_SECTION = re.compile(r"(\s*)module\s+_\s*(.*?)\s*where\s*$")


def without_strings(text: str) -> str:
    """Returns the text with a blank in the place of each string."""
    return _STRING.sub(" ", text)


def without_comments(text: str) -> str:
    """Returns the text without its comments, but with the blank before each."""
    return _COMMENT.sub(r"\1", text)


def tokens_of(text: str) -> list[str]:
    """Returns the words of a text: without strings, and split at blanks and brackets."""
    return [it for it in re.split(r"[\s(){},;]+", without_strings(text)) if it]


def words_of(text: str) -> set[str]:
    """Returns the words of a text, each with its path, without comments and strings."""
    plain = without_comments(without_strings(text))
    return {it.strip(".◌") for it in re.split(r"[\s(){},;@]+", plain)} - {""}


def quoted_in(text: str) -> set[str]:
    """Returns the words that stand in backticks."""
    quoted = re.findall(r"`([^`\n]+)`", text)
    return {word for it in quoted for word in re.split(r"[\s(),]+", it)}


def depth_of(line: str) -> int:
    """Returns by how many columns the line stands in."""
    return len(line) - len(line.lstrip())


def bound_names(text: str) -> set[str]:
    """Returns the names that a text binds: by a λ, a `let`, or a group such as `(x y : T)`."""
    text = without_strings(text)
    found: set[str] = set()
    for names in re.findall(r"[({]\s*((?:[^\s(){}:,;]+\s+)+):\s", text):
        found.update(names.split())
    for names in re.findall(r"λ\s*((?:[^\s.(){}]+\s*)+)\.", text):
        found.update(names.split())
    found.update(re.findall(r"\blet\s+([^\s:=]+)", text))
    for pattern in re.findall(r"(?:\[|\|)\s*([^\[\]|↦]*?)\s*↦", text):
        found.update(it for it in tokens_of(pattern) if it[:1].islower())
    return found


def labels_of(text: str) -> set[str]:
    """Returns the names that stand before a single `=`: fields that a record is made with, and
    named arguments."""
    return set(re.findall(r"([^\s(){},;.=]+)\s+=\s", text))


def is_in(name: str, words: set[str] | list[str]) -> bool:
    """Returns whether a name with places for its arguments, as `_◌+◌_`, stands in the words: each
    of its parts does."""
    return "◌" in name and all(it in words for it in name.split("◌") if it)


def split_equation(text: str) -> tuple[str, str]:
    """Returns the two sides of an equation `f patterns = value`; no left side if it has none."""
    depth = 0
    for at, c in enumerate(text):
        depth += (c in "([{") - (c in ")]}")
        is_alone = text[at - 1].isspace() and text[at + 1 : at + 2].isspace()
        if c == "=" and depth == 0 and is_alone:
            return text[:at], text[at + 1 :]
    return "", text


def in_sections(lines: list[str]) -> Iterator[tuple[str, str]]:
    """Yields the lines of a file, each after the parameters of the section `module _ (..) where`
    that it stands in; the lines of a section are moved to the left."""
    parameters, depth = "", 0
    for line in lines:
        begins = _SECTION.match(line)
        if begins:
            parameters, depth = begins[2], len(begins[1]) + 2
            yield "", ""
        elif parameters and line.strip() and not line.startswith(" " * depth):
            parameters, depth = "", 0
            yield "", line
        else:
            yield parameters, line[depth:]


def read_uses(text: str, words: str, scope: dict[str, str]) -> list[str]:
    """Puts what the `use` items of a text bring into the scope: each name with the path that it
    stands for. `words` is a pattern of what an item begins with. Returns the modules."""
    path = r"([\w.]+?)(?:\.\{([^}]*)\})?(?:\s+as\s+(\w+))?;?"
    modules = []
    for module, names, alias in re.findall(rf"(?m)^[ \t]*{words}\s+{path}[ \t]*$", text):
        modules.append(module)
        if not names:
            scope[alias or module.rpartition(".")[2]] = module
            continue
        for it in names.split(","):
            name, _, local = it.strip().partition(" as ")
            if name.strip():
                scope[(local or name).strip()] = f"{module}.{name.strip()}"
    return modules
