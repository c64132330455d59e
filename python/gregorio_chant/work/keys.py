"""The keys of a file of settings: `settings` reads them, and the page of settings is printed from
them."""
from __future__ import annotations

from dataclasses import dataclass
from enum import Enum

# The file of settings.
FILE = "gregorio-chant.toml"


class Kind(Enum):
    """The type of a value, in the words of the page."""

    CODES = "list of codes and rules"
    PATTERNS = "list of patterns"
    CODES_OF_FILES = "table of patterns, each with a list of codes and rules"
    FLAG = "`true` or `false`"
    NUMBER = "number from 1"


@dataclass(frozen=True)
class Key:
    """A key: its name, the field of `Settings` for its value, and what the page says of it.
    `default` is the value that counts if the key is missing, and `option` does the same on the
    command line."""

    name: str
    field: str
    kind: Kind
    default: str
    meaning: str
    example: str
    option: str


KEYS = (
    Key(
        "select",
        "select",
        Kind.CODES,
        "all",
        "Reports these messages alone.",
        '["E", "W3"]',
        "--select",
    ),
    Key(
        "ignore",
        "ignore",
        Kind.CODES,
        "none",
        "Does not report these messages. A fatal fault is always reported.",
        '["W6"]',
        "--ignore",
    ),
    Key(
        "fail-on",
        "fail_on",
        Kind.CODES,
        "none",
        "Ends with status 1 if one of these is reported, as an error does.",
        '["W3"]',
        "--fail-on",
    ),
    Key(
        "rules",
        "rules",
        Kind.FLAG,
        "`false`",
        "Tries the [rules](RULES.md) too.",
        "true",
        "--rules",
    ),
    Key(
        "exclude",
        "exclude",
        Kind.PATTERNS,
        "none",
        "Leaves these files out of folders, and of what is staged.",
        '["old", "*.draft.gabc"]',
        "--exclude",
    ),
    Key(
        "per-file-ignores",
        "ignores_of_files",
        Kind.CODES_OF_FILES,
        "none",
        "Does not report these messages in these files, also if an option names others.",
        '{ "hymns/*.gabc" = ["asterisk-without-bar"] }',
        "",
    ),
)
# The keys of the table `format`.
FORMAT = "format"
FORMAT_KEYS = (
    Key(
        "wrap",
        "wrap",
        Kind.NUMBER,
        "none",
        "Breaks lines that are longer than this number of characters, between two words.",
        "80",
        "--wrap",
    ),
    Key(
        "canonical",
        "canonical",
        Kind.FLAG,
        "`false`",
        (
            "Writes the canonical form. It has one word on each line, so it cannot stand beside"
            " `wrap`."
        ),
        "true",
        "--canonical",
    ),
)
