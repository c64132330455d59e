"""What a node of a tree is. The numbers are those of the compiler, and stay as they are
(docs/FORMATS.md, *The tree*)."""
from __future__ import annotations

import enum


class NodeKind(enum.IntEnum):
    """What a node of a tree is."""

    FILE = 0
    HEADER = 1
    HEADER_NAME = 2
    HEADER_VALUE = 3
    HEADER_LEFT_OUT = 4
    HEADER_COMMENT = 5
    SCORE_LINE = 6
    SYLLABLE = 7
    CHARACTERS = 8
    ESCAPE = 9
    TEXT_BLANK = 10
    RAW = 11
    TAG = 12
    SPAN_MARK = 13
    STYLE_TAG = 14
    BRACE = 15
    TRANSLATION = 16
    SNIPPET = 17
    GLYPH = 18
    NOTE = 19
    ALTERATION = 20
    CLEF = 21
    BAR = 22
    SPACING = 23
    CUSTOS = 24
    LINE_BREAK = 25
    ATTRIBUTE = 26
    FUSION = 27
    DESCRIPTOR = 28
    NABC_SPACE = 29
    NABC_GLYPH = 30
    NABC_POINTS = 31
    NABC_LETTERS = 32
    COMMENT = 33
    LEFT_OUT = 34
    FURTHER_BLANK = 35
    SILENT = 36
    UNREAD = 37


# What is not kept of a text or of notes.
NOT_KEPT = frozenset(
    {
        NodeKind.HEADER_COMMENT,
        NodeKind.COMMENT,
        NodeKind.LEFT_OUT,
        NodeKind.FURTHER_BLANK,
        NodeKind.SILENT,
    }
)
