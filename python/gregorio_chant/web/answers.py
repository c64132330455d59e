"""What the page shows of a score: picture, messages, canonical form, tree and dump."""
from __future__ import annotations

from base64 import b64encode
from dataclasses import dataclass

from gregorio_chant.linting import checking
from gregorio_chant.objects.compiled import Compiled
from gregorio_chant.objects.sounds import sounds_of_score
from gregorio_chant.pictures.alone import USUAL_WIDTH
from gregorio_chant.pictures.drawing import draw
from gregorio_chant.pictures.look import Look
from gregorio_chant.pictures.names import Names
from gregorio_chant.pictures.page import notes_of
from gregorio_chant.report.reports import Checked
from gregorio_chant.work.settings import Finder
from gregorio_chant.work.streams import STDIN

_PREFIX = "p1-"


@dataclass(frozen=True)
class Answer:
    """What is made of a score. `picture` is SVG. `messages` are as the package for JavaScript has
    them, each with its help. `records` are those of the tree, in base64."""

    name: str
    picture: str
    messages: list[dict[str, str | int | None]]
    canonical: str
    dump: str
    records: str


def _messages_of(checked: Checked) -> list[dict[str, str | int | None]]:
    return [
        {
            "line": it.line,
            "column": it.column,
            "kind": it.kind.value,
            "code": it.code,
            "text": it.text,
            "help": help,
        }
        for it, help in checked.helped()
    ]


@dataclass(frozen=True)
class Answers:
    """Makes answers as `show -` makes its page."""

    with_rules: bool
    settings: Finder

    def of(self, data: bytes, width: float = USUAL_WIDTH) -> Answer:
        """Returns what is made of a score, with a picture this wide. Raises `MemoryError`."""
        compiled = Compiled(data)
        options = checking.Options(
            paths=(STDIN,), with_rules=self.with_rules, settings=self.settings
        )
        checked = checking.check_score(STDIN, compiled, options)
        names = Names(_PREFIX, links=True, has_heads=True)
        picture = draw(compiled, checked.messages, look=Look(width=width), names=names)
        return Answer(
            picture.name,
            picture.svg,
            _messages_of(checked),
            compiled.canonical,
            compiled.dump,
            b64encode(compiled.tree.records).decode("ascii"),
        )

    def sounds_of(self, data: bytes) -> list[tuple[int, int, int | None, float]]:
        """Returns the notes of a score as the page sings them; none if one of them has no height.
        Raises `MemoryError`."""
        return notes_of(sounds_of_score(Compiled(data)))
