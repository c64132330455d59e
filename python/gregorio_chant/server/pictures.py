"""The picture of a score that is open: as SVG for the editor, and as a page for a browser."""
from __future__ import annotations

import shutil
import tempfile
from pathlib import Path

from gregorio_chant.pictures.drawing import Picture, draw
from gregorio_chant.pictures.names import Names
from gregorio_chant.pictures.page import MOST_BYTES, Shown, leading_to, page_of
from gregorio_chant.report.reports import Checked
from gregorio_chant.server.document import Document
from gregorio_chant.server.formats import RequestRefused
from gregorio_chant.server.protocol import Code, Json, Params, Position, ProtocolError
from gregorio_chant.work.streams import STDIN, printable, reason_of


def _drawn(document: Document, names: Names) -> Picture:
    """Draws the score. Raises `ProtocolError` for one that is too long to be drawn while it is
    written."""
    if len(document.text.data) > MOST_BYTES:
        raise ProtocolError(Code.FAILED, f"a score above {MOST_BYTES:,} bytes is not drawn here")
    return draw(document.compiled, document.messages, names=names)


def svg(document: Document, params: Params) -> Json:
    """Returns the picture with the messages that are reported, as SVG."""
    return _drawn(document, Names()).svg


def _syllable_at(document: Document, position: Position) -> int:
    """Returns the number of the syllable at a position, from 0; the one before, where none is
    there."""
    number = document.parts.number_at(document.text.offset(position)) or 0
    drawn = len(document.score.syllables) if document.compiled.has_score else 0
    return max(min(number, drawn - 1), 0)


class Pages:
    """Pages of scores in a folder of their own, which nobody else may read and which goes with the
    server."""

    def __init__(self) -> None:
        self._folder: Path | None = None
        self._numbers: dict[str, int] = {}

    def put(self, document: Document, position: Position) -> str:
        """Writes the page of a score, and returns the URI of one that leads to the syllable at
        `position` of it. Raises `RequestRefused` where it cannot be written."""
        names = Names(links=True)
        picture = _drawn(document, names)
        file = document.file
        name = printable("a score" if file.name == STDIN else file.name)
        shown = Shown(
            Checked(file.name, document.messages, helps=document.helps),
            name,
            picture,
            document.text.plain,
        )
        number = self._numbers.setdefault(file.uri, len(self._numbers) + 1)
        page, way = f"{number}.html", f"{number}-here.html"
        try:
            folder = self._made_folder()
            (folder / page).write_text(
                "".join(page_of([shown], picture.name or name)), encoding="utf-8"
            )
            (folder / way).write_text(
                leading_to(f"{page}#{names.syllable(_syllable_at(document, position))}"),
                encoding="utf-8",
            )
        except OSError as error:
            raise RequestRefused(f"the picture cannot be written: {reason_of(error)}") from None
        return (folder / way).as_uri()

    def _made_folder(self) -> Path:
        if self._folder is None:
            self._folder = Path(tempfile.mkdtemp(prefix="gregorio-chant-"))
        return self._folder

    def close(self) -> None:
        """Removes the pages. A browser keeps what it shows."""
        if self._folder is not None:
            shutil.rmtree(self._folder, ignore_errors=True)
