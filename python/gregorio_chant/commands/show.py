"""The sub-command `show`: its arguments."""
from __future__ import annotations

import argparse

from gregorio_chant.commands.words import (
    OUTSIDE,
    Parser,
    add_files,
    add_flags,
    add_no_config,
    epilog,
    positive,
    shared,
)
from gregorio_chant.errors import UsageError
from gregorio_chant.pictures.alone import USUAL_WIDTH
from gregorio_chant.pictures.look import Look
from gregorio_chant.pictures.outlines import AUTO, HANDS, SQUARE, TEXT, Face
from gregorio_chant.pictures.plain import PlainFace
from gregorio_chant.show import showing
from gregorio_chant.work.needs import need
from gregorio_chant.work.statuses import CANNOT_READ_OR_WRITE
from gregorio_chant.work.streams import is_terminal, printable, reason_of, tell

ABOUT = f"""Writes a page with a picture of each score, its messages and its source. The page needs
no script and no network. From folders only the scores with messages are shown, at most
{showing.MOST} of them. With -o FOLDER/ each score has a page, and an index leads to them. The
picture is a view of the score, and no typesetting. {OUTSIDE}"""
EPILOG = epilog(
    (
        "gregorio-chant show -o page.html score.gabc",
        "gregorio-chant show -o pages/ scores",
        "gregorio-chant show --svg --no-messages score.gabc >score.svg",
    )
)

_HANDS = (AUTO, *HANDS, TEXT)


def add(parser: Parser) -> None:
    """Adds the arguments of `show`."""
    add_files(parser)
    parser.add_argument(
        "-o",
        "--output",
        metavar="FILE",
        help=(
            "write the page into this file; into a folder, or a name that ends in /, write an index"
            " and a page for each score"
        ),
    )
    parser.add_argument(
        "--width",
        type=positive,
        default=int(USUAL_WIDTH),
        metavar="N",
        help="the width of a picture in pixels (default %(default)s)",
    )
    parser.add_argument(
        "--face",
        choices=("square", "plain"),
        default="square",
        help="draw square notes as chant books have them, or in plain shapes (default %(default)s)",
    )
    parser.add_argument(
        "--neumes",
        choices=_HANDS,
        default=AUTO,
        metavar="HAND",
        help=f"the hand of NABC: {', '.join(_HANDS)}; auto (default) chooses it by the score",
    )
    parser.add_argument(
        "--font",
        metavar="FILE",
        help=(
            "draw neumes with this font, which must have GregorioTeX's glyph names, as"
            " greciliae.ttf"
        ),
    )
    add_flags(
        parser,
        {
            "--svg": "write only the picture of one score, as SVG",
            "--no-initial": "leave the first letter in the text, whatever initial-style says",
            "--no-messages": "leave out the messages, and the line about signs that are not drawn",
            "--play": (
                "let the page sing each score, with a script; a double click on a syllable begins"
                " there"
            ),
            "--watch": "write the page again when a score changes, until Control-C ends it",
            "--rules": "also try the rules",
        },
    )
    add_no_config(parser)


def run(words: argparse.Namespace) -> int:
    """Writes the page. Raises `UsageError`, also if a page would go to a terminal, `WriteError`,
    `MissingDependency` and `SettingsError`."""
    if words.output is None and is_terminal():
        raise UsageError("a page is not for a terminal: write it into a file, as with -o page.html")
    try:
        face = _face(words)
    except OSError as error:
        tell(f"cannot read {printable(words.font)}: {reason_of(error)}")
        return CANNOT_READ_OR_WRITE
    if not words.watch:
        return showing.show(_options(words, face)).status
    need("show --watch", "watchdog")
    from gregorio_chant.show.watching import watch

    return watch(lambda: _options(words, face))


def _options(words: argparse.Namespace, face: Face) -> showing.Options:
    look = Look(
        float(words.width),
        face,
        words.neumes,
        has_initial=not words.no_initial,
        has_notes=not words.no_messages,
    )
    return showing.Options(
        **shared(words),
        output=words.output,
        svg=words.svg,
        look=look,
        with_messages=not words.no_messages,
        sings=words.play,
        with_rules=words.rules,
    )


def _face(words: argparse.Namespace) -> Face:
    """Returns the outlines that are wanted. Raises `OSError` if a font cannot be read."""
    if words.font is not None:
        return _face_of(words.font)
    return PlainFace() if words.face == "plain" else SQUARE


def _face_of(font: str) -> Face:
    need("show --font", "fonttools")
    from gregorio_chant.pictures.font import NoFace, face_of

    try:
        return face_of(font)
    except NoFace:
        raise UsageError(
            f"--font {printable(font)}: it is no font with the glyph names of GregorioTeX, as"
            " greciliae.ttf"
        ) from None
