"""The page, the pages to learn from, and the answers, as an application for a server."""
from __future__ import annotations

import json
from collections.abc import Callable, Collection, Mapping
from dataclasses import asdict
from pathlib import Path
from typing import Any

from starlette.applications import Starlette
from starlette.requests import ClientDisconnect, Request
from starlette.responses import Response
from starlette.routing import Route
from starlette.types import ASGIApp

from gregorio_chant import __version__
from gregorio_chant.pictures.alone import USUAL_WIDTH
from gregorio_chant.pictures.page import CHANT_STYLE, MOST_BYTES, SINGER
from gregorio_chant.web.answers import Answers
from gregorio_chant.web.computing import Computations, GivenUp, TooMany
from gregorio_chant.web.guard import STILL, Guard, TooLong, too_long
from gregorio_chant.web.sources import filled, page_data, page_source, scripts

# The header in which the page says which tab of the browser it is.
_TAB = "tab"
_TYPES = {".html": "text/html", ".css": "text/css", ".js": "text/javascript"}
_LEAST_WIDTH, _MOST_WIDTH, _MOST_DIGITS = 280, 1200, 6
_STYLES = '<link rel="stylesheet" href="/page.css">\n<link rel="stylesheet" href="/chant.css">'
_SCRIPTS = '<script src="/sing.js"></script>\n<script type="module" src="/page/served.js"></script>'


def _page() -> str:
    """Returns the page, which has its scripts and its styles from this server."""
    return filled(
        {
            "POLICY": "",
            "ORIGIN": __version__,
            "VERSION": __version__,
            "STYLE": _STYLES,
            "DATA": page_data(),
            "SCRIPT": _SCRIPTS,
        }
    )


def _files() -> dict[str, str]:
    """Returns the files of the page by their paths."""
    return {
        "/": _page(),
        "/sing.js": SINGER,
        "/page.css": page_source("page.css"),
        "/chant.css": CHANT_STYLE,
        **{f"/{path}": content for path, content in scripts().items()},
    }


def _to_learn() -> dict[str, str]:
    """Returns the tutorial and the cheat sheet by their paths. Each is one file, with its style and
    its pictures."""
    return {
        f"/{it.name}": it.read_text(encoding="utf-8")
        for it in sorted(Path(__file__).with_name("learn").glob("*.html"))
    }


def _route_of(path: str, content: str, headers: Mapping[str, str] | None = None) -> Route:
    kind = _TYPES[Path(path).suffix or ".html"]

    async def answer(_: Request) -> Response:
        return Response(content, media_type=kind, headers=headers)

    return Route(path, answer)


async def _body_of(request: Request) -> bytes:
    """Returns the body of a request. Raises `TooLong` once too much of it has come."""
    body = bytearray()
    async for piece in request.stream():
        body += piece
        if len(body) > MOST_BYTES:
            raise TooLong
    return bytes(body)


def _width_of(request: Request) -> float:
    """Returns how wide a picture is asked for, within bounds."""
    word = request.query_params.get("width", "")
    width = (
        int(word)
        if word.isascii() and word.isdecimal() and len(word) < _MOST_DIGITS
        else int(USUAL_WIDTH)
    )
    return float(min(max(width, _LEAST_WIDTH), _MOST_WIDTH))


def _json_of(made: object) -> bytes:
    return json.dumps(made, ensure_ascii=False, separators=(",", ":")).encode("utf-8")


def app_of(answers: Answers, names: Collection[str]) -> ASGIApp:
    """Returns the application of a server of these names."""
    computations = Computations()

    async def answered(request: Request, make: Callable[[bytes], Any]) -> Response:
        tab = request.headers.get(_TAB)
        try:
            data = await _body_of(request)
            made = await computations.answer(
                None if tab is None else (tab, request.url.path),
                lambda: _json_of(make(data)),
                request.receive,
            )
        except TooLong:
            return too_long()
        except (ClientDisconnect, GivenUp):
            return Response("the score was given up: another one came, or reading it failed\n", 409)
        except TooMany:
            return Response("too many scores are read at this moment\n", 503)
        except MemoryError:
            return Response("no memory\n", 507)
        return Response(made, media_type="application/json")

    async def score(request: Request) -> Response:
        width = _width_of(request)
        return await answered(request, lambda data: asdict(answers.of(data, width)))

    async def sounds(request: Request) -> Response:
        return await answered(request, answers.sounds_of)

    routes = [
        *(_route_of(path, content) for path, content in _files().items()),
        *(
            _route_of(path, content, {"Content-Security-Policy": STILL})
            for path, content in _to_learn().items()
        ),
        Route("/score", score, methods=["POST"]),
        Route("/sounds", sounds, methods=["POST"]),
    ]
    return Guard(Starlette(routes=routes), names)
