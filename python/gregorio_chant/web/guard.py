"""What stands before every answer of the page's server: who may ask, how much may be sent, and what
a browser may do with the answer."""
from __future__ import annotations

from collections.abc import Collection

from starlette.datastructures import Headers, MutableHeaders
from starlette.responses import PlainTextResponse
from starlette.types import ASGIApp, Message, Receive, Scope, Send

from gregorio_chant.errors import GregorioError
from gregorio_chant.pictures.page import MOST_BYTES
from gregorio_chant.web.loopback import is_of_this_place

# The policy for a page with its style and its pictures in itself, and with no script.
STILL = (
    "default-src 'none'; style-src 'unsafe-inline'; img-src data:; base-uri 'none'; form-action"
    " 'none'; frame-ancestors 'none'"
)
_POLICY = (
    "default-src 'none'; script-src 'self'; style-src 'self'; img-src data:; connect-src 'self';"
    " base-uri 'none'; form-action 'none'; frame-ancestors 'none'"
)
_HEADERS = {
    "Content-Security-Policy": _POLICY,
    "X-Content-Type-Options": "nosniff",
    "Referrer-Policy": "no-referrer",
    "Cross-Origin-Resource-Policy": "same-origin",
    "Cross-Origin-Opener-Policy": "same-origin",
    "Cache-Control": "no-store",
}


class TooLong(GregorioError):
    """A body has more than `MOST_BYTES` bytes."""


class Guard:
    """Lets requests through to `app` that were sent to a server of these names, by none but its own
    page, and that say of no body above `MOST_BYTES` bytes. No other body is read."""

    def __init__(self, app: ASGIApp, names: Collection[str]) -> None:
        self._app, self._names = app, names

    async def __call__(self, scope: Scope, receive: Receive, send: Send) -> None:
        async def guarded(message: Message) -> None:
            if message["type"] == "http.response.start":
                answered = MutableHeaders(scope=message)
                for name, value in _HEADERS.items():
                    answered.setdefault(name, value)
            await send(message)

        headers = Headers(scope=scope)
        if not is_of_this_place(headers.getlist("host"), headers.getlist("origin"), self._names):
            await _refusal(403, "only for pages of this server")(scope, receive, guarded)
        elif _announced(headers) > MOST_BYTES:
            await too_long()(scope, receive, guarded)
        else:
            await self._app(scope, receive, guarded)


def _announced(headers: Headers) -> int:
    """Returns how many bytes of a body a request says that it has."""
    length = headers.get("content-length", "0")
    return int(length) if length.isdecimal() and len(length) < 20 else MOST_BYTES + 1


def _refusal(status: int, line: str) -> PlainTextResponse:
    """Returns an answer after which the connection ends, since a body may not have been read."""
    return PlainTextResponse(f"{line}\n", status, {"Connection": "close"})


def too_long() -> PlainTextResponse:
    """Returns the answer to a request with too long a body."""
    return _refusal(413, f"a score has {MOST_BYTES:,} bytes at most here")
