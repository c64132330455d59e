"""What the tests of servers share: requests to a server of this machine, and those that it has to
refuse."""
from __future__ import annotations

import http.client
import random
import socket

from support import InFolder

# How long an answer may take on a busy machine, in seconds: no test asks how long one takes.
MOST_TIME = 300.0


def free_port() -> int:
    """Returns a port of this machine that is free. It is none of those that a system gives to
    whoever asks for any: one of these may be taken before it is used."""
    while True:
        port = random.randrange(20_000, 30_000)
        with socket.socket() as it:
            try:
                it.bind(("127.0.0.1", port))
            except OSError:
                continue
            return port


def status_in(answer: socket.socket) -> int:
    """Returns the status of an answer, in whatever pieces it comes."""
    with answer.makefile("rb") as lines:
        return int(lines.readline().split(b" ")[1])


def foreign(port: int) -> list[dict[str, str]]:
    """Returns the headers of requests that were sent by another name of the server at this port, or
    by a page from elsewhere."""
    own = f"127.0.0.1:{port}"
    return [
        {"Host": "example.org"},
        {"Host": f"localhost.example:{port}"},
        {"Host": f"a.{own}"},
        {"Host": f"127.0.0.1:{port + 1}"},
        {"Host": f"[::1]:{port}"},
        {"Host": own, "Origin": "http://example.org"},
        {"Host": own, "Origin": "null"},
        {"Host": own, "Origin": f"https://{own}"},
        {"Host": own, "Origin": "http://127.0.0.1"},
        {"Host": own, "Origin": f"http://localhost:{port}"},
        {"Host": own, "Origin": ""},
        {"Host": ""},
        {"Host": "example.org", "Expect": "100-continue"},
        {"Host": own, "Origin": "http://example.org", "Expect": "100-continue"},
    ]


class Asking(InFolder):
    """Tests that ask a server at `port` of this machine."""

    port = 0

    def ask(
        self, method: str, path: str, body: bytes | None = None, **headers: str
    ) -> tuple[int, bytes, http.client.HTTPMessage]:
        """Makes a request, and returns the status, the body and the headers of the answer."""
        asked = http.client.HTTPConnection("127.0.0.1", self.port, timeout=MOST_TIME)
        asked.request(
            method, path, body, {name.replace("_", "-"): it for name, it in headers.items()}
        )
        answer = asked.getresponse()
        got = (answer.status, answer.read(), answer.headers)
        asked.close()
        return got

    def head(self, method: str, path: str, **headers: str) -> bytes:
        """Returns the head of a request with these headers, and with the server's own name where
        they have none."""
        lines = [
            f"{name.replace('_', '-')}: {it}"
            for name, it in {"Host": f"localhost:{self.port}", **headers}.items()
        ]
        return "\r\n".join([f"{method} {path} HTTP/1.1", *lines, "", ""]).encode()

    def status_of(self, asked: bytes) -> int:
        """Sends these bytes, and returns the status of the answer that comes with no more."""
        with self.connected() as it:
            it.sendall(asked)
            return status_in(it)

    def connected(self) -> socket.socket:
        """Returns a connection to the server."""
        return socket.create_connection(("127.0.0.1", self.port), timeout=MOST_TIME)
