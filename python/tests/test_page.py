"""Tries the server of `page`: what it answers of a score, whom it refuses, how much it takes, what
it lets a browser do. `tools/try_show` tries it in a browser."""
from __future__ import annotations

import json
import posixpath
import re
import select
import signal
import socket
import subprocess
import sys
import time
import unittest
from base64 import b64decode
from contextlib import suppress
from pathlib import Path
from typing import Any
from urllib.parse import urlsplit
from xml.etree import ElementTree as Xml

from asking import MOST_TIME, Asking, foreign, free_port, status_in
from drawn import HOSTILE
from pages import block
from support import EXAMPLES, FAULTY, SCORE, InFolder, command, has, without
from test_show import Page

from gregorio_chant import Format, compile, tree

_HAS_PACKAGES = has("starlette") and has("uvicorn")
MOST = 1_000_000


def _fields(messages: list[dict[str, Any]]) -> list[tuple[Any, ...]]:
    """Returns what messages say, each with its help."""
    names = ("line", "column", "code", "help")
    return [tuple(it.get(name) for name in names) for it in messages]


@unittest.skipUnless(_HAS_PACKAGES, "there is no starlette, or no uvicorn")
class Serving(Asking):
    """Each test starts the server on a free port of this machine, and ends it."""

    def setUp(self) -> None:
        super().setUp()
        self.start()

    def start(self, *words: str) -> None:
        line = [sys.executable, "-m", "gregorio_chant", "page", *words]
        self.server = subprocess.Popen(line, stdout=subprocess.PIPE, stderr=subprocess.PIPE)
        self.addCleanup(self.stop, self.server)
        assert self.server.stdout is not None
        self.address = self.server.stdout.readline().decode().strip()
        self.assertRegex(self.address, r"^http://127\.0\.0\.1:\d+/$")
        self.port = urlsplit(self.address).port or 0
        self.wait()

    def wait(self) -> None:
        """Waits until the server answers: it listens before it does."""
        self.assertEqual(self.ask("GET", "/")[0], 200)

    def stop(self, server: subprocess.Popen[bytes]) -> None:
        """Ends the server as Control-C does: it has said nothing but its address."""
        is_ended = server.poll() is not None
        server.send_signal(signal.SIGINT)
        self.assertEqual(server.communicate(timeout=MOST_TIME), (b"", b""))
        self.assertEqual(server.returncode, 143 if is_ended else 130)

    def answer(self, score: bytes, **headers: str) -> Any:
        status, body, _ = self.ask("POST", "/score", score, **headers)
        self.assertEqual(status, 200)
        return json.loads(body)

    def test_answers(self) -> None:
        """It answers the compiler's output, dump and tree, the messages that `check` writes, and
        the picture that `show --play` draws."""
        for score in (
            FAULTY.encode(),
            (EXAMPLES / "every-finding.gabc").read_bytes(),
            b"",
            b"\xff",
            b"name: a;\n%%\n(c4) a(f) b(g\n",
            HOSTILE.encode(),
        ):
            it = self.answer(score)
            shown = command("show", "--play", "-", data=score).stdout.decode()
            self.assertEqual(
                (it["canonical"], it["dump"]),
                (compile(score).output, compile(score, Format.DUMP).output),
            )
            self.assertIn(it["picture"], shown)
            self.assertEqual(b64decode(it["records"]), bytes(tree(score).records))
            checked = command("check", "--output-format", "json", "-", data=score)
            found = json.loads(checked.stdout)
            self.assertEqual(_fields(it["messages"]), _fields(found))
            page = Page(it["picture"])
            self.assertEqual({"script", "b", "foo", "img", "style"} & set(page.tags), set())
            self.assertEqual(
                [name for name in page.attributes if name.startswith("on") or name == "style"], []
            )
            Xml.fromstring(it["picture"])
        self.assertEqual(self.answer(SCORE.encode())["name"], "Kyrie")

    def test_sounds(self) -> None:
        """It answers the notes of a score for the script that sings, and none where a note has no
        height."""
        for score, wanted in (
            (
                b"name: a;\n%%\n(c4) a(f.) b(gss,)\n",
                [[2, 0, 53, 2.0], [3, 0, 55, 1.0], [3, 0, 55, 1.0], [3, 0, None, 1.0]],
            ),
            (b"%%\na(f)\n", []),
            (b"", []),
        ):
            status, body, _ = self.ask("POST", "/sounds", score)
            self.assertEqual((status, json.loads(body)), (200, wanted))

    def test_width(self) -> None:
        """A picture is as wide as it is asked for, within bounds."""
        for word, width in (
            ("", "720"),
            ("?width=400", "400"),
            ("?width=1", "280"),
            ("?width=99999", "1200"),
            ("?width=x", "720"),
            ("?width=" + "9" * 5000, "720"),
        ):
            status, body, _ = self.ask("POST", f"/score{word}", SCORE.encode())
            self.assertEqual(
                (status, Xml.fromstring(json.loads(body)["picture"]).get("width")),
                (200, width),
                word[:20],
            )

    def test_page(self) -> None:
        """The page has no script and no style within it, and asks for nothing but what the server
        has."""
        status, body, headers = self.ask("GET", "/")
        page = Page(body.decode())
        self.assertEqual((status, headers["Content-Type"]), (200, "text/html; charset=utf-8"))
        self.assertEqual((page.tags.count("script"), page.tags.count("style")), (3, 0))
        self.assertEqual(
            re.findall(rb"<script(?! src=| type=\"module\" src=)[^>]*>", body), [_DATA]
        )
        self.assertEqual([it for it in page.attributes if it.startswith("on") or it == "style"], [])
        links = {it for it in page.links if not it.startswith("data:image/svg+xml,")}
        own = {"/page/served.js", "/sing.js", "/page.css", "/chant.css"}
        self.assertEqual(links, own | set(_TO_LEARN))
        for path in own:
            self.look_at(path)

    def look_at(self, path: str, seen: set[str] | None = None) -> None:
        """Looks at a file of the page, and at all modules that it imports."""
        seen = set() if seen is None else seen
        if path in seen:
            return
        seen.add(path)
        status, body, headers = self.ask("GET", path)
        kind = "text/css" if path.endswith(".css") else "text/javascript"
        self.assertEqual((status, headers.get_content_type()), (200, kind), path)
        found = set(re.findall(rb"https?://[^\"' ]*", body))
        self.assertEqual(found - {b"http://www.w3.org/2000/svg"}, set())
        self.assertNotRegex(body, rb"url\(|@import|eval\(|innerHTML")
        for name in re.findall(r'^import .* from "([^"]*)";$', body.decode(), re.MULTILINE):
            self.look_at(posixpath.normpath(posixpath.join(posixpath.dirname(path), name)), seen)

    def test_to_learn(self) -> None:
        """The tutorial and the cheat sheet are served, each with its pictures in itself and with no
        script, and they lead to each other."""
        for path in _TO_LEARN:
            status, body, headers = self.ask("GET", path)
            page = Page(body.decode())
            self.assertEqual(
                (status, headers["Content-Type"], headers["Content-Security-Policy"]),
                (200, "text/html; charset=utf-8", _STILL),
            )
            self.assertEqual((headers["Cache-Control"], page.tags.count("script")), ("no-store", 0))
            self.assertEqual(
                {
                    f"/{it}"
                    for it in page.links
                    if not it.startswith(("data:image/svg+xml,", "https:"))
                },
                set(_TO_LEARN),
            )
            self.assertGreater(sum(it.startswith("data:") for it in page.links), 3)

    def test_policy(self) -> None:
        """Each answer forbids a browser all but the page's own parts, also one that refuses."""
        requests: list[tuple[str, str, dict[str, str], int]] = [
            ("GET", "/", {}, 200),
            ("POST", "/score", {}, 200),
            ("GET", "/other", {}, 404),
            ("GET", "/score", {}, 405),
            ("POST", "/", {}, 405),
            ("GET", "/", {"Host": "example.org"}, 403),
            ("POST", "/score", {"Content-Length": str(MOST + 1)}, 413),
        ]
        for method, path, sent, status in requests:
            got, _, headers = self.ask(method, path, b"" if method == "POST" else None, **sent)
            self.assertEqual(got, status, (method, path))
            policy = headers["Content-Security-Policy"]
            self.assertEqual(policy, _POLICY)
            self.assertEqual(headers["Cache-Control"], "no-store")
            self.assertEqual(headers["X-Content-Type-Options"], "nosniff")
            self.assertNotIn("Access-Control-Allow-Origin", headers)

    def test_foreign_requests(self) -> None:
        """A request by another name of the server, also one that leads to this machine, or of a
        page from elsewhere, is refused before its body comes."""
        for headers in foreign(self.port):
            for method, path in (("POST", "/score"), ("GET", "/"), ("GET", "/page/main.js")):
                self.assertEqual(
                    self.status_of(self.head(method, path, Content_Length="1000", **headers)),
                    403,
                    headers,
                )
        twice = self.head("GET", "/").replace(
            b"\r\n\r\n",
            b"\r\nOrigin: http://localhost:%d\r\nOrigin: http://example.org\r\n\r\n" % self.port,
        )
        self.assertEqual(self.status_of(twice), 403)
        for host in ("localhost", "127.0.0.1", f"LOCALHOST:{self.port}", f"127.0.0.1:{self.port}"):
            self.assertEqual(
                self.answer(SCORE.encode(), Host=host, Origin=f"http://{host}")["name"], "Kyrie"
            )

    def test_length(self) -> None:
        """A body of the most bytes is read, and one above is refused: before it comes where its
        length is said, and else once it is too long."""
        score = b"name: a;\n%%\n(c4) a(f)\n"
        self.assertEqual(self.answer(score + b" " * (MOST - len(score)))["name"], "a")
        self.assertEqual(
            self.status_of(self.head("POST", "/score", Content_Length=str(MOST + 1))), 413
        )
        self.assertEqual(
            self.status_of(
                self.head("POST", "/score", Content_Length=str(MOST + 1), Expect="100-continue")
            ),
            413,
        )
        piece = b"%x\r\n%s\r\n" % (100_000, b" " * 100_000)
        self.assertEqual(
            self.status_of(
                self.head("POST", "/score", Transfer_Encoding="chunked")
                + 10 * piece
                + b"1\r\n \r\n"
            ),
            413,
        )
        self.assertEqual(
            self.status_of(
                self.head("POST", "/score", Transfer_Encoding="chunked") + 10 * piece + b"0\r\n\r\n"
            ),
            200,
        )

    def test_no_request(self) -> None:
        """What is no request is answered, and no line tells of it."""
        self.assertEqual(self.status_of(b"\x16\x03\x01 no request\r\n\r\n"), 400)
        self.assertEqual(self.status_of(self.head("POST", "/score", Content_Length="x")), 400)
        self.assertEqual(
            self.status_of(self.head("POST", "/score", Content_Length="9" * 5_000)), 413
        )

    def test_loopback_alone(self) -> None:
        """No other address of this machine leads to it."""
        end = f":{self.port:04X}"
        tables = (it for it in map(Path, ("/proc/net/tcp", "/proc/net/tcp6")) if it.exists())
        rows = [line.split() for table in tables for line in table.read_text().splitlines()]
        # Who is not listening may have this port at another address.
        listening = [row[1] for row in rows if row[3] == "0A" and row[1].endswith(end)]
        self.assertEqual(listening, [f"0100007F{end}"])
        with self.assertRaises(ConnectionRefusedError):
            socket.create_connection(("127.0.0.2", self.port), timeout=MOST_TIME)

    def test_nothing_is_kept(self) -> None:
        self.answer(FAULTY.encode())
        self.assertEqual(list(self.room.iterdir()), [])

    def codes(self, score: bytes) -> set[str]:
        """Returns the codes of the messages of a score."""
        return {it["code"] for it in self.answer(score)["messages"]}

    def test_rules(self) -> None:
        score = b"name: x;\nmode: 9;\n%%\n(c4) a(f)\n"
        self.assertNotIn("unknown-mode", self.codes(score))
        self.start("--rules")
        self.assertIn("unknown-mode", self.codes(score))
        self.put("gregorio-chant.toml", "rules = true\nignore = ['E1']\n")
        self.start()
        self.assertIn("unknown-mode", self.codes(score))
        self.assertNotIn("E1", self.codes(FAULTY.encode()))
        self.start("--no-config")
        self.assertNotIn("unknown-mode", self.codes(score))

    def test_at_once(self) -> None:
        """A long score delays no other answer: a later one comes before its own."""
        slow = self.asked()
        self.await_children(1)
        self.answer(SCORE.encode())
        self.assertEqual(select.select([slow], [], [], 0)[0], [])
        self.assertEqual(status_in(slow), 200)

    def children(self) -> int:
        """Returns how many processes the server has."""
        return len(
            Path(f"/proc/{self.server.pid}/task/{self.server.pid}/children").read_text().split()
        )

    def await_children(self, number: int) -> None:
        end = time.monotonic() + MOST_TIME
        while self.children() != number and time.monotonic() < end:
            time.sleep(0.01)
        self.assertEqual(self.children(), number)

    def asked(self, **headers: str) -> socket.socket:
        """Asks about a score that takes long."""
        asked = self.connected()
        self.addCleanup(asked.close)
        asked.sendall(
            self.head("POST", "/score", Content_Length=str(len(_LONG)), **headers) + _LONG
        )
        return asked

    def test_given_up(self) -> None:
        """What is made of a score is given up when the tab goes, or asks anew."""
        gone = self.asked(Tab="a")
        self.await_children(1)
        gone.close()
        self.await_children(0)
        first = self.asked(Tab="a")
        self.await_children(1)
        other = self.asked(Tab="b")
        self.await_children(2)
        self.assertEqual(self.answer(SCORE.encode(), Tab="a")["name"], "Kyrie")
        self.assertEqual(status_in(first), 409)
        self.await_children(1)
        other.close()
        self.await_children(0)

    def test_too_many(self) -> None:
        for _ in range(16):
            self.asked()
        self.await_children(16)
        self.assertEqual(self.ask("POST", "/score", SCORE.encode())[0], 503)

    def test_gone_while_it_sends(self) -> None:
        """Of a tab that goes before all of its score has come nothing is said."""
        for path in ("/score", "/sounds"):
            with self.connected() as gone:
                gone.sendall(self.head("POST", path, Content_Length="1000") + b"name: a;")
        self.answer(SCORE.encode())

    def test_ended_while_it_draws(self) -> None:
        """It ends at once, and before it answers."""
        asked = self.asked()
        self.await_children(1)
        self.server.terminate()
        self.assertEqual(self.server.wait(MOST_TIME), 143)
        with suppress(ConnectionResetError):
            self.assertEqual(asked.recv(1), b"")

    def test_port(self) -> None:
        taken = command("page", "--port", str(self.port))
        self.assertEqual((taken.returncode, taken.stdout), (4, b""))
        self.assertEqual(
            taken.stderr.decode(),
            f"gregorio-chant: cannot serve at port {self.port}: Address already in use\n",
        )

    def test_line_of_the_page(self) -> None:
        """The line of docs/PYTHON.md serves at its port, which is a free one here."""
        port = free_port()
        words = block("docs/PYTHON.md", "test: page").replace("8080", str(port)).split()
        self.assertEqual(words[:2], ["gregorio-chant", "page"])
        self.start(*words[2:])
        self.assertEqual(self.port, port)


# The scores to choose and the helps stand in the page as data.
_DATA = b'<script type="application/json" id="data">'
_POLICY = (
    "default-src 'none'; script-src 'self'; style-src 'self'; img-src data:; connect-src 'self';"
    " base-uri 'none'; form-action 'none'; frame-ancestors 'none'"
)
_STILL = (
    "default-src 'none'; style-src 'unsafe-inline'; img-src data:; base-uri 'none'; form-action"
    " 'none'; frame-ancestors 'none'"
)
_TO_LEARN = ("/tutorial.html", "/cheatsheet.html")
# A score that takes seconds to be drawn.
_LONG = b"name: a;\n%%\n(c4) " + b"Ky(f)ri(gfg)e(e.) " * 20_000


# Computes an answer that nobody reads, and prints how the process ended that made it.
_UNREAD = """
import os, time
from gregorio_chant.web.computing import _Computation
computation = _Computation(lambda: time.sleep(0.2) or bytes(1_000_000))
os.close(computation._source)
computation._process.join()
print(-computation._process.exitcode)
"""


class Unread(unittest.TestCase):
    @unittest.skipUnless(sys.platform == "linux", "the server runs on Linux")
    def test_says_nothing(self) -> None:
        """A process whose answer is given up while it writes ends at once, with no traceback."""
        ran = subprocess.run([sys.executable, "-c", _UNREAD], capture_output=True, timeout=60)
        self.assertEqual((ran.stdout, ran.stderr), (b"%d\n" % signal.SIGPIPE, b""))


class Words(InFolder):
    def test_refused(self) -> None:
        for words in (("--port", "x"), ("--port", "65536"), ("--port", "-1"), ("a.gabc",)):
            self.assertEqual(command("page", *words).returncode, 3, words)

    @unittest.skipUnless(_HAS_PACKAGES, "there is no starlette, or no uvicorn")
    def test_settings(self) -> None:
        self.put("gregorio-chant.toml", "rule = true\n")
        ran = command("page")
        self.assertEqual((ran.returncode, ran.stdout), (3, b""))

    @unittest.skipUnless(_HAS_PACKAGES, "there is no starlette, or no uvicorn")
    def test_missing(self) -> None:
        for package in ("starlette", "uvicorn"):
            room = self.room / package
            room.mkdir()
            ran = command("page", environment=without(room, package))
            told = (
                f"gregorio-chant: page needs the package {package}: apt install"
                f" python3-{package} in Debian, else pip install {package}\n"
            )
            self.assertEqual((ran.returncode, ran.stdout, ran.stderr.decode()), (3, b"", told))


if __name__ == "__main__":
    unittest.main()
