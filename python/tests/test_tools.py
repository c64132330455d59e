"""Tries the worked tools of examples/tools: what they print, how long they are, and a server that
is ended in the middle of an upload."""
from __future__ import annotations

import json
import os
import re
import resource
import socket
import subprocess
import sys
import time
from collections.abc import Callable
from pathlib import Path
from urllib.parse import urlsplit

from asking import MOST_TIME, Asking, foreign, status_in
from support import EXAMPLES, InFolder

from gregorio_chant import compile

TOOLS = EXAMPLES / "tools"


def run(tool: str, *words: str, data: bytes = b"") -> subprocess.CompletedProcess[bytes]:
    return subprocess.run(
        [sys.executable, str(TOOLS / tool), *words],
        input=data,
        capture_output=True,
        check=False,
        timeout=600,
    )


class Tools(InFolder):
    def test_length(self) -> None:
        tools = sorted(TOOLS.glob("*.py"))
        self.assertEqual(
            [it.name for it in tools],
            [
                "incipits.py",
                "messages.py",
                "neumes.py",
                "steps.py",
                "tidy.py",
                "transpose.py",
                "upload_server.py",
            ],
        )
        for it in tools[:6]:
            self.assertLessEqual(it.read_text(encoding="utf-8").count("\n"), 10)

    def test_incipits(self) -> None:
        self.put(
            "a/1.gabc",
            "name: Veni;\n%%\n(c4) Ve(gh)ni(g) Cre(ixi)<i>á</i>(f)tor,(gh) (,) a b c d e f(g)",
        )
        self.put("2.gabc", "%%\n(fb3) A(h)ve[Hail](fe)")
        ran = run("incipits.py", ".")
        self.assertEqual(
            ran.stdout.decode(),
            (
                "2.gabc, fa re ut, Ave\nVeni, sol la sol si♭ fa sol la sol, Veni Creátor, a b c d"
                " e f\n"
            ),
            ran.stderr,
        )

    def test_messages(self) -> None:
        self.put("a.gabc", "name: a;\n%%\n(c4) a>(f)")
        self.put("b.gabc", "name: b;\n%%\n(c4) b(f)")
        told = json.loads(run("messages.py", "a.gabc", "b.gabc").stdout)
        self.assertEqual(
            [
                (name, [(it["code"], it["repair"]["name"]) for it in them])
                for name, them in told.items()
            ],
            [("a.gabc", [("E2", "escape")]), ("b.gabc", [])],
        )

    def test_tidy(self) -> None:
        ran = run("tidy.py", data="name:a ;\r\n%%\r\n(c4)  á>(f)  % b\r\n".encode())
        self.assertEqual(
            (ran.returncode, ran.stdout.decode()),
            (0, "name: a;\r\n%%\r\n(c4) á$>(f) % b\r\n"),
            ran.stderr,
        )
        for data, told in (
            (b"name: a;\n", "2:1: F2: no %% line"),
            (b"%%\n(c4) a\xff(f)", "2:7: F1: not UTF-8"),
        ):
            ran = run("tidy.py", data=data)
            self.assertEqual(
                (ran.returncode, ran.stdout, ran.stderr.decode().splitlines()),
                (1, b"", ["it is not whole", told]),
            )

    def test_transpose(self) -> None:
        moved = 0
        for score in sorted(EXAMPLES.glob("*.gabc")):
            data = score.read_bytes()
            up = run("transpose.py", "1", data=data)
            if up.returncode == 0:
                moved += 1
                self.assertNotEqual(up.stdout, data)
                self.assertEqual(run("transpose.py", "-1", data=up.stdout).stdout, data)
        self.assertGreater(moved, 5)
        self.assertEqual(
            run("transpose.py", "2", data=b"%%\r\n(c4)  a(-fGh+ix[a]) % (f)").stdout,
            b"%%\r\n(c4)  a(-hIj+kx[a]) % (f)",
        )
        high = run("transpose.py", "1", data=b"%%\n(c4) a(fp)")
        self.assertEqual(
            (high.stdout, high.stderr.split(b"\n")[-2], high.returncode),
            (b"", b"gregorio_chant.objects.edits.EditError: 2:9: there is no room for p", 1),
        )

    def test_neumes(self) -> None:
        self.put("a.gabc", "%%\n(c4) a(fg) % c\n b(fgf fghGF) c(gh)")
        self.put("b.gabc", "%%\n(c4) a(f[x]g)")
        self.assertEqual(
            run("neumes.py", "a.gabc", "b.gabc").stdout.decode().split("\n"),
            [
                "a.gabc:2:8: pes fg a",
                "a.gabc:3:4: torculus fgf b",
                "a.gabc:3:8: scandicus-subpunctis fghGF b",
                "a.gabc:3:17: pes gh c",
                "b.gabc:2:8: pes f[x]g a",
                "",
            ],
        )

    def test_steps(self) -> None:
        self.put("a.gabc", "%%\n(c4) a(fg) % c\n b(fgf fghGF) (c3) c(dc)")
        self.assertEqual(
            run("steps.py", "a.gabc", "1", "-1").stdout, b"a.gabc:2:8\na.gabc:3:4\na.gabc:3:9\n"
        )


class UploadServer(Asking):
    """Each test starts the server on a free port of this machine, and ends it."""

    def setUp(self) -> None:
        super().setUp()
        self.server: subprocess.Popen[str] | None = None
        self.start()
        self.addCleanup(self.stop)

    def start(self, *words: str) -> None:
        line = [sys.executable, str(TOOLS / "upload_server.py"), "scores", *words]
        with open("told", "ab") as told:
            self.server = subprocess.Popen(line, stdout=subprocess.PIPE, stderr=told, text=True)
        assert self.server.stdout is not None
        self.port = urlsplit(self.server.stdout.readline().strip()).port or 0

    def stop(self) -> None:
        """Ends the server at once, whatever it does."""
        assert self.server is not None and self.server.stdout is not None
        self.server.kill()
        self.server.wait(MOST_TIME)
        self.server.stdout.close()
        self.assertEqual(Path("told").read_text(encoding="utf-8"), "")

    def begin(self, format: str = "gabc") -> str:
        status, _, headers = self.ask("POST", f"/scores?format={format}")
        self.assertEqual(status, 201)
        self.assertRegex(headers["Location"], r"^/scores/[0-9a-f]{32}$")
        return str(headers["Location"])

    def offset(self, path: str) -> int:
        return int(self.ask("HEAD", path)[2]["Upload-Offset"])

    def send(self, path: str, score: bytes, count: int) -> None:
        """Sends at most `count` more bytes of the score, from where the server stands."""
        at = self.offset(path)
        piece = score[at : at + count]
        status, _, headers = self.ask("PATCH", path, piece, Upload_Offset=str(at))
        self.assertEqual((status, headers["Upload-Offset"]), (204, str(at + len(piece))))

    def check_answers(self, path: str, score: bytes, format: str) -> None:
        result = compile(score, format)
        self.assertEqual(self.ask("POST", f"{path}/end")[:2], (200, b"%d\n" % result.status))
        self.assertEqual(self.ask("GET", path)[1], result.output.encode())
        self.assertEqual(self.ask("GET", f"{path}/messages")[1], result.messages_text.encode())

    def test_restarts(self) -> None:
        """The server is ended and started again after each piece."""
        score = (EXAMPLES / "introit.gabc").read_bytes()
        for format in ("gabc", "dump"):
            path = self.begin(format)
            while self.offset(path) < len(score):
                self.send(path, score, 400)
                self.stop()
                self.start()
            self.check_answers(path, score, format)

    def test_no_path(self) -> None:
        for method in ("GET", "POST", "PATCH", "HEAD"):
            self.assertEqual(self.status_of(self.head(method, "http://[", Content_Length="0")), 400)

    def test_full_disk(self) -> None:
        """Where there is no room for more the answer says so, and after room was made the upload
        goes on."""
        score = (EXAMPLES / "introit.gabc").read_bytes()
        path = self.begin()
        self.send(path, score, 100)
        assert self.server is not None
        none, _ = resource.prlimit(
            self.server.pid, resource.RLIMIT_FSIZE, (10, resource.RLIM_INFINITY)
        )
        self.assertEqual(
            self.ask("POST", "/scores")[:2], (507, b"there is no room for this score\n")
        )
        self.assertEqual(self.ask("PATCH", path, score[100:200], Upload_Offset="100")[0], 507)
        self.assertEqual(self.ask("POST", f"{path}/end")[0], 507)
        self.assertEqual(len(os.listdir("scores")), 1)
        resource.prlimit(self.server.pid, resource.RLIMIT_FSIZE, (none, resource.RLIM_INFINITY))
        self.send(path, score, len(score))
        self.check_answers(path, score, "gabc")

    def test_broken_connection(self) -> None:
        """What came before a connection broke is kept, and what the server wrote after its last
        state is cut off."""
        score = (EXAMPLES / "every-finding.gabc").read_bytes()
        path = self.begin()
        with self.connected() as half:
            half.sendall(
                self.head("PATCH", path, Upload_Offset="0", Content_Length=str(len(score)))
                + score[:100]
            )
            half.shutdown(socket.SHUT_WR)
            self.assertEqual(half.recv(100), b"")
        self.assertEqual(self.offset(path), 100)
        self.stop()
        for name in ("output", "messages"):
            with (Path("scores") / path[8:] / name).open("ab") as file:
                file.write(b"what no state tells")
        self.start()
        self.send(path, score, len(score))
        self.check_answers(path, score, "gabc")

    def test_fatal_fault(self) -> None:
        score = b"name: a;\n%%\n(c4) a(f) b(g)\xff c(h)"
        path = self.begin()
        self.send(path, score, len(score))
        self.assertEqual(self.ask("PATCH", path, b"a", Upload_Offset=str(len(score)))[0], 409)
        self.check_answers(path, score, "gabc")

    def test_reading_while_writing(self) -> None:
        """While a slow piece comes, HEAD and GET answer what is known, and do not wait for its
        end."""
        score = (EXAMPLES / "introit.gabc").read_bytes()
        path = self.begin()
        with self.connected() as slow:
            slow.sendall(
                self.head("PATCH", path, Upload_Offset="0", Content_Length=str(len(score)))
                + score[:200]
            )
            end = time.monotonic() + MOST_TIME
            while self.offset(path) < 200:
                self.assertLess(time.monotonic(), end)
            # One that waits is refused in the end.
            status, known, _ = self.ask("GET", path)
            self.assertEqual(status, 200)
            self.assertTrue(compile(score).output.encode().startswith(known) and known)
            slow.sendall(score[200:])
            self.assertEqual(status_in(slow), 204)
        self.check_answers(path, score, "gabc")

    def test_damage(self) -> None:
        """Each request for a score of which the state or a text is damaged is answered with 500 and
        a line. It can be forgotten."""
        score = (EXAMPLES / "introit.gabc").read_bytes()
        damages: list[tuple[str, Callable[[bytes], bytes]]] = [
            ("state", lambda it: it[:20]),
            ("state", lambda it: b""),
            ("state", lambda it: b"\xff" + it),
            ("state", lambda it: it[:-1]),
            ("state", lambda it: it.replace(b'"offset"', b'"other"')),
            ("state", lambda it: b"[]\n" + it),
            ("output", lambda it: it[:-1]),
            ("state", lambda it: re.sub(rb'"messages": \d+', b'"messages": -1', it)),
        ]
        for name, damage in damages:
            path = self.begin()
            self.send(path, score, 200)
            file = Path("scores") / path[8:] / name
            before = file.read_bytes()
            file.write_bytes(damage(before))
            self.assertNotEqual(file.read_bytes(), before)
            told = b"what is kept of the score %s is damaged\n" % path[8:].encode()
            for method, where in (("PATCH", path), ("POST", f"{path}/end")):
                self.assertEqual(
                    self.ask(method, where, b"a", Upload_Offset="200")[:2], (500, told)
                )
            self.assertEqual(self.ask("DELETE", path)[0], 204)

    def test_age(self) -> None:
        """A score to which nothing came for too long is let go, and nothing else in the folder
        is."""
        old, new = self.begin(), self.begin()
        Path("scores/other").mkdir()
        Path("scores/file").touch()
        self.stop()
        self.start("0", "1000")
        os.utime(Path("scores") / old[8:] / "state", (time.time() - 2000,) * 2)
        self.assertEqual([self.ask("HEAD", it)[0] for it in (old, new)], [404, 200])
        newest = self.begin()
        self.assertEqual(
            {it.name for it in Path("scores").iterdir()}, {"other", "file", new[8:], newest[8:]}
        )

    def test_foreign_requests(self) -> None:
        """A request by another name of the server, or of a page from elsewhere, is refused before
        its body comes."""
        path = self.begin()
        own = f"127.0.0.1:{self.port}"
        for headers in ({"Host": own}, {"Host": own, "Origin": f"http://{own}"}):
            asked = self.head(
                "PATCH", path, Upload_Offset=str(self.offset(path)), Content_Length="1", **headers
            )
            self.assertEqual(self.status_of(asked + b"%"), 204, headers)
        for headers in foreign(self.port):
            asked = self.head(
                "PATCH",
                path,
                Upload_Offset=str(self.offset(path)),
                Content_Length="1000",
                **headers,
            )
            self.assertEqual(self.status_of(asked), 403, headers)
        self.assertEqual(self.offset(path), 2)

    def test_refusals(self) -> None:
        path = self.begin()
        requests: list[tuple[str, str, dict[str, str], int]] = [
            ("POST", "/scores?format=gtex", {}, 400),
            ("POST", "/other", {}, 404),
            ("GET", "/scores/../state", {}, 404),
            ("GET", f"{path}/state", {}, 404),
            ("GET", "/scores/" + "0" * 32, {}, 404),
            ("PATCH", path, {}, 400),
            ("PATCH", path, {"Upload-Offset": "1"}, 409),
            ("PATCH", path, {"Upload-Offset": "-1"}, 400),
            ("PATCH", path, {"Upload-Offset": "0", "Content-Length": str(1 << 30)}, 413),
        ]
        for method, where, headers, status in requests:
            self.assertEqual(
                self.ask(method, where, b"" if method == "PATCH" else None, **headers)[0],
                status,
                (method, where),
            )
        self.assertEqual(self.ask("DELETE", path)[0], 204)
        self.assertEqual(self.ask("HEAD", path)[0], 404)
        self.assertEqual(list(Path("scores").iterdir()), [])
