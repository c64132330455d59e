"""Compiles scores as they are uploaded, in pieces of any length:

python upload_server.py FOLDER [PORT [AGE]]

    POST   /scores?format=gabc        begins a score, or with `dump` its dump; `Location` in the answer is its path
    HEAD   /scores/NAME               says in `Upload-Offset` how many bytes have come
    PATCH  /scores/NAME               sends the bytes from the request's `Upload-Offset` on
    POST   /scores/NAME/end           ends the score, and answers its status: 0, 1 or 2
    GET    /scores/NAME               answers the output as far as it is known
    GET    /scores/NAME/messages      answers the messages as far as they are known
    DELETE /scores/NAME               forgets the score

No score stands in memory. What a run knows is a state of bytes, which is written into a file below
FOLDER with each piece. So the server may be ended at any moment and started again, and whoever
uploads goes on at the offset that it reports. HEAD and GET answer at once, also while a score is
written. A score to which nothing came for AGE seconds (a day, where that is not given) is let go.
Where the state of a score is damaged, its requests but DELETE are answered with 500 and a line.
Where the disk is full they are answered with 507: after room was made the upload goes on.

It listens on this machine alone, and knows no users. A request whose `Host` or `Origin` names
another place is refused with 403 before its body is read, so that no page of the web can send
one. It is an example, and is only tested: nothing is forced to the disk, so a loss of power may
take what came last.
"""
from __future__ import annotations

import errno
import json
import os
import re
import secrets
import shutil
import sys
import threading
import time
from collections.abc import Callable, Iterator, Mapping
from contextlib import contextmanager
from dataclasses import dataclass
from http import HTTPStatus
from http.server import BaseHTTPRequestHandler, ThreadingHTTPServer
from pathlib import Path
from typing import BinaryIO
from urllib.parse import SplitResult, parse_qs, urlsplit

from gregorio_chant import Format, Run, StateError, Step
from gregorio_chant.web.loopback import ADDRESS, is_of_this_place, own_names

MOST_SCORES = 1000
MOST_BYTES = 64 << 20
PIECE = 1 << 16
WAITS = 10
AGE = 24 * 60 * 60
NAMES = ("output", "messages")
NAME = "[0-9a-f]{32}"
PATH = re.compile(f"/scores/({NAME})(/messages|/end)?")


class Refused(Exception):
    """A request that is answered with this status, and with a line where there is something to
    say."""

    def __init__(self, status: HTTPStatus, line: str = "") -> None:
        super().__init__(line)
        self.status = status
        self.body = f"{line}\n".encode() if line else b""


def _damaged(folder: Path) -> Refused:
    return Refused(HTTPStatus.INTERNAL_SERVER_ERROR, f"what is kept of the score {folder.name} is damaged")


@dataclass(frozen=True)
class Known:
    """What is known of a score: how many bytes of it came, its status once it is over, and how
    many bytes its texts have."""

    format: Format
    offset: int
    status: int | None
    lengths: Mapping[str, int]
    state: bytes

    @classmethod
    def read(cls, folder: Path) -> Known:
        """Reads what stands in the folder of a score, which may be written meanwhile. Raises
        `Refused` where it is damaged, or not there any more."""
        try:
            head, _, state = (folder / "state").read_bytes().partition(b"\n")
            it = json.loads(head)
            known = cls(Format(it["format"]), int(it["offset"]), it["status"], {name: int(it[name]) for name in NAMES}, state)
            if known.status not in (None, 0, 1, 2) or not all(0 <= known.lengths[name] <= (folder / name).stat().st_size for name in NAMES):
                raise ValueError("no lengths of these texts, or no status")
        except FileNotFoundError:
            raise (_damaged(folder) if (folder / "state").exists() else Refused(HTTPStatus.NOT_FOUND)) from None
        except (ValueError, KeyError, TypeError):
            raise _damaged(folder) from None
        return known


def _opened(file: Path) -> BinaryIO:
    """Opens a text of a score. Raises `Refused` where it was forgotten meanwhile."""
    try:
        return file.open("rb")
    except FileNotFoundError:
        raise Refused(HTTPStatus.NOT_FOUND) from None


class Upload:
    """A score that is uploaded, in a folder of its own: its output, its messages, and a file
    with the state of its run."""

    def __init__(self, folder: Path) -> None:
        """Takes up the score where its state stands. What a server that was ended has written
        after that is cut off. Raises `Refused`."""
        known = Known.read(folder)
        self.folder, self.format, self.offset, self.status = folder, known.format, known.offset, known.status
        self.lengths = dict(known.lengths)
        try:
            self.run = None if self.status is not None else Run.restore(known.state, self.format)
        except StateError:
            raise _damaged(folder) from None
        for name, length in self.lengths.items():
            os.truncate(folder / name, length)

    @classmethod
    def begin(cls, folder: Path, format: Format) -> None:
        """Makes the folder of a new score."""
        folder.mkdir()
        try:
            for name in NAMES:
                (folder / name).touch()
            _save(folder, {"format": format.value, "offset": 0, "status": None, "output": 0, "messages": 0}, Run(format).state)
        except OSError:
            shutil.rmtree(folder, ignore_errors=True)
            raise

    def feed(self, piece: bytes) -> None:
        """Reads the next bytes. After a fatal fault they are counted and not read."""
        step = self.run.feed(piece) if self.run else None
        self.offset += len(piece)
        self._keep(step)

    def end(self) -> int:
        """Ends the score, and returns its status."""
        if self.run:
            self._keep(self.run.end())
        return int(self.status or 0)

    def _keep(self, step: Step | None) -> None:
        """Adds what became known to the files, and then puts the new state in the place of the
        old one."""
        if step:
            for name, text in (("output", step.output), ("messages", step.messages_text)):
                with (self.folder / name).open("ab") as file:
                    self.lengths[name] += file.write(text.encode())
            if step.status is not None:
                self.run, self.status = None, int(step.status)
        known = {"format": self.format.value, "offset": self.offset, "status": self.status, **self.lengths}
        _save(self.folder, known, self.run.state if self.run else b"")


def _save(folder: Path, known: Mapping[str, object], state: bytes) -> None:
    """Writes the file with the state beside the old one, and puts it in its place in one step."""
    new = folder / "state.new"
    new.write_bytes(json.dumps(known).encode() + b"\n" + state)
    new.replace(folder / "state")


class Server(ThreadingHTTPServer):
    """The server over a folder of scores."""

    daemon_threads = True

    def __init__(self, folder: Path, port: int, age: float) -> None:
        super().__init__((ADDRESS, port), Handler)
        self.folder = folder
        self.names = own_names(self.server_address[1])
        self._age = age
        self._in_use: set[str] = set()
        self._free = threading.Condition()

    @contextmanager
    def score(self, name: str) -> Iterator[Path]:
        """Lends the folder of a score to one request that writes. Another waits for a while, and
        is refused then."""
        with self._free:
            if not self._free.wait_for(lambda: name not in self._in_use, WAITS):
                raise Refused(HTTPStatus.CONFLICT)
            folder = self.score_to_read(name)
            self._in_use.add(name)
        try:
            yield folder
        finally:
            with self._free:
                self._in_use.remove(name)
                self._free.notify_all()

    def score_to_read(self, name: str) -> Path:
        """Returns the folder of a score. Raises `Refused` where there is none, or nothing came
        for too long."""
        folder = self.folder / name
        if self._is_over(folder):
            raise Refused(HTTPStatus.NOT_FOUND)
        return folder

    def _is_over(self, folder: Path) -> bool:
        """Returns whether there is no such score, or nothing came for too long."""
        try:
            return time.time() - (folder / "state").stat().st_mtime > self._age
        except (FileNotFoundError, NotADirectoryError):
            return True

    def _let_go(self) -> None:
        """Removes the scores to which nothing came for too long, and nothing that is called by
        another name than theirs."""
        for folder in self.folder.iterdir():
            if re.fullmatch(NAME, folder.name) and folder.name not in self._in_use and self._is_over(folder):
                shutil.rmtree(folder, ignore_errors=True)

    def handle_error(self, request: object, client_address: object) -> None:
        """Says nothing of a client that went away."""
        if not isinstance(sys.exc_info()[1], ConnectionError):
            super().handle_error(request, client_address)  # type: ignore[arg-type]

    def begin(self, format: Format) -> str:
        """Begins a score, and returns its name. Lets go those that are too old."""
        name = secrets.token_hex(16)
        with self._free:
            self._let_go()
            if len(os.listdir(self.folder)) >= MOST_SCORES:
                raise Refused(HTTPStatus.INSUFFICIENT_STORAGE)
            Upload.begin(self.folder / name, format)
        return name


_Calls = Mapping["str | None", Callable[[Path], None]]


class Handler(BaseHTTPRequestHandler):
    """Answers a request."""

    protocol_version = "HTTP/1.1"
    timeout = 60
    server: Server

    def _answer(self, status: HTTPStatus, body: bytes = b"", **headers: str) -> None:
        self._begin_answer(status, len(body), headers)
        if self.command != "HEAD":
            self.wfile.write(body)

    def _begin_answer(self, status: HTTPStatus, length: int, headers: Mapping[str, str]) -> None:
        """Sends all of an answer but its body. A connection serves one request, since a body may
        not have been read."""
        self.send_response(status)
        for name, value in headers.items():
            self.send_header(name.replace("_", "-"), value)
        self.send_header("Connection", "close")
        if status is not HTTPStatus.NO_CONTENT:
            self.send_header("Content-Length", str(length))
        self.end_headers()

    def _number(self, header: str) -> int:
        """Returns the number that a header of the request has."""
        text = self.headers.get(header, "")
        if not re.fullmatch(r"[0-9]{1,12}", text):
            raise Refused(HTTPStatus.BAD_REQUEST)
        return int(text)

    def parse_request(self) -> bool:
        """Reads the head of a request. One that names another place than this machine is refused
        here, where no body is asked for or read yet."""
        return super().parse_request() and (self._is_of_this_place() or self._refuse(Refused(HTTPStatus.FORBIDDEN, "only for pages of this server")))

    def handle_expect_100(self) -> bool:
        """Asks for the body of a request that waits for that."""
        return (self._is_of_this_place() or self._refuse(Refused(HTTPStatus.FORBIDDEN))) and super().handle_expect_100()

    def _is_of_this_place(self) -> bool:
        """Returns whether the request was sent to this server by its own name, and by no page of
        another one."""
        return is_of_this_place(self.headers.get_all("Host", []), self.headers.get_all("Origin", []), self.server.names)

    def _refuse(self, refused: Refused) -> bool:
        self._answer(refused.status, refused.body)
        self.close_connection = True
        return False

    @contextmanager
    def _refusing(self) -> Iterator[None]:
        """Answers a request that is refused within, and one for which there is no room."""
        try:
            yield
        except Refused as refused:
            self._refuse(refused)
        except OSError as error:
            if error.errno not in (errno.ENOSPC, errno.EDQUOT, errno.EFBIG):
                raise
            self._refuse(Refused(HTTPStatus.INSUFFICIENT_STORAGE, "there is no room for this score"))

    def _url(self) -> SplitResult:
        """Returns the path of the request in its parts. Raises `Refused` where it is none."""
        try:
            return urlsplit(self.path)
        except ValueError:
            raise Refused(HTTPStatus.BAD_REQUEST) from None

    def _with_score(self, reads: _Calls, writes: _Calls) -> None:
        """Makes one of these calls with the folder of the score in the path, by what stands
        after the name."""
        with self._refusing():
            found = PATH.fullmatch(self._url().path)
            if found and found[2] in reads:
                reads[found[2]](self.server.score_to_read(found[1]))
            elif found and found[2] in writes:
                with self.server.score(found[1]) as folder:
                    writes[found[2]](folder)
            else:
                raise Refused(HTTPStatus.NOT_FOUND)

    def do_POST(self) -> None:
        with self._refusing():
            url = self._url()
            if url.path != "/scores":
                return self._with_score({}, {"/end": self._end})
            try:
                format = Format(parse_qs(url.query).get("format", ["gabc"])[0])
            except ValueError:
                raise Refused(HTTPStatus.BAD_REQUEST) from None
            name = self.server.begin(format)
            self._answer(HTTPStatus.CREATED, Location=f"/scores/{name}", Upload_Offset="0")

    def do_HEAD(self) -> None:
        self._with_score({None: lambda folder: self._answer(HTTPStatus.OK, Upload_Offset=str(Known.read(folder).offset))}, {})

    def do_GET(self) -> None:
        self._with_score({None: lambda folder: self._send(folder, "output"), "/messages": lambda folder: self._send(folder, "messages")}, {})

    def do_PATCH(self) -> None:
        self._with_score({}, {None: self._feed})

    def do_DELETE(self) -> None:
        self._with_score({}, {None: self._forget})

    def _send(self, folder: Path, name: str) -> None:
        """Sends a file, as far as the state knows it. What is written meanwhile comes after
        that."""
        rest = Known.read(folder).lengths[name]
        with _opened(folder / name) as file:
            self._begin_answer(HTTPStatus.OK, rest, {"Content-Type": "text/plain; charset=utf-8"})
            while rest and (piece := file.read(min(rest, PIECE))):
                self.wfile.write(piece)
                rest -= len(piece)

    def _feed(self, folder: Path) -> None:
        """Feeds the body as it comes. What has come stays where the connection breaks."""
        rest, upload = self._number("Content-Length"), Upload(folder)
        if self._number("Upload-Offset") != upload.offset or upload.run is None:
            raise Refused(HTTPStatus.CONFLICT)
        if upload.offset + rest > MOST_BYTES:
            raise Refused(HTTPStatus.REQUEST_ENTITY_TOO_LARGE)
        while rest:
            piece = self.rfile.read1(min(rest, PIECE))  # type: ignore[attr-defined]
            if not piece:
                return
            upload.feed(piece)
            rest -= len(piece)
        self._answer(HTTPStatus.NO_CONTENT, Upload_Offset=str(upload.offset))

    def _end(self, folder: Path) -> None:
        self._answer(HTTPStatus.OK, b"%d\n" % Upload(folder).end())

    def _forget(self, folder: Path) -> None:
        shutil.rmtree(folder)
        self._answer(HTTPStatus.NO_CONTENT)

    def log_message(self, format: str, *words: object) -> None:
        """Writes no line for a request."""


def main() -> None:
    folder = Path(sys.argv[1])
    folder.mkdir(exist_ok=True)
    port = int(sys.argv[2]) if len(sys.argv) > 2 else 0
    age = float(sys.argv[3]) if len(sys.argv) > 3 else AGE
    with Server(folder, port, age) as server:
        print(f"http://{ADDRESS}:{server.server_address[1]}", flush=True)
        server.serve_forever()


if __name__ == "__main__":
    main()
