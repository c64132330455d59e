"""Runs the page's server on the loopback address."""
from __future__ import annotations

import socket
import sys
from contextlib import AbstractContextManager, nullcontext
from multiprocessing import active_children

import uvicorn

from gregorio_chant.web.answers import Answers
from gregorio_chant.web.app import app_of
from gregorio_chant.web.loopback import ADDRESS, own_names
from gregorio_chant.work.ending import undone
from gregorio_chant.work.processes import end_all
from gregorio_chant.work.statuses import CANNOT_READ_OR_WRITE
from gregorio_chant.work.streams import reason_of, tell, write

# As many bytes as uvicorn takes of a head.
_MOST_DIGITS = 1 << 16


class _Server(uvicorn.Server):  # type: ignore[misc]
    """Leaves signals to the command, which ends at once."""

    def install_signal_handlers(self) -> None:
        """Installs none."""

    def capture_signals(self) -> AbstractContextManager[None]:
        """Installs none; releases of uvicorn from 0.29 on ask here."""
        return nullcontext()


def serve(port: int, answers: Answers) -> int:
    """Serves the page at this port of this machine, or at a free one where it is 0, until it is
    ended. Its address is the one line of standard output. Returns the exit status. Raises
    `WriteError`."""
    with socket.socket() as listening:
        try:
            listening.setsockopt(socket.SOL_SOCKET, socket.SO_REUSEADDR, 1)
            listening.bind((ADDRESS, port))
        except OSError as error:
            tell(f"cannot serve at port {port}: {reason_of(error)}")
            return CANNOT_READ_OR_WRITE
        listening.listen()
        bound: int = listening.getsockname()[1]
        app = app_of(answers, own_names(bound))
        config = uvicorn.Config(
            app,
            http="h11",
            ws="none",
            lifespan="off",
            log_config=None,
            log_level="error",
            access_log=False,
            proxy_headers=False,
            server_header=False,
        )
        write(f"http://{ADDRESS}:{bound}/\n")
        # Else h11 raises an exception at the length of a body that has more digits.
        if sys.version_info >= (3, 11):
            sys.set_int_max_str_digits(_MOST_DIGITS)
        with undone(lambda: end_all(active_children())):
            _Server(config).run(sockets=[listening])
    return 0
