"""Runs the server over standard input and output."""
from __future__ import annotations

import sys
from threading import Thread

from gregorio_chant.server.inbox import Inbox
from gregorio_chant.server.session import Session
from gregorio_chant.server.wire import Wire
from gregorio_chant.work.ending import undone
from gregorio_chant.work.settings import Finder


def serve(with_rules: bool, settings: Finder) -> int:
    """Serves the editor at the other end until it says that it ends, or goes. Returns the exit
    status: 0 where it has asked to shut down before."""
    wire = Wire(sys.stdin.buffer, sys.stdout.buffer)
    inbox = Inbox()
    session = Session(wire.send, with_rules, settings)
    # What is read waits in the inbox while a score is checked, so that a change is known to be
    # overtaken.
    answering = Thread(target=session.run, args=(inbox,))
    answering.start()
    with undone(session.close):
        try:
            for it in wire.messages():
                if isinstance(it, dict) and it.get("method") == "exit":
                    break
                inbox.put(it)
        finally:
            inbox.close()
            answering.join()
            session.close()
    return 0 if session.is_shut_down else 1
