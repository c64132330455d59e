"""Bodies that always answer that there is no memory: the edits of `tools/no_memory`."""

from __future__ import annotations

import os
import subprocess

from house.files import ROOT, read, write

from .calls import listed

FOLDER = os.path.join(ROOT, "tools", "no_memory")


class Edit:
    """An edit: the call that it turns, a file, and a text that stands there once, with the one that
    takes its place."""

    def __init__(self, name: str) -> None:
        text = read(os.path.join(FOLDER, f"{name}.edit")).rstrip("\n")
        lines = dict(line.split(": ", 1) for line in text.split("\n"))
        self.call, self.file = lines["call"], lines["file"]
        self.old, self.new = lines["old"], lines["new"]

    @staticmethod
    def names() -> list[str]:
        """Returns the names of all edits."""
        return sorted(it.removesuffix(".edit") for it in os.listdir(FOLDER))

    def can_be_applied(self) -> bool:
        """Returns whether its text stands in the file once, and its call is one that is tried."""
        return read(os.path.join(ROOT, self.file)).count(self.old) == 1 and self.call in listed()

    def apply(self, folder: str) -> None:
        """Applies the edit to a copy of the repository."""
        path = os.path.join(folder, self.file)
        write(path, read(path).replace(self.old, self.new))


def printed(folder: str) -> str:
    """Runs the program `try_memory` of a copy with no proof and with memory enough, and returns
    what it prints."""
    crate = os.path.join(folder, "crates", "try_memory")
    data = sorted(os.listdir(os.path.join(crate, "data")))
    words = [word for name in data for word in ("--data", f"{name}=data/{name}")]
    ran = subprocess.run(
        ["rt", "try", "--seconds", "600", *words],
        cwd=crate,
        capture_output=True,
        text=True,
        timeout=1800,
    )
    return ran.stdout + ran.stderr
