"""A folder in which the program runs as from a shell, and scores for it."""

from __future__ import annotations

import subprocess
import tempfile
from collections.abc import Sequence
from pathlib import Path
from typing import Any

from .runs import Ran, ran_of

SCORE = b"name: Kyrie;\n%%\n(c4) Ky(f)ri(gfg)e(e.) (::)"
CANONICAL = b"name: Kyrie;\n%%\n(c4)\nKy(f)ri(gfg)e(e.)\n(::)\n"
DUMP = b"""\
dump 2
header name:Kyrie
syllable 1 one
notes:c4
clef c4
syllable 2 beginning
text:Ky
notes:f
element
glyph punctum 1
note f punctum fa none f
syllable 3 middle
text:ri
notes:gfg
element
glyph porrectus 3
note g punctum sol none g
note f punctum fa none f
note g punctum sol none g
syllable 4 end
text:e
notes:e.
element
glyph punctum 1
note e punctum mi none e.
syllable 5 one
notes:::
bar finalis ::
end 5
"""
# A score with an error, what is written of it, and what of that before its message.
FAULTY, MENDED, BEGUN = b"%%\n(/./)", b"%%\n(//)\n", b"%%"
LEFT_OUT = b"2:3: error: E1: character left out of the notes\n"
NO_NAME = b"1:1: warning: W1: no name header\n"
NO_LINE = b"<stdin>:1:1: fatal: F2: no %% line\n"
HELP = b"usage: gregorio -F gabc|dump [-W] [-l FILE] [-o FILE | -S] (-s | FILE)\n"
CANNOT_OPEN = b"gregorio: cannot open %b\n"
NO_MEMORY = b"gregorio: no memory\n"


class Work:
    """An empty folder, in which the program runs on the bytes `given`."""

    def __init__(self, program: str, folder: Path) -> None:
        self.program, self.folder, self.given = program, folder, b""

    def run(self, *words: str | bytes) -> Ran:
        """Runs the program with these words."""
        return self.start([self.program, *words])

    def start(self, line: Sequence[str | bytes], **how: Any) -> Ran:
        """Runs a command, with a file of the bytes that are given as its standard input."""
        with tempfile.TemporaryFile() as given:
            given.write(self.given)
            given.seek(0)
            ends: dict[str, Any] = {"cwd": self.folder, "stdin": given, "timeout": 300, **how}
            return ran_of(subprocess.run(line, capture_output=True, **ends))

    def shell(self, script: str, *words: str) -> Ran:
        """Runs a script of bash, to which `$0` is the program, with these words."""
        return self.start(["bash", "-c", script, self.program, *words])

    def put(self, name: str, held: bytes) -> None:
        """Makes a file."""
        (self.folder / name).write_bytes(held)

    def held(self, name: str) -> bytes:
        """Returns what a file has."""
        return (self.folder / name).read_bytes()

    def names(self) -> list[str]:
        """Returns the names of what is in the folder, in their order."""
        return sorted(it.name for it in self.folder.iterdir())
