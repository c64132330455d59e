"""What the tests share: folders of their own, the command, and what stands in the repository."""
from __future__ import annotations

import os
import pty
import re
import resource
import shutil
import signal
import subprocess
import sys
import tempfile
import unittest
from collections.abc import Mapping
from pathlib import Path

ROOT = Path(__file__).resolve().parents[2]
EXAMPLES = ROOT / "examples"
SCORE = "name: Kyrie;\n%%\n(c4) Ky(f)ri(gfg)e(e.) (::)\n"
CANONICAL = "name: Kyrie;\n%%\n(c4)\nKy(f)ri(gfg)e(e.)\n(::)\n"
FAULTY = "name: Kyrie;\n%%\n(c4) Ky(g5)ri(g)\n"
NOBODY = 65534
# For a script: the most memory that its process took, in kilobytes. That of `resource` may be that
# of the process that has made it.
MOST_MEMORY = """
def most_memory():
    with open("/proc/self/status") as status:
        return next(int(it.split()[1]) for it in status if it.startswith("VmHWM:"))
"""
# A shell has ignored it what it runs in the background, and a command keeps what is ignored.
signal.signal(signal.SIGINT, signal.default_int_handler)


def has(module: str) -> bool:
    """Returns whether a module is there."""
    try:
        __import__(module)
    except ImportError:
        return False
    return True


def without(room: Path, module: str) -> dict[str, str]:
    """Returns an environment in which `module` cannot be imported, by a file below `room`."""
    stub = room / "stub" / f"{module}.py"
    stub.parent.mkdir(exist_ok=True)
    stub.write_text(f"raise ImportError('no {module}')\n", encoding="utf-8")
    return {"PYTHONPATH": os.pathsep.join([str(stub.parent), os.environ.get("PYTHONPATH", "")])}


def _nobody() -> int | None:
    """Returns the number of a user without rights; none where the tests have none themselves."""
    if os.geteuid() != 0:
        return None
    try:
        subprocess.run([sys.executable, "-c", ""], user=NOBODY, group=NOBODY, check=True)
    except (OSError, subprocess.SubprocessError):
        raise unittest.SkipTest("this Python cannot be run by everybody") from None
    return NOBODY


def command(
    *words: str | bytes | Path,
    data: bytes = b"",
    environment: Mapping[str, str] | None = None,
    as_nobody: bool = False,
    limit: int | None = None,
    output: int | None = None,
) -> subprocess.CompletedProcess[bytes]:
    """Runs `gregorio-chant` with these words. `limit` is the most bytes of a file that it may
    write; `as_nobody` it has no rights but everybody's."""

    def bound() -> None:
        if limit is not None:
            resource.setrlimit(resource.RLIMIT_FSIZE, (limit, limit))

    user = _nobody() if as_nobody else None
    return subprocess.run(
        [sys.executable, "-m", "gregorio_chant", *words],
        input=data,
        stdout=subprocess.PIPE if output is None else output,
        stderr=subprocess.PIPE,
        env={**os.environ, **(environment or {})},
        preexec_fn=bound,
        timeout=600,
        check=False,
        user=user,
        group=user,
    )


def in_terminal(
    *words: str | Path, environment: Mapping[str, str] | None = None
) -> tuple[int, str]:
    """Runs the command in a terminal of 80 columns, and returns its status and all that it
    showed."""
    main, its = pty.openpty()
    plain = {name: it for name, it in os.environ.items() if name not in ("NO_COLOR", "FORCE_COLOR")}
    settings = {**plain, "TERM": "xterm-256color", "COLUMNS": "80", **(environment or {})}
    run = subprocess.Popen(
        [sys.executable, "-m", "gregorio_chant", *words],
        stdin=its,
        stdout=its,
        stderr=its,
        env=settings,
    )
    os.close(its)
    shown = b""
    while True:
        try:
            more = os.read(main, 65536)
        except OSError:
            break
        if not more:
            break
        shown += more
    os.close(main)
    return run.wait(), shown.decode().replace("\r\n", "\n")


def processes_of(group: int) -> list[str]:
    """Returns the numbers of the processes of a group that live."""
    found = []
    for it in Path("/proc").glob("[0-9]*/stat"):
        try:
            state, _, its = (
                it.read_text(encoding="utf-8", errors="replace").rpartition(")")[2].split()[:3]
            )
        except (OSError, ValueError):
            continue
        if its == str(group) and state not in "ZX":
            found.append(it.parent.name)
    return found


def unescaped(column: str) -> bytes:
    """Returns the bytes of a column, in which a backslash begins `\\n`, `\\t`, `\\r`, `\\\\` or
    `\\xNN`."""

    def byte(found: re.Match[bytes]) -> bytes:
        code = found[1]
        return (
            bytes([int(code[1:], 16)])
            if code[:1] == b"x"
            else {b"n": b"\n", b"t": b"\t", b"r": b"\r"}.get(code, code)
        )

    return re.sub(rb"\\(x[0-9A-Fa-f]{2}|.)", byte, column.encode())


def files_of_scores() -> list[Path]:
    """Returns the examples, and the scores in the folders that GREGORIO_FOLDER names."""
    folders = [
        EXAMPLES,
        *(Path(it) for it in os.environ.get("GREGORIO_FOLDER", "").split(os.pathsep) if it),
    ]
    return [it for folder in folders for it in sorted(folder.glob("*.gabc"))]


def scores_of_tables() -> list[bytes]:
    """Returns the inputs of all tables of runs."""
    scores = []
    for table in sorted((ROOT / "crates" / "vectors" / "data").glob("*.tsv")):
        for line in table.read_text(encoding="utf-8").split("\n"):
            columns = line.split("\t")
            if len(columns) == 7 and columns[0].startswith("-"):
                scores.append(unescaped(columns[3]))
    return scores


class InFolder(unittest.TestCase):
    """Tests in an empty folder, which is the working folder."""

    def setUp(self) -> None:
        self.room = Path(tempfile.mkdtemp(prefix="gregorio-chant-"))
        self.room.chmod(0o777)
        self.before = os.getcwd()
        os.chdir(self.room)
        self.addCleanup(self._leave)

    def _leave(self) -> None:
        os.chdir(self.before)
        for it in self.room.rglob("*"):
            if it.is_dir() and not it.is_symlink():
                it.chmod(0o700)
        shutil.rmtree(self.room)

    def put(self, name: str | bytes, content: str | bytes) -> Path:
        """Writes a file, and the folders that it stands in."""
        path = Path(os.fsdecode(name))
        path.parent.mkdir(parents=True, exist_ok=True)
        path.write_bytes(content.encode() if isinstance(content, str) else content)
        return path
