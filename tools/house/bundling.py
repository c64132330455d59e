"""Bundles modules of JavaScript into one script by esbuild, from Debian's package of that name,
names texts for the policy of a page, and says of which commit what is made is. For scripts that
import it."""

from __future__ import annotations

import hashlib
import subprocess
from base64 import b64encode
from pathlib import Path

from house import files

ROOT = Path(files.ROOT)
# Where `tools/build_wasm` puts gregorio.wasm and BUILD.
BUILT = ROOT / "crates" / "gregorio_c" / "out" / "wasm"
_LOADERS = {"txt": "text", "wasm": "binary"}
# Every browser since 2022 can do what es2022 has.
_WORDS = (
    *("--bundle", "--minify", "--target=es2022", "--charset=utf8", "--log-level=warning"),
    *(f"--loader:.{name}={kind}" for name, kind in _LOADERS.items()),
)


def bundled(module: Path, *words: str, **files: Path) -> str:
    """Returns a module with all that it imports, made with these further words for esbuild. The
    name of each of `files`, with `-` for `_`, stands for that file in it. Raises
    `CalledProcessError`."""
    aliases = [f"--alias:{name.replace('_', '-')}={path}" for name, path in files.items()]
    run = ["esbuild", str(module), *_WORDS, *words, *aliases]
    return subprocess.run(run, check=True, capture_output=True).stdout.decode("utf-8")


def hashed(text: str) -> str:
    """Returns how a policy names a text."""
    digest = hashlib.sha256(text.encode("utf-8")).digest()
    return f"'sha256-{b64encode(digest).decode('ascii')}'"


def commit_line() -> str:
    """Returns the line of a file BUILD for the commit of the sources. Raises
    `CalledProcessError`."""
    words = ["bash", "-c", '. "$0/tools/origin.bash"; commit_line "$0"', str(ROOT)]
    return subprocess.run(words, check=True, capture_output=True).stdout.decode("utf-8").strip()
