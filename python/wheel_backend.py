"""Builds the wheel with the standard library alone (Python 3.11 or newer), so that `pip install`
needs no network.

The wheel holds the package, the library for C with the file BUILD, which `tools/build_c` has to
have built, and the files for editors, which pip puts into the folder `share` of an environment. It
is tagged for this machine's platform; `make_wheel` makes one for another, of what `tools/build_for`
has built. Its version is that of the file VERSION, its license that of
the file LICENSE, and the rest of its metadata that of pyproject.toml.
"""
from __future__ import annotations

import base64
import hashlib
import re
import runpy
import sysconfig
import zipfile
from pathlib import Path
from typing import Any

import tomllib

HERE = Path(__file__).resolve().parent
ROOT = HERE.parent
BUILT = ROOT / "crates" / "gregorio_c" / "out" / "c"
PACKAGE = "gregorio_chant"
EDITORS = ROOT / "editors"
# The files of the package: its modules, its table of helps, those of its page, and its outlines
# with their licence.
SUFFIXES = (".py", ".json", ".html", ".css", ".js", ".tsv", ".txt")


def _project() -> dict[str, Any]:
    """Returns the table `project` of pyproject.toml."""
    project: dict[str, Any] = tomllib.loads((HERE / "pyproject.toml").read_text(encoding="utf-8"))[
        "project"
    ]
    return project


def _files(built: Path, platform: str) -> dict[str, bytes]:
    """Returns the package's files by their names in the wheel. The library lies in `built`. Raises
    `FileNotFoundError` if it does not."""
    library = built / ("gregorio.dll" if platform.startswith("win") else "libgregorio.so")
    if not library.exists():
        raise FileNotFoundError(f"{library} is not there: run tools/build_c first")
    sources = sorted(
        it for it in (HERE / PACKAGE).rglob("*") if it.suffix in SUFFIXES or it.name == "py.typed"
    )
    files = {it.relative_to(HERE).as_posix(): it.read_bytes() for it in sources}
    for it in (library, built / "BUILD", ROOT / "VERSION"):
        if it.exists():
            files[f"{PACKAGE}/{it.name}"] = it.read_bytes()
    page = runpy.run_path(str(HERE / PACKAGE / "web" / "sources.py"))["packed"]()
    files |= {f"{PACKAGE}/web/{path}": content for path, content in page.items()}
    return files


def _for_editors() -> dict[str, bytes]:
    """Returns the files for editors by their names: those for vim and emacs."""
    sources = [it for it in sorted(EDITORS.rglob("*")) if it.suffix in (".vim", ".lua", ".el")]
    return {it.relative_to(EDITORS).as_posix(): it.read_bytes() for it in sources}


def _metadata(project: dict[str, Any], version: str) -> str:
    """Returns the text of METADATA."""
    lines = [
        "Metadata-Version: 2.1",
        f"Name: {project['name']}",
        f"Version: {version}",
        f"Summary: {project['description']}",
        f"Keywords: {','.join(project['keywords'])}",
        f"License: {project['license']}",
        "License-File: LICENSE",
        f"Requires-Python: {project['requires-python']}",
        "Description-Content-Type: text/markdown",
    ]
    lines += [f"Classifier: {it}" for it in project["classifiers"]]
    lines += [f"Requires-Dist: {it}" for it in project["dependencies"]]
    for extra, packages in project["optional-dependencies"].items():
        lines += [
            f"Provides-Extra: {extra}",
            *(f'Requires-Dist: {it}; extra == "{extra}"' for it in packages),
        ]
    return "\n".join(lines) + "\n\n" + (HERE / "README.md").read_text(encoding="utf-8")


def _row(name: str, content: bytes) -> str:
    digest = base64.urlsafe_b64encode(hashlib.sha256(content).digest()).rstrip(b"=").decode()
    return f"{name},sha256={digest},{len(content)}"


def build_wheel(
    wheel_directory: str, config_settings: object = None, metadata_directory: str | None = None
) -> str:
    """Writes the wheel into `wheel_directory`, and returns its file name."""
    return make_wheel(wheel_directory, BUILT, re.sub(r"[-.]", "_", sysconfig.get_platform()))


def make_wheel(folder: str, built: str | Path, platform: str) -> str:
    """Writes the wheel for a platform, whose library lies in `built`, into `folder`, and returns
    its file name. Raises `FileNotFoundError` if the library does not lie there."""
    version = (ROOT / "VERSION").read_text().strip()
    project = _project()
    tag = f"py3-none-{platform}"
    info = f"{PACKAGE}-{version}.dist-info"
    files = _files(Path(built), platform)
    data = f"{PACKAGE}-{version}.data/data/share/{project['name']}/editors"
    files |= {f"{data}/{name}": content for name, content in _for_editors().items()}
    files[f"{info}/METADATA"] = _metadata(project, version).encode()
    files[f"{info}/licenses/LICENSE"] = (ROOT / "LICENSE").read_bytes()
    scripts = "".join(f"{name} = {call}\n" for name, call in project["scripts"].items())
    files[f"{info}/entry_points.txt"] = f"[console_scripts]\n{scripts}".encode()
    kind = f"Generator: wheel_backend\nRoot-Is-Purelib: false\nTag: {tag}\n"
    files[f"{info}/WHEEL"] = f"Wheel-Version: 1.0\n{kind}".encode()
    record = [_row(name, content) for name, content in files.items()]
    files[f"{info}/RECORD"] = "\n".join([*record, f"{info}/RECORD,,", ""]).encode()
    name = f"{PACKAGE}-{version}-{tag}.whl"
    with zipfile.ZipFile(Path(folder) / name, "w", zipfile.ZIP_DEFLATED) as wheel:
        for path, content in files.items():
            # With no time of its own, so that equal files make equal wheels.
            entry = zipfile.ZipInfo(path)
            entry.external_attr = 0o644 << 16
            wheel.writestr(entry, content, zipfile.ZIP_DEFLATED)
    return name
