"""The sources of the page. They are those of the page of one file, in the folder `js` of a clone; a
wheel has them in the folder `js` beside this module."""
from __future__ import annotations

import json
import re
from collections.abc import Mapping
from pathlib import Path

_HERE = Path(__file__).resolve().parent
_CLONE = _HERE.parents[2]
_INSTALLED = _HERE / "js"
_FOLDER = _INSTALLED if _INSTALLED.is_dir() else _CLONE / "js"
_HELPS = _HERE.parent / "linting" / "helps.json"
# What the page of a server has of the package for JavaScript: it reads trees.
_READERS = ("bytes.js", "kinds.js", "library.js", "tree.js")
# What the page of one file alone has.
_ALONE = ("alone.js", "drawn.js", "reader.js", "rows.js", "worker.js")


def page_source(name: str) -> str:
    """Returns a source of the page."""
    return (_FOLDER / "page" / name).read_text(encoding="utf-8")


def scripts() -> dict[str, str]:
    """Returns the modules of the page of a server by their paths."""
    pages = [it for it in sorted((_FOLDER / "page").glob("*.js")) if it.name not in _ALONE]
    readers = [_FOLDER / "src" / it for it in _READERS]
    return {
        it.relative_to(_FOLDER).as_posix(): it.read_text(encoding="utf-8")
        for it in (*pages, *readers)
    }


def page_data() -> str:
    """Returns what the page has in itself beside its script: the scores to choose and the table of
    helps, as JSON that may stand in HTML."""
    kept = _FOLDER / "page" / "data.json"
    if kept.exists():
        return kept.read_text(encoding="utf-8")
    names: dict[str, str] = json.loads(page_source("examples.json"))
    examples = {
        name: (_CLONE / "examples" / f"{file}.gabc").read_text(encoding="utf-8")
        for name, file in names.items()
    }
    helps = json.loads(_HELPS.read_text(encoding="utf-8"))
    made = json.dumps({"examples": examples, "helps": helps}, ensure_ascii=False)
    return made.replace("<", "\\u003c")


def filled(parts: Mapping[str, str]) -> str:
    """Returns the page with these parts in place of their names, which are POLICY, ORIGIN, VERSION,
    STYLE, DATA and SCRIPT."""
    return re.sub("|".join(parts), lambda found: parts[found[0]], page_source("page.html"))


def packed() -> dict[str, bytes]:
    """Returns what a wheel has of these sources, by their paths below this folder."""
    files = scripts() | {f"page/{it}": page_source(it) for it in ("page.html", "page.css")}
    files["page/data.json"] = page_data()
    return {f"js/{path}": content.encode("utf-8") for path, content in files.items()}
