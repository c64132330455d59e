"""Has the package of this clone tested by pytest, also in the processes that tests begin."""
from __future__ import annotations

import os
from pathlib import Path

_PACKAGE = str(Path(__file__).resolve().parents[1])
os.environ["PYTHONPATH"] = os.pathsep.join(
    it for it in (_PACKAGE, os.environ.get("PYTHONPATH", "")) if it
)
