"""Tries bodies that always answer that there is no memory, which no contract refuses: each run,
with no proof and on a copy, has to differ from what the program `try_memory` prints. It takes a
minute for each."""

from __future__ import annotations

import os
import re
import shutil
from pathlib import Path

import pytest
from house.files import ROOT, crates_folder, read

from .calls import TRIALS
from .no_memory import Edit, printed

IGNORED = shutil.ignore_patterns("out", "proofs", "wrong_bodies")


@pytest.mark.parametrize("name", Edit.names())
def test_wrong_body_is_refused(name: str, room: Path) -> None:
    edit = Edit(name)
    shutil.copytree(crates_folder(ROOT), room / "crates", ignore=IGNORED)
    shutil.copy(os.path.join(ROOT, "crates.txt"), room)
    edit.apply(str(room))
    said = printed(str(room))
    call = re.escape(edit.call)
    never = rf"(?m)^call {call}\n(?:(?!call |answer ).*\n)*never succeeds$"
    assert re.search(never, said), said[-300:]
    assert read(os.path.join(TRIALS, "stdout")) not in said
