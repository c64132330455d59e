"""Tries `tools/quick_test` and `tools/build_c` with a false `rt` on the path, so that nothing is
proved: what they prove, and what they say."""

from __future__ import annotations

import os
import shutil
import subprocess
from pathlib import Path

import pytest
from house.files import ROOT

from .false_rt import FalseRepository, Said

# ---- the short trial

TOOL = '#!/bin/sh\necho "{} $*" >>"$ROOM/calls"\n'
CHECKS = [
    "same_examples ",
    "believe --check-machine",
    "believe --check-promises",
    "try_wrong_bodies --check",
    "check_code ",
]
# A library, and two programs side by side.
PROVED = ["lib low", "run call_rows", "run vectors"]
STEPS = "".join(
    f"quick_test: proving {at} of 3: {crate}\n"
    for at, crate in enumerate(("low", "call_rows", "vectors"), 1)
)


# What calls the prover for a program: here it calls the false `rt`, for `vectors` a moment later.
ROW_PROGRAM = """\
import os, subprocess, sys, time
name, jobs = sys.argv[1:]
time.sleep(0.5 * (name == "vectors"))
subprocess.run(["rt", "run", "--jobs", jobs], cwd=f"../crates/{name}")
sys.exit(not os.path.exists(f"../crates/{name}/out/{name}.stamp"))
"""


class ShortTrial(FalseRepository):
    """A repository with the short trial, in which no proof is kept."""

    def __init__(self, room: Path) -> None:
        super().__init__(room)
        for it in ("same_examples", "believe", "try_wrong_bodies", "check_code", "try_unproved"):
            self.put_script(f"tools/{it}", TOOL.format(it))
        self.put("tools/house/row_program.py", ROW_PROGRAM)
        for it in ("call_rows", "vectors"):
            self.put(f"crates/{it}/src/main.rt", "")
            for name in ("stdout", "data/rows"):
                self.put(f"crates/{it}/{name}", "rows agree\n")
        listed = (self.top / "crates.txt").read_text()
        self.put("crates.txt", f"{listed}call_rows: low\nvectors: low\n")

    def keep(self) -> None:
        """Keeps a proof."""
        (self.top / "crates/low/out/incremental").mkdir(parents=True)

    def run_trial(self, *words: str) -> Said:
        """Runs the short trial."""
        return self.run(str(self.top / "tools" / "quick_test"), *words)


@pytest.fixture
def short(room: Path) -> ShortTrial:
    """Returns a repository with the short trial."""
    return ShortTrial(room)


def test_no_proof_is_kept(short: ShortTrial) -> None:
    """Nothing is proved, and the last line says so."""
    ran = short.run_trial()
    assert ran.calls == [*CHECKS, "try_unproved "]
    assert (ran.out, ran.status) == ("6 passed, 0 failed; nothing was proved\n", 0)


def test_all_is_proved_if_it_is_asked_for(short: ShortTrial) -> None:
    assert short.run_trial("--prove").calls == [*CHECKS, *PROVED]


def test_a_proof_is_kept(short: ShortTrial) -> None:
    """What the programs stand on is proved, with a line for each crate."""
    short.keep()
    assert short.run_trial() == Said([*CHECKS, *PROVED], 0, "10 passed, 0 failed\n", STEPS)


def test_other_libraries(short: ShortTrial) -> None:
    """Beside the programs what else was proved here is proved, with what it stands on."""
    short.keep()
    (short.top / "crates/gregorio_c/out/incremental").mkdir(parents=True)
    ran = short.run_trial()
    assert sorted(ran.calls) == sorted([*CHECKS, *PROVED, "lib middle", "check gregorio_c"])
    assert (ran.out, ran.status) == ("12 passed, 0 failed\n", 0)


def test_jobs(short: ShortTrial) -> None:
    """As many jobs run side by side as are asked for in the check of a library, and half as many in
    that of a program."""
    short.keep()
    short.run(str(short.top / "tools" / "quick_test"), RT_JOBS="3")
    assert (short.room / "jobs").read_text().split() == ["3", "2", "2"]


def test_python(short: ShortTrial) -> None:
    """A library with no proof is built, and the tests are counted."""
    short.put_script("tools/build_unproved", TOOL.format("build_unproved"))
    counted = 'echo "5 passed, 1 failed, 2 skipped"\n'
    short.put_script("tools/try_python", TOOL.format("try_python") + counted)
    ran = short.run_trial("--python", "test_walk")
    assert ran.calls == ["build_unproved crates/gregorio_c/out/c", "try_python test_walk"]
    assert (ran.out, ran.status) == ("6 passed, 1 failed; nothing was proved\n", 1)


def test_rows_that_differ(short: ShortTrial) -> None:
    short.keep()
    short.put("crates/vectors/data/rows", "rows differ\n")
    ran = short.run_trial()
    assert "> rows differ" in ran.messages
    assert (ran.out, ran.status) == ("9 passed, 1 failed\n", 1)


def test_what_does_not_prove(short: ShortTrial) -> None:
    """It is shown, and the trial ends there."""
    short.keep()
    short.put("crates/vectors/data/rows", "rows differ\n")
    short.set("broken", "vectors\n")
    ran = short.run_trial()
    assert "error: vectors does not prove" in ran.messages
    assert (ran.out, ran.status) == ("7 passed, 1 failed\n", 1)


def test_a_library_that_does_not_prove(short: ShortTrial) -> None:
    """No program is proved over it."""
    short.keep()
    short.set("broken", "low\n")
    ran = short.run_trial()
    assert ran.calls == [*CHECKS, "lib low"]
    assert (ran.out, ran.status) == ("5 passed, 1 failed\n", 1)


# ---- the library for C

EXPORT = "gregorio_c, which takes about five minutes and is kept"
# What the export asks for.
PROVED_EXPORT = ["module of gregorio_c", "lib gregorio_c"]
# What calls the prover for the library and its module: here it says so, and calls the false `rt`.
PROVER = """\
import os, subprocess, sys
from pathlib import Path
crate = Path(sys.argv[1]).parent.parent
with open(os.environ["ROOM"] + "/calls", "a") as calls:
    calls.write(f"module of {crate.name}\\n")
status = subprocess.run(["rt", "lib"], cwd=crate).returncode
if not status:
    Path(sys.argv[1]).touch()
sys.exit(status)
"""


class Library(FalseRepository):
    """A repository with what the library for C wants."""

    def __init__(self, room: Path) -> None:
        super().__init__(room)
        (room / "kit" / "c").mkdir(parents=True)
        subprocess.run(["ar", "rcs", str(room / "kit" / "c" / "liblibc_c.a")], check=True)
        self.set("kit/version", "kit-1 logic 1\n")
        self.put("VERSION", "1.2.3\n")
        self.put("c/gregorio.h", '#define GREGORIO_VERSION "1.2.3"\n')
        shutil.copy(os.path.join(ROOT, "c", "gregorio.map"), self.top / "c")
        self.put("tools/house/library_module.py", PROVER)
        self.made = self.top / "crates" / "gregorio_c" / "out" / "c"
        self.make_old()

    def build(self, *words: str) -> Said:
        """Builds the library."""
        return self.run(str(self.top / "tools" / "build_c"), *words)


@pytest.fixture
def library(room: Path) -> Library:
    """Returns a repository in which the library is not built."""
    if not shutil.which(os.environ.get("CC", "cc")):
        pytest.skip("there is no C compiler")
    return Library(room)


@pytest.fixture
def kept(library: Library) -> Library:
    """Returns a repository in which the library is built."""
    assert library.build().status == 0
    return library


def test_library_is_built(library: Library) -> None:
    """What is below is proved, lowest first, and the export last. Each proof is said."""
    ran = library.build()
    assert ran.calls == ["lib low", "lib middle", *PROVED_EXPORT]
    assert ran.messages == "".join(f"build_c: proving {it}\n" for it in ("low", "middle", EXPORT))
    names = sorted(it.name for it in library.made.iterdir())
    assert names == ["BUILD", "gregorio.h", "libgregorio.a", "libgregorio.so"]
    assert (library.made / "BUILD").read_text().splitlines()[-1] == "kit kit-1 logic 1"


def test_library_has_its_names_alone(kept: Library) -> None:
    words = ["nm", "-g", "--defined-only", str(kept.made / "libgregorio.a")]
    said = subprocess.run(words, capture_output=True, text=True, check=True).stdout
    lines = [it.split() for it in said.splitlines()]
    names = sorted(it[2] for it in lines if len(it) == 3)
    assert names == ["gregorio_compile", "gregorio_version"]


def test_library_elsewhere(kept: Library) -> None:
    """What was proved is kept."""
    other = kept.room / "another folder"
    ran = kept.build(str(other))
    assert (ran.calls, ran.messages) == ([], "build_c: gregorio_c is proved already\n")
    made, known = ((it / "libgregorio.so").read_bytes() for it in (other, kept.made))
    assert made == known


def test_library_without_its_module(kept: Library) -> None:
    """The export is proved again."""
    (kept.top / "crates/gregorio_c/out/gregorio_c.bc").unlink()
    assert kept.build().calls == PROVED_EXPORT


def test_library_where_a_crate_changed(kept: Library) -> None:
    kept.touch("crates/middle/src/lib.rt")
    assert kept.build().calls == ["lib middle", *PROVED_EXPORT]


def test_library_that_does_not_prove(kept: Library) -> None:
    """What `rt` writes is shown, and it is tried again."""
    kept.touch("crates/gregorio_c/src/lib.rt")
    kept.set("broken", "gregorio_c\n")
    ran = kept.build()
    lines = [
        f"build_c: proving {EXPORT}",
        "a line that rt writes of gregorio_c",
        "error: gregorio_c does not prove",
        "build_c: gregorio_c was not built",
    ]
    assert (ran.status, ran.messages.splitlines()) == (1, lines)
    kept.unset("broken")
    assert kept.build().calls == PROVED_EXPORT


def test_library_of_another_kit(kept: Library) -> None:
    kept.set("kit/version", "kit-2 logic 2\n")
    assert kept.build().calls == PROVED_EXPORT


@pytest.fixture
def of_the_gate(kept: Library) -> Library:
    """Returns a repository in which the gate has built all but the library."""
    for it in kept.top.glob("crates/*/out/rlib/stamp"):
        it.unlink()
    kept.touch("crates/gregorio_c/src/lib.rt")
    return kept


def test_library_over_what_the_gate_has_built(of_the_gate: Library) -> None:
    """Only the export is proved."""
    assert of_the_gate.build().calls == PROVED_EXPORT


def test_library_newer_than_the_gate(of_the_gate: Library) -> None:
    """What is newer is proved by itself."""
    of_the_gate.build()
    of_the_gate.touch("crates/low/src/lib.rt")
    assert of_the_gate.build().calls == ["lib low", "lib middle", *PROVED_EXPORT]


def test_library_of_another_version(kept: Library) -> None:
    kept.put("VERSION", "1.2.4\n")
    ran = kept.build()
    told = "build_c: c/gregorio.h has another version than VERSION, 1.2.4\n"
    assert (ran.status, ran.calls, ran.messages) == (1, [], told)
