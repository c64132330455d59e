"""The programs that are tried, and the libraries that they are started with."""

from __future__ import annotations

import os
import shutil
from collections.abc import Callable
from pathlib import Path

import pytest
from house.files import ROOT

from .recipes import Recipes
from .runs import built, preloaded
from .work import Work


def pytest_addoption(parser: pytest.Parser) -> None:
    """Adds the option that says which program `gregorio` is tried."""
    parser.addoption("--program", help="the program `gregorio`; built here if none is given")


@pytest.fixture(scope="session")
def program(request: pytest.FixtureRequest) -> str:
    """Returns the path of the program `gregorio`."""
    given: str | None = request.config.getoption("--program")
    path = os.path.realpath(given) if given else built("gregorio_cli")
    if not os.access(path, os.X_OK):
        pytest.exit(f"{path} is no program that is built", 1)
    return path


@pytest.fixture(scope="session")
def ends_library(tmp_path_factory: pytest.TempPathFactory) -> str:
    """Returns the path of the library that makes reads and writes short or failing."""
    return preloaded("ends", tmp_path_factory.mktemp("ends"))


@pytest.fixture(scope="session")
def memory_library(tmp_path_factory: pytest.TempPathFactory) -> str:
    """Returns the path of the library that refuses memory."""
    return preloaded("memory", tmp_path_factory.mktemp("memory"))


@pytest.fixture
def room(tmp_path: Path) -> Path:
    """Returns an empty folder, in which a trial's program runs."""
    made = tmp_path / "room"
    made.mkdir()
    return made


@pytest.fixture
def work(program: str, room: Path) -> Work:
    """Returns an empty folder, in which the program runs."""
    return Work(program, room)


@pytest.fixture(scope="session")
def tried() -> set[str]:
    """Returns the names of the recipes that ran."""
    return set()


@pytest.fixture(scope="session")
def surroundings(program: str, tmp_path_factory: pytest.TempPathFactory) -> dict[str, str]:
    """Returns the surroundings of recipes. The program and the script stand in a folder of their
    own, as a package puts them, and are found by these names."""
    place = tmp_path_factory.mktemp("place") / "a place with blanks"
    place.mkdir()
    (place / "gregorio-canonical").symlink_to(program)
    shutil.copy(os.path.join(ROOT, "tools", "check_canonical"), place)
    kept = {name: it for name, it in os.environ.items() if name != "GREGORIO"}
    return {**kept, "PATH": f"{place}:{os.environ['PATH']}"}


@pytest.fixture(scope="session")
def make_recipes(
    program: str,
    surroundings: dict[str, str],
    tried: set[str],
    tmp_path_factory: pytest.TempPathFactory,
) -> Callable[[], Recipes]:
    """Returns what makes an empty folder for recipes."""

    def make() -> Recipes:
        folder = tmp_path_factory.mktemp("recipes") / "room"
        folder.mkdir()
        return Recipes(Work(program, folder), surroundings, tried)

    return make


@pytest.fixture
def recipes(make_recipes: Callable[[], Recipes]) -> Recipes:
    """Returns an empty folder, in which recipes run."""
    return make_recipes()
