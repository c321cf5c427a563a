"""What the tests of the package for Node and browsers share: the package as it is where it was installed."""

from __future__ import annotations

import shutil
from collections.abc import Callable
from pathlib import Path

import pytest

from ..host.program import TOP
from ..node import find_node, run_tests
from ..programs.conftest import modules, room

__all__ = ["HERE", "HOME", "Tests", "room"]

HERE = Path(__file__).resolve().parent
HOME = TOP / "javascript"

Tests = Callable[..., None]


@pytest.fixture
def tests_of(room: Path, tmp_path: Path) -> Tests:
    """Runs tests under Node in a folder that has the package, and what else they take beside it."""
    def run(name: str, *beside: Path, **environment: str) -> None:
        (tmp_path / "node_modules").mkdir(exist_ok=True)
        (tmp_path / "node_modules/wb").symlink_to(room / "node_modules/wb")
        shutil.copy(HERE.parent / "check.mjs", tmp_path)
        (tmp_path / "tests").mkdir()
        for path in (HERE / name, *beside):
            shutil.copy(path, tmp_path / "tests")
        run_tests(tmp_path / "tests" / name, WB_MODULE=str(modules() / "wb-any.wasm"), **environment)

    return run


@pytest.fixture(autouse=True)
def with_node() -> None:
    find_node()
