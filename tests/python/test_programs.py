"""Where the package finds the program and the library."""

from __future__ import annotations

import shutil
import subprocess
import sys
from collections.abc import Callable
from pathlib import Path

import pytest
import wb

from .conftest import HOME, raised

FIND = "import wb\ntry: print(wb.find_program(), wb.find_library())\nexcept wb.NoProgram as fault: print('none')"


@pytest.fixture
def found(tmp_path: Path) -> Callable[..., str]:
    """What a copy of the package finds, with nothing on PATH."""
    room = tmp_path / "a/b/c/d"
    shutil.copytree(HOME / "wb", room / "wb", ignore=shutil.ignore_patterns("__pycache__"))

    def find(**told: str) -> str:
        environment = {"PATH": "/nowhere", "PYTHONDONTWRITEBYTECODE": "1", **told}
        return subprocess.run([sys.executable, "-c", FIND], cwd=room, env=environment, stdout=subprocess.PIPE, text=True, check=True).stdout.strip()

    return find


def test_none(found: Callable[..., str]) -> None:
    """Where there is no program that is said, and nothing is begun."""
    assert found() == "none"


def test_named(found: Callable[..., str]) -> None:
    assert found(WB_PROGRAM="/x/wb", WB_LIBRARY="/x/libwb.so") == "/x/wb /x/libwb.so"


def test_built(found: Callable[..., str], tmp_path: Path) -> None:
    """That of a tree in which it was installed, and before that the checkout's."""
    for folder in (tmp_path / "a/bin", tmp_path / "a/b/c/out"):
        folder.mkdir()
        (folder / "wb").touch(0o755)
        assert found() == f"{folder}/wb None"


@pytest.mark.parametrize("name, start", [("strange", wb.ChildHost), ("strange.so", wb.LibraryHost)])
def test_strange(name: str, start: Callable[[str], object], tmp_path: Path) -> None:
    """What was built for another machine is said to be no program."""
    (tmp_path / name).write_bytes(b"\x7fELF of another machine")
    (tmp_path / name).chmod(0o755)
    assert raised(lambda: start(str(tmp_path / name))) == "NoProgram"
