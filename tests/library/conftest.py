"""The library, and programs in C and Rust that are compiled over it."""

from __future__ import annotations

import os
import shutil
import subprocess
from pathlib import Path

import pytest

TOP = Path(__file__).resolve().parents[2]


@pytest.fixture(scope="session")
def library() -> Path:
    """The folder that has include and lib: that of the library which WB_LIBRARY names, or what ./wb --library built."""
    named = os.environ.get("WB_LIBRARY")
    folder = Path(named).resolve().parents[1] if named else TOP / "out/library"
    if not (folder / "lib/libwb.so.0").exists():
        pytest.skip("there is no library here (./wb --library DIR builds it, and WB_LIBRARY names another)")
    return folder


def run(words: list[str | Path]) -> str:
    ran = subprocess.run(words, stdin=subprocess.DEVNULL, stdout=subprocess.PIPE, stderr=subprocess.STDOUT, text=True, check=False)
    assert ran.returncode == 0, ran.stdout
    return ran.stdout


@pytest.fixture(scope="session")
def compiler() -> str:
    found = shutil.which("cc") or shutil.which("gcc") or shutil.which("clang")
    if not found:
        pytest.skip("there is no compiler of C here (apt-get install gcc)")
    return found


def linked(library: Path) -> dict[str, list[str | Path]]:
    """The words of a compiler for a program over the library, by each file that there is: one that is not proved has no archive."""
    lib = library / "lib"
    found: dict[str, list[str | Path]] = {"archive": [lib / "libwb.a"], "shared": [f"-L{lib}", "-lwb", f"-Wl,-rpath,{lib}"]}
    return {name: words for name, words in found.items() if name == "shared" or (lib / "libwb.a").exists()}


@pytest.fixture(scope="session")
def host_in_c(library: Path, compiler: str, tmp_path_factory: pytest.TempPathFactory) -> Path:
    """examples/c/host.c, over the archive if there is one."""
    made = tmp_path_factory.mktemp("host") / "host"
    words = ["-std=c11", "-Wall", "-Wextra", "-Werror", "-O1", f"-I{library}/include"]
    run([compiler, *words, TOP / "examples/c/host.c", *next(iter(linked(library).values())), "-o", made])
    return made
