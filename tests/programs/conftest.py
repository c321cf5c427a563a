"""What programs of other people have of wb: the library, the package for Node and browsers, a compiler."""

from __future__ import annotations

import os
import shutil
import subprocess
import sys
import tarfile
from pathlib import Path

import pytest

from ..host.program import TOP
from ..browser.conftest import wait_for_the_build
from ..library.conftest import library

__all__ = ["library"]


def found(package: str, *programs: str) -> str:
    """The first of these programs that is there; without any, the test is skipped."""
    paths = [path for name in programs if (path := shutil.which(name))]
    if not paths:
        pytest.skip(f"there is no {programs[0]} here (apt-get install {package})")
    return paths[0]


def run(words: list[str | Path], folder: Path, **more: str) -> str:
    ran = subprocess.run(words, cwd=folder, env={**os.environ, **more}, stdin=subprocess.DEVNULL, stdout=subprocess.PIPE, stderr=subprocess.STDOUT,
                         text=True, timeout=600, check=False)
    assert ran.returncode == 0, ran.stdout
    return ran.stdout


def modules() -> Path:
    """The folder of the modules that ./wb --page builds; WB_MODULES or the page of WB_PAGE is another."""
    wait_for_the_build()
    named = os.environ.get("WB_MODULES") or os.environ.get("WB_PAGE")
    folder = Path(named) if named else TOP / "out/modules"
    if not (folder / "wb-any.wasm").exists():
        pytest.skip("there are no modules here (./wb --page builds them)")
    return folder


@pytest.fixture(scope="session")
def room(tmp_path_factory: pytest.TempPathFactory) -> Path:
    """A folder in whose node_modules the package is."""
    made = tmp_path_factory.mktemp("package")
    packed = run([sys.executable, TOP / "javascript/pack.py", made, modules()], made).strip()
    (made / "node_modules").mkdir()
    with tarfile.open(packed) as archive:
        archive.extractall(made)
    (made / "package").rename(made / "node_modules/wb")
    return made
