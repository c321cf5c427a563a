"""Checkouts whose proof, library, page and static program are stand-ins, and which are packed for real."""

from __future__ import annotations

import shutil
from collections.abc import Iterator
from pathlib import Path

import pytest

from ..launcher.checkout import TOP, Checkout

HERE = Path(__file__).resolve().parent

# what is packed as it stands
PACKED = ("README.md", "CHANGELOG.md", "docs", "examples", "wb-live", "wbhost.py", "live", "python", "javascript", "include", "web/member")
STAND_INS = {"build.sh": "web/build", "library.sh": "tools/library", "static.sh": "tools/static"}


def find_dpkg() -> str:
    found = shutil.which("dpkg-deb")
    if not found:
        pytest.skip("there is no dpkg-deb here (apt-get install dpkg)")
    return found


def make(room: Path) -> Checkout:
    """A checkout in a folder."""
    find_dpkg()
    room.mkdir(parents=True)
    checkout = Checkout(room)
    for name in PACKED:
        place = checkout.top / name
        if (TOP / name).is_dir():
            shutil.copytree(TOP / name, place, ignore=shutil.ignore_patterns("__pycache__", "target", "proofs", "pictures", "laboratory"))
        else:
            shutil.copyfile(TOP / name, place)
    (checkout.top / "wb-live").chmod(0o755)
    (checkout.top / "web/building").mkdir(parents=True)
    for crate in ("src", "specs", "proofs"):
        checkout.write(f"crates/wb_c/{crate}/lib.rt", "stands in")
    for script, name in STAND_INS.items():
        shutil.copy(HERE / script, checkout.top / name)
        (checkout.top / name).chmod(0o755)
    return checkout


@pytest.fixture
def checkouts(tmp_path: Path) -> Iterator[list[Checkout]]:
    made = [make(tmp_path / name) for name in ("one", "a-longer-name/two")]
    yield made
    for checkout in made:
        checkout.end()


@pytest.fixture
def checkout(tmp_path: Path) -> Iterator[Checkout]:
    made = make(tmp_path / "one")
    yield made
    made.end()
