"""Checkouts for the tests of the launcher."""

from __future__ import annotations

from collections.abc import Iterator
from pathlib import Path

import pytest

from .checkout import HERE, Checkout


@pytest.fixture
def checkout(tmp_path: Path) -> Iterator[Checkout]:
    made = Checkout(tmp_path)
    yield made
    made.end()


@pytest.fixture
def built(checkout: Checkout) -> Checkout:
    """One whose program was built."""
    checkout.wb()
    checkout.forget()
    return checkout


@pytest.fixture
def page(checkout: Checkout) -> Checkout:
    """One with a stand-in for the build of the page."""
    for folder in ("web/building", "web/member", "live/ui", "crates/wb_c/src", "crates/wb_c/specs", "crates/wb_c/proofs"):
        (checkout.top / folder).mkdir(parents=True)
    checkout.stand_in("build", HERE / "page.sh")
    (checkout.bin / "build").rename(checkout.top / "web/build")
    checkout.write("web/member/one.js", "scripts")
    return checkout
