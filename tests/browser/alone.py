"""A file of these tests in a network of its own."""

from __future__ import annotations

import os
from pathlib import Path

import pytest

from ..live.inside import run_inside, way_inside


def run_alone(file: str, page: Path) -> None:
    """Runs the tests of a file that are marked `inside`, for this folder."""
    way = way_inside()
    if not way:
        pytest.skip("no network of its own can be had here (unshare, and apt-get install iproute2)")
    os.environ["WB_PAGE"] = str(page)
    run_inside(file, way)
