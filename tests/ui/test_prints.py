"""The page on paper, in two formats, by day and by night."""

from __future__ import annotations

from . import prints
from .conftest import Windows
from .sheets import Tally


def test_whole(tally: Tally, windows: Windows) -> None:
    windows.show(tally, prints.test_prints)
