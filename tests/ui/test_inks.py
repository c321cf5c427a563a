"""Ink by each hand."""

from __future__ import annotations

import pytest

from . import inks
from .conftest import Flow, Windows, name_of
from .sheets import Tally


@pytest.mark.parametrize("flow", [inks.test_inks], ids=name_of)
def test_flow(tally: Tally, windows: Windows, flow: Flow) -> None:
    windows.show(tally, flow)
