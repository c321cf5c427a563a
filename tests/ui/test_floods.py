"""Boards with very much on them."""

from __future__ import annotations

import pytest

from . import floods
from .conftest import Flow, Windows, name_of
from .sheets import Tally


@pytest.mark.parametrize("flow", [floods.test_floods], ids=name_of)
def test_flow(tally: Tally, windows: Windows, flow: Flow) -> None:
    windows.show(tally, flow)
