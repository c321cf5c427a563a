"""What is drawn, and where one looks: two windows show the same."""

from __future__ import annotations

import pytest

from . import drawing, going
from .conftest import Flow, Windows, name_of
from .sheets import Tally


@pytest.mark.parametrize("flow", [drawing.test_mouse, drawing.test_text, drawing.test_delete, going.test_pages, drawing.test_keys, going.test_keys_of_pages, going.test_view, going.test_cells, going.test_narrow], ids=name_of)
def test_flow(tally: Tally, windows: Windows, flow: Flow) -> None:
    windows.show(tally, flow)
