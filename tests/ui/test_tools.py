"""The tools of the page, by a mouse, a finger and keys."""

from __future__ import annotations

import pytest

from . import tools
from .conftest import Flow, Windows, name_of
from .sheets import Tally


@pytest.mark.parametrize("flow", [tools.test_tools, tools.test_selection_by_keys, tools.test_clipboard, tools.test_keys, tools.test_letters, tools.test_zoom, tools.test_palm, tools.test_pinch], ids=name_of)
def test_flow(tally: Tally, windows: Windows, flow: Flow) -> None:
    windows.show(tally, flow)
