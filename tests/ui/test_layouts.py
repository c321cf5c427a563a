"""The page in windows of each size, and how soon a drawing is seen elsewhere."""

from __future__ import annotations

import pytest

from . import layouts, measures, paintings
from .conftest import Flow, Windows, name_of
from .sheets import Tally


@pytest.mark.parametrize("flow", [layouts.test_layouts, measures.measure, measures.measure_frames, paintings.measure_strokes], ids=name_of)
def test_flow(tally: Tally, windows: Windows, flow: Flow) -> None:
    windows.show(tally, flow)
