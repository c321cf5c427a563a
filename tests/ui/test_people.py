"""People beside the sheet, and what the system wishes."""

from __future__ import annotations

import pytest

from . import beside, films, people
from .conftest import Flow, Windows, name_of
from .sheets import Tally


@pytest.mark.parametrize("flow", [people.test_people, films.test_presence, beside.test_side, beside.test_night, beside.test_wishes], ids=name_of)
def test_flow(tally: Tally, windows: Windows, flow: Flow) -> None:
    windows.show(tally, flow)


def test_film(tally: Tally, windows: Windows) -> None:
    films.test_film(tally, windows.browser, windows.room, windows.one)
    # a film refuses a drawing, which its browser tells as a fault
    windows.browser.faults.clear()
