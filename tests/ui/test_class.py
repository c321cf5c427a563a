"""Lessons of a class, by real clicks in two and three browsers, of which one loses a third of all datagrams."""

from __future__ import annotations

import os
from collections.abc import Callable
from pathlib import Path

import pytest

from ..live.browser import Browser
from . import changes, clicks, erasing, forms, keyed, leafing, tablet
from .conftest import name_of
from .sheets import Tally


@pytest.mark.parametrize("flow", [leafing.test_pages, erasing.test_erasing, erasing.test_switch, changes.test_changes, tablet.test_tablet, forms.test_forms,
                                  clicks.test_clicks, keyed.test_keyed], ids=name_of)
def test_flow(tally: Tally, browser: Browser, tmp_path: Path, flow: Callable[[Tally, Browser, Path, int], None]) -> None:
    flow(tally, browser, tmp_path, 26_032 + os.getpid() % 250 * 128)
    tally.check("no fault in a page, and none of its policy", not browser.faults, "; ".join(browser.faults))
