"""Following somebody."""

from __future__ import annotations

import os
from pathlib import Path

from ..live.browser import Browser
from .follow import hold
from .sheets import Tally


def test_follow(tally: Tally, browser: Browser, tmp_path: Path) -> None:
    hold(tally, browser, tmp_path, 26_064 + os.getpid() % 250 * 128)
    tally.check("no fault in a page, and none of its policy", not browser.faults, "; ".join(browser.faults))
