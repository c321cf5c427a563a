"""The page in German and in Arabic, by real clicks in two browsers."""

from __future__ import annotations

from pathlib import Path

from ..live.browser import Browser
from .languages import test_languages as show
from .sheets import Tally


def test_page(tally: Tally, browser: Browser, tmp_path: Path) -> None:
    show(tally, browser, tmp_path, 0)
    tally.check("no fault in a page, and none of its policy", not browser.faults, "; ".join(browser.faults))
