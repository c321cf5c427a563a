"""A program that is killed and started again."""

from __future__ import annotations

from pathlib import Path

from ..live.browser import Browser
from . import abroad, restart
from .sheets import Tally


def test_restart(tally: Tally, browser: Browser, tmp_path: Path) -> None:
    restart.hold(tally, browser, tmp_path)


def test_abroad(tally: Tally, browser: Browser, tmp_path: Path) -> None:
    abroad.hold(tally, browser, tmp_path)
