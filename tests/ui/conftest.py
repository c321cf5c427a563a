"""The windows of the tests of the page: a real browser without a screen, and two members of one session of this machine."""

from __future__ import annotations

import json
import os
from collections.abc import Callable, Iterator
from dataclasses import dataclass
from pathlib import Path

import pytest

from ..facts import Facts
from ..live.browser import Browser, find_chromium
from . import beside
from .sheets import BY_CELLS, COVERED, Member, Sheet, Tally

Flow = Callable[[Tally, Sheet, Sheet], None]


def name_of(flow: Flow) -> str:
    return flow.__name__.removeprefix("test_")


@pytest.fixture
def tally(facts: Facts) -> Tally:
    return Tally(facts)


@pytest.fixture(scope="module")
def browser() -> Iterator[Browser]:
    program = find_chromium()
    if not program:
        pytest.skip("there is no chromium here (apt-get install chromium)")
    with Browser(program) as found:
        yield found


@dataclass
class Windows:
    """Two members, which look at one page, and the window of each."""

    browser: Browser
    room: Path
    ports: int
    members: list[Member]
    one: Sheet
    other: Sheet

    def show(self, tally: Tally, flow: Flow) -> None:
        """A flow of both windows. No page reports a fault, and nothing covers what is pressed."""
        flow(tally, self.one, self.other)
        self.is_quiet(tally)

    def is_quiet(self, tally: Tally) -> None:
        tally.check("no fault in a page, and none of its policy", not self.browser.faults, "; ".join(self.browser.faults))
        tally.check("nothing that is pressed is covered", not COVERED, ", ".join(COVERED))
        self.browser.faults.clear()
        COVERED.clear()


@pytest.fixture(scope="module")
def windows(browser: Browser, tmp_path_factory: pytest.TempPathFactory) -> Iterator[Windows]:
    room, ports = tmp_path_factory.mktemp("ui"), 26_000 + os.getpid() % 250 * 128
    members = [Member(room, ports)]
    try:
        members.append(Member(room, ports))
        one, other = (Sheet(browser.open(member.address, first=BY_CELLS)) for member in members)
        facts = Facts()
        beside.test_meeting(Tally(facts), one, other)
        # both look at the page of the first
        page = json.dumps(one.page.value("wb.session.board.page"))
        other.page.value(f"wb.session.goToPage({page})")
        facts("both look at one page", other.page.wait(f"wb.session.board.page === {page}"))
        assert facts.wrong == []
        yield Windows(browser, room, ports, members, one, other)
    finally:
        for member in members:
            member.end()
