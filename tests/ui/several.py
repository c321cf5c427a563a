"""Several tabs of one member, two members of one number, and a program that ends and is started anew."""
from __future__ import annotations

import os
import re
import subprocess
from pathlib import Path
from typing import Callable

from ..live.browser import PATIENCE, Browser, all_came

from .sheets import BY_CELLS, TOP, Member, Sheet, Tally


def test_tabs(tally: Tally, browser: Browser, member: Member) -> None:
    """Eight tabs of one member: each hears of drawings, and each draws."""
    tabs = [Sheet(browser.open(member.address, first=BY_CELLS)) for _ in range(8)]
    tally.check("eight tabs are told", all_came(tab.page.wait("typeof wb !== 'undefined' && wb.session.link === 'open' && wb.session.board.page") for tab in tabs))
    page = f"{member.number}/4000"
    tabs[0].page.value(f"wb.session.goToPage('{page}')")
    tally.check("they show one page", all_came(tab.page.wait(f"wb.session.board.page === '{page}' && wb.session.board.drawops.length === 0") for tab in tabs))
    for row, tab in enumerate(tabs):
        tab.page.value(f"wb.session.send('line 0 {row} 7 {row} =')")
    tally.check("each draws, and all show it", all_came(tab.shows(0, row, "=" * 8) for tab in tabs for row in range(8)))
    for tab in tabs:
        tab.page.close()


def test_twin(tally: Tally, room: Path, browser: Browser, one: Sheet, member: Member, ports: int) -> None:
    """Another member with our number: the page goes on by a new one, and says so."""
    words = [str(TOP / "wb-live"), "--ports", str(ports), "--no-web", "--no-terminal", "--me", str(member.number), "--record", str(room / "twin.wb")]
    twin = subprocess.Popen(words, cwd=room, env={**os.environ, "XDG_STATE_HOME": str(room)}, stdin=subprocess.DEVNULL, stdout=subprocess.DEVNULL)
    try:
        one.page.value("localStorage.setItem('wb-name', 'Ada')")
        tally.check("a new number is taken", one.page.wait(f"wb.session.hello.me !== {member.number} && wb.session.hello.ready && document.getElementById('twin').hidden"))
        tally.check("which is told", one.page.wait(f"document.getElementById('warnings').textContent.includes('somebody else spoke under our number {member.number}')"))
        tally.check("one's name goes along", one.page.wait("wb.session.called.get(wb.session.hello.me) === 'Ada'"))
        taken = one.page.value("wb.session.hello.me")
        one.page.value("document.getElementById('renumber').click()")
        tally.check("and to one that people want", one.page.wait(f"wb.session.hello.me !== {taken} && wb.session.called.get(wb.session.hello.me)?.startsWith('Ada')"))
        tally.check("by it one draws", one.page.value("wb.session.send('line 0 30 7 30 =').then((answer) => answer.ok)") is True)
    finally:
        twin.terminate()
        twin.wait(PATIENCE)


def test_end(tally: Tally, one: Sheet, started: Member, again: Callable[[int], Member]) -> Member:
    """The program of a page ends, and is started anew: the window goes on by itself."""
    pages = one.page.value("wb.session.pages.length")
    one.page.value("window.before = 1; 0")
    tally.check("the program ends by SIGTERM with 0", started.end() == 0)
    tally.check("the page says so", one.page.wait("document.getElementById('phrase').textContent.includes('does not answer')"))
    port = int(re.findall(r":(\d+)/", started.address)[0])
    anew = again(port)
    tally.check("it has the same address", anew.address == started.address)
    tally.check("without a reload it is there again", one.page.wait("window.before === 1 && wb.session.link === 'open' && wb.session.hello.ready"))
    tally.check("the record has kept its number", anew.number == started.number)
    tally.check("and all that was drawn", pages > 0 and one.page.wait(f"wb.session.pages.length === {pages}"), one.text_of("pages"))
    return anew
