"""Two windows that show one page though a third is lost, and then do not: somebody draws a second time under the name of one."""

from __future__ import annotations

import os
import random
import time
from pathlib import Path

from ..live.attacks.test_forgeries import now
from ..live.attacks.test_hostile import drawn
from ..live.browser import Browser, Missed, all_came
from ..protocol.carrying import Station
from ..protocol.member import Member as Written
from .sheets import BY_CELLS, Member, Sheet, Tally

FORGER = 4_000_000_003
ROWS = 30


def shows(sheet: Sheet, other: Member, words: str) -> bool | Missed:
    """Whether a window comes to say this beside the other member."""
    row = f"[...document.querySelectorAll('#members li')].find(({{ title }}) => title.startsWith('member {other.number}'))"
    return sheet.page.wait(f"{row}?.querySelector('small').textContent.includes('{words}')")


def picture(sheet: Sheet, name: str) -> None:
    if "WB_PICTURES" in os.environ:
        sheet.page.picture(Path(os.environ["WB_PICTURES"]) / f"{name}.png")


def test_apart(tally: Tally, browser: Browser, tmp_path: Path) -> None:
    ports = 26_000 + os.getpid() % 250 * 128 + 96
    members = [Member(tmp_path, ports, words=["--ports", str(ports), "--open", "--lose", "0.33"]) for _ in range(2)]
    forger = Station(Written(FORGER, random.Random(7), now()), ports, random.Random(7))
    try:
        windows = [Sheet(browser.open(member.address, first=BY_CELLS)) for member in members]
        tally.check("both may draw", all_came(window.page.wait("typeof wb !== 'undefined' && wb.session.hello.ready && wb.faces.members.length === 3") for window in windows))
        for row in range(ROWS):
            windows[row % 2].page.value(f"wb.session.send('line 0 {row} 9 {row} *').then(({{ ok }}) => ok)")
        for window in windows:
            window.press("#fold")
        tally.check("each says that the other has the same page", all_came(shows(windows[at], members[1 - at], "same page") for at in range(2)))
        picture(windows[0], "same")
        # often, since a third is lost
        for _ in range(9):
            forger.socket.sendto(drawn(members[0].number, ROWS // 2 + 1, now(), 40, b"f"), ("127.0.0.1", ports + 1))
        time.sleep(0.02)
        windows[0].page.value(f"wb.session.send('line 0 {ROWS} 9 {ROWS} *').then(({{ ok }}) => ok)")
        tally.check("then that it has another", all_came(shows(windows[at], members[1 - at], "another page") for at in range(2)))
        for window in windows:
            tally.check("the page says so at once", window.page.wait("document.getElementById('state').textContent.includes('Not the same')"), window.text_of("state"))
            tally.check("and what people can do", "drew twice under one name" in window.text_of("another"), window.text_of("another"))
        picture(windows[0], "another")
        tally.check("no fault in a page", not browser.faults, "; ".join(browser.faults))
    finally:
        forger.end()
        for member in members:
            member.end()
