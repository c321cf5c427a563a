"""Windows of a class: each of a member of its own, some of which lose a part of all datagrams. All show ink, and one page."""
from __future__ import annotations

import json
from collections.abc import Iterator, Sequence
from contextlib import contextmanager
from pathlib import Path

from ..live.browser import Browser, BrowserFault
from .inks import at, draw
from .people import introduce
from .sheets import BY_CELLS, Member, Sheet
from .writing import Point

# which part of all datagrams a window loses that is in a bad network
LOSSY = 0.33


@contextmanager
def class_of(browser: Browser, room: Path, ports: int, people: Sequence[tuple[str, float]]) -> Iterator[list[Sheet]]:
    """A window for each of these, who have a name and lose a part of all datagrams."""
    members: list[Member] = []
    sheets: list[Sheet] = []
    try:
        for _, lost in people:
            members.append(Member(room, ports, words=["--ports", str(ports), "--teach", "--lose", str(lost)]))
        sheets += [Sheet(browser.open(member.address, first=BY_CELLS)) for member in members]
        for sheet, (name, _), colour in zip(sheets, people, ("blue", "red", "green", "violet")):
            if not sheet.page.wait("typeof wb !== 'undefined' && wb.session.hello.ready && wb.session.board.page"):
                raise BrowserFault("a member may not draw")
            sheet.look("ink")
            sheet.page.value("wb.view.fit(); wb.view.home(); window.confirm = (text) => { window.asked = text; return true; }; 0")
            introduce(sheet, name, colour)
            sheet.fold()
        page = json.dumps(sheets[0].page.value("wb.session.board.page"))
        for sheet in sheets[1:]:
            sheet.page.value(f"wb.session.goToPage({page}); 0")
            sheet.page.until(f"wb.session.board.page === {page}")
        for sheet in sheets:
            sheet.page.until(f"wb.session.called.size === {len(people)}")
        yield sheets
    finally:
        # a page whose member has ended looks for it
        for sheet in sheets:
            sheet.page.close()
        for member in members:
            member.end()


def stroke(sheet: Sheet, *points: Point) -> None:
    """One stroke of the pen, which is sent at once."""
    sheet.keys("p")
    draw(sheet, at(sheet, *points))
    sheet.page.value("wb.pen.flush(); 0")
    sheet.page.until("!wb.session.waiting.size")


def rows(sheet: Sheet) -> list[str]:
    """What the panel says was erased, the latest first."""
    found: list[str] = sheet.page.value("[...document.querySelectorAll('#hidden li span')].map((line) => line.textContent)")
    return found
