"""The pages of a class of three: all agree which is the third, and pages are moved, copied, deleted and brought back."""
from __future__ import annotations

import json
import time
from pathlib import Path

from ..live.browser import PATIENCE, Browser, all_came
from .classroom import LOSSY, class_of, stroke
from .sheets import Sheet, Tally

# the pages as the list of a window has them: which is called how
LIST = "JSON.stringify([...document.getElementById('pages').options].map(({ value, textContent }) => [value, textContent]))"
CALLED = "document.getElementById('pages').selectedOptions[0]?.textContent"


def agree(sheets: list[Sheet], many: int) -> bool:
    """Whether all lists come to be one, of this many pages."""
    end = time.monotonic() + PATIENCE
    while time.monotonic() < end:
        lists = {str(sheet.page.value(LIST)) for sheet in sheets}
        if len(lists) == 1 and len(json.loads(lists.pop())) == many:
            return True
    return False


def orders(sheets: list[Sheet], pages: list[str]) -> bool:
    """Whether all windows come to list these pages in this order."""
    return bool(all_came(sheet.page.wait(f"wb.session.leaves().map(({{ page }}) => page).join() === {json.dumps(','.join(pages))}") for sheet in sheets))


def told(sheets: list[Sheet]) -> str:
    return str([sheet.page.value("[wb.session.board.page, wb.session.leaves().map(({ page }) => page)]") for sheet in sheets])


def test_third(tally: Tally, sheets: list[Sheet]) -> list[str]:
    """Each presses + and then draws, the last first."""
    stroke(sheets[0], (200, 300), (300, 380))
    sheets[0].press("#new")
    sheets[0].page.until("wb.session.board.drawops.length === 0 && wb.session.leaves().length === 2")
    tally.check("a page on which nobody has drawn has no number", sheets[0].page.wait(f"{CALLED} === 'New page'"))
    stroke(sheets[0], (200, 300), (300, 420))
    tally.check("two pages in all windows", agree(sheets, 2))
    for sheet in sheets:
        sheet.press("#new")
        sheet.page.until("wb.session.board.drawops.length === 0 && wb.session.leaves().length === 3")
    tally.check("three new pages, of which none is the third yet", all_came(sheet.page.wait(f"{CALLED} === 'New page'") for sheet in sheets))
    for n, sheet in enumerate(reversed(sheets)):
        stroke(sheet, (200, 300), (300, 460 + 40 * n))
        tally.check(f"all have {n + 3} drawn pages", all_came(each.page.wait(f"wb.session.leaves().filter(({{ drawn }}) => drawn).length === {n + 3}") for each in sheets))
    tally.check("all agree which page is which", agree(sheets, 5), sheets[0].page.value(LIST))
    tally.check("who drew first has page 3", [sheet.page.value(CALLED) for sheet in sheets] == ["Page 5", "Page 4", "Page 3"], str([sheet.page.value(CALLED) for sheet in sheets]))
    return [str(page) for page, _ in json.loads(sheets[0].page.value(LIST))]


def card(sheet: Sheet, page: str, name: str) -> None:
    """Presses what is offered for a page in the overview."""
    if not sheet.page.value("document.getElementById('overview').open"):
        sheet.press("#all")
    chosen = f'#glances [data-page="{page}"] [aria-label^={json.dumps(name)}]'
    sheet.page.until(f"document.querySelector({json.dumps(chosen)})")
    sheet.press(chosen)


def test_order(tally: Tally, sheets: list[Sheet], pages: list[str]) -> None:
    """One moves, copies and deletes pages; another brings one back."""
    anna, tom, eve = sheets
    first, second, third, fourth, fifth = pages
    card(anna, third, "Earlier")
    tally.check("a page is moved, for all", orders(sheets, [first, third, second, fourth, fifth]))
    card(tom, first, "Later")
    tally.check("another is moved by somebody else", orders(sheets, [third, first, second, fourth, fifth]))
    card(anna, first, "Delete")
    tally.check("a page is deleted, for all", orders(sheets, [third, second, fourth, fifth]), told(sheets))
    tally.check("after it was asked", "Page 2" in anna.page.value("window.asked"), anna.page.value("window.asked"))
    for sheet in (anna, tom):
        sheet.press("#overview form button")
    card(eve, first, "Bring back")
    tally.check("somebody else brings it back, to its place", orders(sheets, [third, first, second, fourth, fifth]))
    tally.check("and sees it", eve.page.wait(f"wb.session.board.page === {json.dumps(first)} && wb.ink.items.length === 1"))
    eve.press("#file")
    eve.press("#copy-page")
    tally.check("a copy is a page of its own, behind it", eve.page.wait(f"wb.session.board.page !== {json.dumps(first)} && wb.ink.items.length === 1"))
    tally.check("for all", orders(sheets, [third, first, str(eve.page.value("wb.session.board.page")), second, fourth, fifth]))
    wide = "wb.ink.items[0].points.map(({ x, y }) => `${x} ${y}`).join()"
    copied = eve.page.value(wide)
    eve.press("#back")
    eve.page.until(f"wb.session.board.page === {json.dumps(first)} && wb.ink.items.length === 1")
    tally.check("with the same drawing", copied == eve.page.value(wide))


def test_pages(tally: Tally, browser: Browser, room: Path, ports: int) -> None:
    with class_of(browser, room, ports, [("Anna", 0.0), ("Tom", LOSSY), ("Eve", 0.0)]) as sheets:
        pages = test_third(tally, sheets)
        test_order(tally, sheets, pages)
