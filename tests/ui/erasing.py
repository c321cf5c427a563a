"""What one erased, another brings back by a click: a row for each step, by who erased, also where a third of all datagrams is lost."""
from __future__ import annotations

import re
from pathlib import Path

from ..live.browser import CONTROL, Browser, Missed, all_came
from .classroom import LOSSY, class_of, rows, stroke
from .inks import at, draw
from .sheets import BY_CELLS, Member, Sheet, Tally

ITEMS = "wb.ink.items.length"
ROWS = "document.querySelectorAll('#hidden li').length"


def shows(sheet: Sheet, items: int) -> bool | Missed:
    return sheet.page.wait(f"{ITEMS} === {items} && !wb.session.waiting.size")


def test_cleared(tally: Tally, anna: Sheet, tom: Sheet) -> None:
    """A pupil clears the page of the teacher, who brings it back."""
    for n in range(7):
        stroke(anna, (150 + 60 * n, 250), (170 + 60 * n, 330))
    tally.check("seven strokes in both windows", shows(anna, 7) and shows(tom, 7))
    tom.press("#file")
    tom.press("#clear")
    tally.check("the pupil clears them", shows(anna, 0) and shows(tom, 0))
    anna.page.value("window.sent = 0; ((draw) => { wb.session.member.draw = (...words) => { window.sent += 1; return draw.apply(wb.session.member, words); }; })(wb.session.member.draw); 0")
    anna.page.value("wb.view.sheet.focus(); 0")
    anna.page.key("z", CONTROL)
    tally.check("undo says that what was drawn is erased already", anna.page.wait("document.getElementById('told').textContent.includes('erased already')"))
    anna.unfold("#hidden")
    tally.check("one row says who, what and when", anna.page.wait(f"{ROWS} === 1") and re.fullmatch(r"Tom cleared 7 drawings \d{1,2}:\d\d.*", rows(anna)[0]), str(rows(anna)))
    tally.check("undo sent nothing", anna.page.value("window.sent") == 0, str(anna.page.value("window.sent")))
    anna.press("#hidden button")
    tally.check("one click brings all back", shows(anna, 7) and shows(tom, 7))
    tally.check("and the row is gone", anna.page.wait("document.getElementById('hiding').hidden || " + f"{ROWS} === 0"))
    anna.fold()


def test_rows(tally: Tally, anna: Sheet, tom: Sheet) -> None:
    """Each step is a row: strokes that are erased, letters, and nothing for a move."""
    tom.page.value("wb.view.sheet.focus(); 0")
    tom.keys("e")
    draw(tom, at(tom, (140, 290), (180, 290)))
    tally.check("one stroke is erased", shows(anna, 6) and shows(tom, 6))
    tom.page.value("new Promise((done) => setTimeout(done, 1100))")
    draw(tom, at(tom, (200, 290), (300, 290)))
    tally.check("and two more", shows(anna, 4) and shows(tom, 4))
    anna.keys("v")
    draw(anna, at(anna, (460, 290), (460, 350), (460, 410)))
    moved = f"{ITEMS} === 4 && wb.ink.items.filter(({{ points }}) => points[0].y > 1400).length === 1"
    tally.check("one is moved", anna.page.wait(moved) and tom.page.wait(moved), str(anna.page.value("wb.ink.items.map(({ points }) => points[0].y)")))
    anna.unfold("#hidden")
    tally.check("a move makes no row", anna.page.wait(f"{ROWS} === 2"), str(rows(anna)))
    found = rows(anna)
    tally.check("each step has a row, the latest first", [re.sub(r" \d+:.*", "", row) for row in found] == ["Tom cleared 2 drawings", "Tom erased writing"], str(found))
    anna.press("#hidden li:last-child button")
    tally.check("the first is brought back alone", shows(anna, 5) and shows(tom, 5))
    anna.page.value("wb.view.sheet.focus(); 0")
    anna.page.key("z", CONTROL)
    tally.check("which can be undone", shows(anna, 4) and shows(tom, 4))
    anna.fold()


def test_as_it_was(tally: Tally, anna: Sheet, tom: Sheet) -> None:
    """The page as it was before, and what is missing since."""
    anna.unfold("#earlier-open")
    anna.press("#earlier-open")
    # the end is now, and the beginning is the first stroke
    anna.slide("#earlier-at", True)
    tally.check("now nothing is missing", anna.page.wait("document.getElementById('earlier-back').disabled"), anna.text_of("earlier-back"))
    at_seven = "Math.max(...wb.history.moments.map((at, i) => (wb.session.board.hidden.every(({ erased }) => Number(erased[2]) > at) ? i : -1)))"
    anna.page.value(f"document.getElementById('earlier-at').value = {at_seven}; document.getElementById('earlier-at').dispatchEvent(new Event('input')); 0")
    tally.check("its moment is told", anna.page.wait(r"/^\d{1,2}:\d\d:\d\d/.test(document.getElementById('earlier-told').textContent)"), anna.text_of("earlier-told"))
    tally.check("then there was more", anna.page.wait("!document.getElementById('earlier-back').disabled"), anna.text_of("earlier-back"))
    anna.press("#earlier-back")
    tally.check("all seven are back, and the one where it was moved to", shows(anna, 7) and shows(tom, 7))
    anna.fold()


def test_erasing(tally: Tally, browser: Browser, room: Path, ports: int) -> None:
    with class_of(browser, room, ports, [("Anna", 0.0), ("Tom", LOSSY)]) as (anna, tom):
        for test in (test_cleared, test_rows, test_as_it_was):
            test(tally, anna, tom)


def is_off(sheet: Sheet) -> bool | Missed:
    return sheet.page.wait("document.getElementById('clear').disabled && document.getElementById('delete-page').disabled")


def test_switch(tally: Tally, browser: Browser, room: Path, ports: int) -> None:
    """The window of who keeps the board says whether others may clear pages."""
    keeper = Member(room, ports, "127.0.0.1:0")
    sheets: list[Sheet] = []
    try:
        sheets += [Sheet(browser.open(keeper.address, first=BY_CELLS, is_apart=True)) for _ in range(2)]
        anna, tom = sheets
        for sheet in sheets:
            sheet.page.until("typeof wb !== 'undefined' && wb.session.hello.ready && wb.session.board.page")
        tom.press("#invite-code")
        tally.check("one click shows the address as a code", tom.page.wait("document.querySelector('#inviting[open] svg.code path').getBoundingClientRect().width > 200"))
        tally.check("which others open", tom.page.value("document.getElementById('inviting-line').value") == keeper.address
                    and tom.page.value("document.getElementById('inviting-here').hidden") is False)
        tom.press("#inviting form button")
        anna.unfold("#others-clear")
        tally.check("the keeper's window has a switch", anna.page.value("document.getElementById('others-clear').checked") is True)
        tom.press("#fold")
        tally.check("the program's own member is no guest", tom.page.wait("[...document.querySelectorAll('#members li')].at(-1).textContent === 'The boardkeeps what is drawnFollow'")
                    and tom.page.wait("document.querySelectorAll('#faces li').length === 2"), tom.text_of("members"))
        tally.check("two who chose no colour have two", all_came(sheet.page.wait("new Set(wb.faces.members.map(({ member }) => wb.painter.tintOf(member))).size === 2") for sheet in sheets)
                    and [sheet.page.value("JSON.stringify(wb.faces.members.map(({ member }) => [member, wb.painter.tintOf(member)]).sort())") for sheet in sheets][0]
                    == tom.page.value("JSON.stringify(wb.faces.members.map(({ member }) => [member, wb.painter.tintOf(member)]).sort())"))
        tally.check("another has none", tom.page.value("document.getElementById('clearing').hidden") is True and not tom.page.value("document.getElementById('clear').disabled"))
        anna.press("#others-clear")
        tally.check("switched off, others clear and delete no pages", is_off(tom))
        tally.check("the keeper does", anna.page.value("document.getElementById('clear').disabled") is False)
        tally.check("others can't switch it", tom.page.value("wb.session.member.clearing(true).then(({ ok }) => ok)") is False and is_off(tom))
        tally.check("that is refused", len(browser.faults) == 1 and "403" in browser.faults[0], str(browser.faults))
        browser.faults.clear()
        late = Sheet(browser.open(keeper.address, first=BY_CELLS, is_apart=True))
        sheets.append(late)
        tally.check("nor does who comes later", is_off(late))
        anna.press("#others-clear")
        tally.check("switched on, they do again", tom.page.wait("!document.getElementById('clear').disabled") and late.page.wait("!document.getElementById('clear').disabled"))
    finally:
        for sheet in sheets:
            sheet.page.close()
        keeper.end()
