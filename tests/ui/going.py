"""Pages, the part of a page that is in view, and what each cell shows."""
from __future__ import annotations

import json
import random

from .sheets import Sheet, Tally

# drawings at random
DRAWINGS = 40


def test_pages(tally: Tally, one: Sheet, other: Sheet) -> None:
    first = one.page.value("wb.session.board.page")
    one.page.value("document.getElementById('new').click()")
    tally.check("a new page is empty", one.page.wait(f"wb.session.board.page !== '{first}'") and one.shows(4, 2, " " * 10))
    tally.check("an empty page says what to do", one.page.wait("!document.getElementById('hint').hidden"))
    second = one.page.value("wb.session.board.page")
    one.keys("l")
    one.drag((1, 1), (5, 1))
    tally.check("the other window knows the page", other.page.wait(f"[...document.getElementById('pages').options].some((o) => o.value === '{second}')"))
    tally.check("its own page stays", other.shows(4, 2, "*" * 10))
    other.page.value(f"wb.session.goToPage('{second}')")
    tally.check("a page is turned", other.shows(1, 1, "#####"))
    for sheet in (one, other):
        sheet.page.value(f"document.getElementById('pages').value = '{first}'; document.getElementById('pages').dispatchEvent(new Event('change'))")
        tally.check("it is turned back", sheet.shows(4, 2, "*" * 10))


def test_keys_of_pages(tally: Tally, one: Sheet, other: Sheet) -> None:
    first = other.page.value("wb.session.board.page")
    other.page.value("document.getElementById('new').focus()")
    other.keys("Enter")
    tally.check("a new page by keys", other.page.wait(f"wb.session.board.page !== '{first}' && wb.session.pages.some(({{ page }}) => page === wb.session.board.page)"))
    turn = other.page.value(f"wb.session.pages.findIndex(({{ page }}) => page === '{first}') - wb.session.pages.findIndex(({{ page }}) => page === wb.session.board.page)")
    other.page.value("wb.view.sheet.focus(); 0")
    other.keys(*["[" if turn < 0 else "]"] * abs(turn))
    tally.check("pages are turned by keys", other.page.wait(f"wb.session.board.page === '{first}'"))
    other.keys("?")
    tally.check("the keys are told", other.page.wait("document.getElementById('keys').open"))
    other.keys("Escape")
    tally.check("Escape closes them", other.page.wait("!document.getElementById('keys').open"))


def test_view(tally: Tally, one: Sheet, other: Sheet) -> None:
    """Another part of the page, larger and smaller."""
    one.page.call("Input.dispatchMouseEvent", type="mouseWheel", x=300, y=300, deltaX=0, deltaY=400)
    tally.check("the wheel goes down the page", one.page.wait("wb.view.top > 5"))
    one.page.call("Input.dispatchKeyEvent", type="keyDown", key=" ", windowsVirtualKeyCode=32)
    one.page.drag((300, 200), (400, 700))
    one.page.call("Input.dispatchKeyEvent", type="keyUp", key=" ", windowsVirtualKeyCode=32)
    tally.check("a drag with Space comes back, and draws nothing", one.page.wait("wb.view.top < 0 && !wb.hand.gesture && !wb.session.waiting.size"))
    wide = one.page.value("wb.view.wide")
    one.keys("+", "+")
    tally.check("it is larger", one.page.wait(f"wb.view.wide === {wide + 2}"))
    one.keys("0")
    tally.check("100 per cent again", one.page.wait(f"wb.view.wide === {wide}"))


def some_drawing(chance: random.Random) -> str:
    """A line, frame or text somewhere in view."""
    x0, x1, y0, y1 = (chance.randrange(top) for top in (100, 100, 40, 40))
    kind = chance.choice(("line", "line", "frame", "text"))
    return f'text {x0} {y0} "some text"' if kind == "text" else f"{kind} {x0} {y0} {x1} {y1} {chance.choice('*#+-o')}"


def test_cells(tally: Tally, one: Sheet, other: Sheet) -> None:
    """The page's own painting, which tints and ghosts go by, against the rows that the host painted."""
    first = one.page.value("wb.session.board.page")
    one.page.value("wb.session.goToPage(null); 0")
    one.page.until(f"wb.session.board.page !== '{first}' && !wb.session.board.drawops.length")
    chance = random.Random(7)
    for _ in range(DRAWINGS):
        one.page.value(f"wb.session.send({json.dumps(some_drawing(chance))})")
    tally.check("all are drawn", one.page.wait(f"wb.session.board.drawops.length === {DRAWINGS}"), str(one.page.value("wb.session.board.drawops.length")))
    wrong = one.page.value("""(() => {
        const own = Array.from({ length: 40 }, (_, y) => Array.from({ length: 100 }, (_, x) => wb.layout.markAt(x, y)).join('').trimEnd());
        return own.map((row, y) => [y, row, (wb.session.board.rows[y] ?? '').slice(0, 100).trimEnd()]).filter(([, row, host]) => row !== host);
    })()""")
    tally.check("each cell is the host's", one.page.value("wb.view.rows > 40 && wb.view.columns > 100") and not wrong, str(wrong))
    one.page.value(f"wb.session.goToPage('{first}')")
    one.page.until(f"wb.session.board.page === '{first}'")


def test_narrow(tally: Tally, one: Sheet, other: Sheet) -> None:
    one.resize(390, 780, mobile=True)
    tally.check("nothing is wider than a narrow window", one.page.wait("wb.view.columns < 60 && document.documentElement.scrollWidth <= 390"))
    tally.check("the panel is closed", bool(one.page.value("getComputedStyle(document.getElementById('side')).display === 'none'")))
    one.page.value("document.getElementById('fold').click()")
    tally.check("it is opened", one.page.wait("document.getElementById('side').clientHeight > 200"))
    one.page.value("document.getElementById('close-side').click()")
    one.keys("l")
    one.page.touch("touchStart", one.point(4, 16))
    one.page.touch("touchMove", one.point(9, 18))
    one.page.touch("touchMove", one.point(14, 16))
    one.page.touch("touchEnd")
    tally.check("a line is drawn by a finger", other.shows(4, 16, "#" * 11), other.text_of("text"))
    one.resize(1280, 800)
