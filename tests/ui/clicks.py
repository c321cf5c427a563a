"""How many clicks a task takes, as the page itself counts them: with the tool for it in hand, in two browsers of which one loses a third of all datagrams."""
from __future__ import annotations

from pathlib import Path

from ..live.browser import Browser
from .changes import CHOSEN, ITEMS, SECOND, both
from .classroom import LOSSY, class_of, stroke
from .inks import at, draw, gather, send
from .sheets import Sheet, Tally
from .writing import smooth, written

COUNT = "window.clicks = 0; addEventListener('pointerdown', () => { window.clicks += 1; }, true); 0"


def clicks(sheet: Sheet) -> int:
    """Those since it was asked last."""
    return int(sheet.page.value("((many) => { window.clicks = 0; return many; })(window.clicks)"))


def test_changed(tally: Tally, anna: Sheet, tom: Sheet) -> None:
    anna.keys("p")
    gather(anna, *(at(anna, *smooth(each, 4)) for text, x in (("green", 120), ("light", 360)) for each in written(text, x, 220, 60)))
    send(anna)
    tally.check("a line of two words is one item", both(anna, tom, [[0, 2, 17]]), anna.page.value(ITEMS))
    anna.keys("v")
    clicks(anna)
    anna.page.click(*at(anna, (431, 250))[0])
    anna.press("#style [aria-label=red]")
    tally.check("what stands there is red", both(anna, tom, [[1, 2, 17]]), anna.page.value(ITEMS))
    tally.check("by 2 clicks", (many := clicks(anna)) == 2, str(many))
    anna.page.key("Escape")
    draw(anna, at(anna, *SECOND))
    anna.page.until("wb.hand.chosen.pieces().length === 1")
    before = anna.page.value(CHOSEN)
    draw(anna, at(anna, (430, 250), (440, 310), (450, 370)))
    tally.check("one word of it is moved", both(anna, tom, [[1, 2, 8], [1, 2, 9]]) and anna.page.value(CHOSEN)[1] > before[1] + 100, anna.page.value(ITEMS))
    tally.check("by 2 drags", (many := clicks(anna)) == 2, str(many))


def test_deleted(tally: Tally, anna: Sheet, tom: Sheet) -> None:
    """By a finger, on a tablet."""
    anna.page.key("Escape")
    stroke(anna, (150, 520), (250, 560))
    tally.check("a stroke", both(anna, tom, [[1, 2, 8], [1, 2, 9], [0, 2, 1]]))
    anna.be(810, 1080, "light", "finger")
    anna.keys("v")
    clicks(anna)
    anna.tap(*at(anna, (200, 540))[0])
    anna.press("#chosen-delete")
    tally.check("a selection is deleted", both(anna, tom, [[1, 2, 8], [1, 2, 9]]), anna.page.value(ITEMS))
    tally.check("by 2 taps", (many := clicks(anna)) == 2, str(many))
    anna.be(1280, 800, "light", "mouse")


def test_back(tally: Tally, anna: Sheet, tom: Sheet) -> None:
    """What somebody cleared comes back by what the page offers by itself."""
    for n in range(5):
        stroke(anna, (150 + 60 * n, 520), (170 + 60 * n, 560))
    both(anna, tom, [[1, 2, 8], [1, 2, 9], *[[0, 2, 1]] * 5])
    tom.press("#file")
    tom.press("#clear")
    both(anna, tom, [])
    clicks(anna)
    anna.page.until("!document.getElementById('cleared').hidden")
    tally.check("the page says who cleared it", anna.text_of("cleared").startswith("Tom cleared 7 drawings"), anna.text_of("cleared"))
    anna.press("#cleared button")
    tally.check("all is back", both(anna, tom, [[1, 2, 8], [1, 2, 9], *[[0, 2, 1]] * 5]), anna.page.value(ITEMS))
    tally.check("by 1 click", (many := clicks(anna)) == 1, str(many))
    tally.check("and nothing is offered any more", anna.page.wait("document.getElementById('cleared').hidden"))
    tally.check("nor was it to who cleared", tom.page.value("document.getElementById('cleared').hidden"))


def test_invited(tally: Tally, anna: Sheet, tom: Sheet) -> None:
    """Others are shown the way here."""
    clicks(anna)
    anna.press("#invite-code")
    tally.check("the address is there as a code", anna.page.wait("document.querySelector('#inviting[open] svg.code path')"))
    tally.check("and in letters", bool(anna.page.value("/^http:.*[/]$/.test(document.getElementById('inviting-line').value)")))
    tally.check("by 1 click", (many := clicks(anna)) == 1, str(many))
    anna.page.key("Escape")


def test_clicks(tally: Tally, browser: Browser, room: Path, ports: int) -> None:
    with class_of(browser, room, ports, [("Anna", LOSSY), ("Tom", 0.0)]) as (anna, tom):
        anna.page.value(COUNT)
        for test in (test_changed, test_deleted, test_back, test_invited):
            test(tally, anna, tom)
