"""Following somebody, by real clicks in two windows, of which one loses a third of all datagrams."""
from __future__ import annotations

import json
import time
from collections.abc import Callable
from pathlib import Path

from ..live.browser import PATIENCE, Browser, Page

from .inks import at, draw
from .lesson import two_windows
from .sheets import Sheet, Tally

# what a window has in view of the page, and whether that has all that another has, or all but a little
VIEW = "(({ x0, y0, x1, y1 }) => [Math.max(0, x0), Math.max(0, y0), x1, y1])(wb.view.boxInUnits())"
HAS = "((seen, [x0, y0, x1, y1], off = 0.01 * (x1 - x0)) => seen[0] <= x0 + off && seen[1] <= y0 + off && seen[2] >= x1 - off && seen[3] >= y1 - off)"

FRAME = "!document.getElementById('following').hidden"
OTHERS_FACE = "#faces button[title$=follow]"
PRESSED = f"document.querySelector('{OTHERS_FACE}').getAttribute('aria-pressed')"
PAGE = "wb.session.board.page"


def sees(tally: Tally, name: str, leader: Sheet, other: Sheet) -> None:
    """Whoever follows comes to have in view what the other has, on the same page, though nobody moves any more."""
    leader.page.until("!wb.sight.isToFit && !wb.session.wished")
    page, view = leader.page.value(PAGE), leader.page.value(VIEW)
    tally.check(name, other.page.wait(f"{PAGE} === {json.dumps(page)} && {HAS}({VIEW}, {json.dumps(view)})"), str((page, view, other.page.value(f"[{PAGE}, {VIEW}]"))))


def scroll(page: Page, down: float, held: int = 0) -> None:
    page.call("Input.dispatchMouseEvent", type="mouseWheel", x=800, y=500, deltaX=0, deltaY=down, modifiers=held)


def is_followed(tally: Tally, name: str, anna: Sheet, tom: Sheet, is_so: bool) -> None:
    """What stands about the sheet, at the face and in the panel."""
    tally.check(f"{name}: the frame", tom.page.wait(f"{FRAME} === {json.dumps(is_so)}"))
    tally.check(f"{name}: the face", tom.page.value(PRESSED) == str(is_so).lower())
    tally.check(f"{name}: the panel", tom.page.value("document.querySelector('#members button:not([hidden])').textContent") == ("Following" if is_so else "Follow"))


def test_faces(tally: Tally, anna: Sheet, tom: Sheet) -> None:
    tom.press(OTHERS_FACE)
    is_followed(tally, "one click follows", anna, tom, True)
    tally.check("the frame has the name", tom.page.wait("document.getElementById('following').textContent.includes('Anna Berg')"), tom.text_of("following"))
    tom.press(OTHERS_FACE)
    is_followed(tally, "one more ends it", anna, tom, False)
    tom.unfold("#members button:not([hidden])")
    tom.press("#members button:not([hidden])")
    is_followed(tally, "the panel's button follows", anna, tom, True)
    anna.unfold("#members")
    tally.check("who is followed sees it", anna.page.wait("document.getElementById('members').textContent.includes('follows you')"), anna.text_of("members"))
    anna.fold()
    tom.press("#unfollow")
    is_followed(tally, "Stop ends it", anna, tom, False)
    tom.fold()


def test_views(tally: Tally, anna: Sheet, tom: Sheet) -> None:
    """What is in view goes along, by whatever it is moved, also while the pointer rests."""
    anna.keys("p")
    draw(anna, at(anna, (300, 300), (420, 330), (520, 300)))
    tom.press(OTHERS_FACE)
    sees(tally, "the view is taken over", anna, tom)
    scroll(anna.page, 900)
    sees(tally, "it goes down with the wheel", anna, tom)
    scroll(anna.page, -300, 2)
    sees(tally, "it becomes larger", anna, tom)
    anna.press("#fit")
    sees(tally, "everything is shown", anna, tom)
    first = anna.page.value(PAGE)
    anna.press("#new")
    anna.page.until(f"{PAGE} !== {json.dumps(first)}")
    sees(tally, "a new page by its button", anna, tom)
    draw(anna, at(anna, (300, 300), (420, 330), (520, 300)))
    anna.page.until("!wb.pen.strokes && !wb.session.waiting.size")
    anna.press("#back")
    anna.page.until(f"{PAGE} === {json.dumps(first)}")
    sees(tally, "the page before", anna, tom)
    anna.press("#all")
    anna.page.until("document.querySelectorAll('#glances button').length > 1")
    anna.press("#glances [aria-current=false]")
    anna.page.until(f"{PAGE} !== {json.dumps(first)} && !document.getElementById('overview').open")
    sees(tally, "a page by the overview", anna, tom)
    anna.page.value(f"document.getElementById('pages').value = {json.dumps(first)}; document.getElementById('pages').dispatchEvent(new Event('change'))")
    anna.page.until(f"{PAGE} === {json.dumps(first)}")
    sees(tally, "a page by the list", anna, tom)


def test_hand(tally: Tally, anna: Sheet, tom: Sheet) -> None:
    """Nothing is pulled away under a hand that draws, and what is typed is not lost."""
    tom.keys("p")
    page, view, had = tom.page.value(PAGE), tom.page.value(VIEW), tom.page.value("wb.ink.items.length")
    tom.page.press(400, 500)
    tom.page.mouse("mouseMoved", 500, 500)
    scroll(anna.page, 1200)
    anna.press("#forth")
    anna.page.until(f"{PAGE} !== {json.dumps(page)}")
    tally.check("it waits, and says so", tom.page.wait("document.getElementById('following').textContent.includes('once you are done')"), tom.text_of("following"))
    tom.page.mouse("mouseMoved", 700, 500)
    tally.check("nothing moves while one draws", tom.page.value(f"[{PAGE}, ...{VIEW}]") == [page, *view])
    tom.page.mouse("mouseReleased", 700, 500)
    sees(tally, "and then the page is turned", anna, tom)
    anna.press("#back")
    sees(tally, "and back", anna, tom)
    tally.check("the stroke is straight", tom.page.wait(f"wb.ink.items.length === {had + 1} && (({{ points }}) => Math.max(...points.map(({{ y }}) => Math.abs(y - points[0].y))) < 20)(wb.ink.items[wb.ink.items.length - 1])"))
    tom.keys("t")
    tom.page.click(300, 640)
    tom.page.until("document.activeElement === wb.typing.box")
    tom.page.call("Input.insertText", text="a leaf is")
    anna.press("#forth")
    anna.page.until(f"{PAGE} !== {json.dumps(page)}")
    tally.check("who types is waited for", tom.page.wait("document.getElementById('following').textContent.includes('once you are done')"))
    tom.page.call("Input.insertText", text=" green")
    tally.check("at the same place", tom.page.value(f"[{PAGE}, document.activeElement === wb.typing.box]") == [page, True])
    tom.page.key("Enter")
    sees(tally, "and then the page is turned", anna, tom)
    anna.press("#back")
    tally.check("what was typed is on the page where it was typed", anna.page.wait("wb.ink.items.some(({ letters }) => letters === 'a leaf is green')"))


def test_ends(tally: Tally, anna: Sheet, tom: Sheet) -> None:
    """It ends by itself when the hand moves the view."""
    sees(tally, "both are on one page", anna, tom)
    tom.keys("v")
    tom.page.value("wb.view.sheet.focus(); 0")
    moves: list[tuple[str, Callable[[], None]]] = [("the wheel", lambda: scroll(tom.page, 300)), ("a zoom", lambda: tom.press("#larger")),
                                                   ("a page", lambda: tom.press("#forth")), ("Escape", lambda: tom.keys("Escape"))]
    for name, move in moves:
        tom.page.value("wb.view.sheet.focus(); 0")
        if not tom.page.value(FRAME):
            tom.press(OTHERS_FACE)
            sees(tally, "one follows again", anna, tom)
            tom.page.value("wb.view.sheet.focus(); 0")
        move()
        is_followed(tally, f"{name} ends it", anna, tom, False)


def test_call(tally: Tally, anna: Sheet, tom: Sheet) -> None:
    """Everybody is called, and may leave again."""
    anna.unfold("#call")
    anna.press("#call")
    anna.fold()
    tally.check("who is called follows", tom.page.wait(FRAME))
    sees(tally, "to what is in view", anna, tom)
    tom.press("#unfollow")
    tally.check("and may leave", tom.page.wait(f"!({FRAME})") and not tom.page.wait(FRAME, 3.0))
    tom.unfold("#call")
    tom.press("#call")
    tom.fold()
    tally.check("another calls", anna.page.wait(FRAME))
    sees(tally, "to what that one has in view", tom, anna)
    tom.press(OTHERS_FACE)
    end = time.monotonic() + PATIENCE
    while (both := anna.page.value(FRAME) and tom.page.value(FRAME)) and time.monotonic() < end:
        time.sleep(0.05)
    tally.check("no two follow each other", not both)


def hold(tally: Tally, browser: Browser, room: Path, ports: int) -> None:
    with two_windows(browser, room, ports) as (anna, tom):
        tom.resize(1200, 900)
        for test in (test_faces, test_views, test_hand, test_ends, test_call):
            test(tally, anna, tom)
