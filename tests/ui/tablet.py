"""A tablet: by fingers alone, and by a pen with an eraser at its other end and a button at its side."""
from __future__ import annotations

import json
from pathlib import Path

from ..live.browser import CONTROL, Browser
from .classroom import class_of, stroke
from .inks import at
from .sheets import Sheet, Tally

ITEMS = "wb.ink.items.length"

# points of a window of a tablet
WIDTH, HEIGHT = 820, 1180

# a movement of a pen with its other end down, as a browser tells it
REVERSED = """((points) => {
    const { sheet } = wb.view, { left, top } = sheet.getBoundingClientRect();
    sheet.setPointerCapture = () => {};
    points.forEach(([x, y], i) => {
        const kind = i === 0 ? 'pointerdown' : i === points.length - 1 ? 'pointerup' : 'pointermove';
        sheet.dispatchEvent(new PointerEvent(kind, { pointerId: 77, pointerType: 'pen', button: kind === 'pointermove' ? -1 : 5, buttons: kind === 'pointerup' ? 0 : 32,
            clientX: left + x, clientY: top + y, pressure: 0.5, bubbles: true, cancelable: true }));
    });
    delete sheet.setPointerCapture;
})"""


def take(sheet: Sheet, tool: str) -> None:
    """Presses a tool. After two quick strokes of a finger this browser makes no click of the first tap."""
    for _ in range(2):
        sheet.press(f"[data-tool={tool}]")
        if sheet.page.wait(f"wb.hand.tool === {json.dumps(tool)}", 2.0):
            return


def shows(sheet: Sheet, items: int) -> object:
    return sheet.page.wait(f"{ITEMS} === {items} && !wb.session.waiting.size")


def test_fingers(tally: Tally, one: Sheet) -> None:
    """What is drawn is taken within 16 points of a finger, and deleted by a second tap."""
    for x in (200, 300):
        stroke(one, (x, 400), (x, 500))
    take(one, "select")
    one.tap(*at(one, (213, 450))[0])
    tally.check("a finger takes what is 13 points beside it", one.page.wait("wb.hand.chosenItems().length === 1"))
    one.press("#chosen-delete")
    tally.check("a second tap deletes it", shows(one, 1))
    one.tap(*at(one, (321, 450))[0])
    tally.check("but not what is 21 points beside it", one.page.wait("wb.hand.selection.size === 0"))
    take(one, "note")
    one.tap(*at(one, (400, 600))[0])
    one.page.until("document.activeElement === wb.typing.box")
    one.page.key("Escape")
    tally.check("a note without letters is not drawn", not one.page.wait(f"{ITEMS} > 1 || wb.session.waiting.size", 0.6))


def test_button(tally: Tally, one: Sheet) -> None:
    """One button has the colour and the width, and opens all of them."""
    take(one, "pen")
    tally.check("the row is folded", one.page.wait("!document.querySelector('#style .colours').getClientRects().length"))
    one.press("#style-open")
    one.page.until("document.querySelector('#style .colours').getClientRects().length")
    one.press("#style [aria-label=red]")
    one.press("#style [aria-label=thick]")
    tally.check("it tells what was chosen", one.page.wait("document.getElementById('style-open').getAttribute('aria-label') === 'Colour and width: red, thick'"))
    stroke(one, (200, 700), (300, 700))
    tally.check("that is drawn with", shows(one, 2) and one.page.value("wb.ink.items[1].colour * 10 + wb.ink.items[1].width") == 14)
    tally.check("and the row is folded again", one.page.wait("!document.querySelector('#style .colours').getClientRects().length"))


def test_pen(tally: Tally, one: Sheet) -> None:
    """The eraser at the other end of a pen, and the button at its side."""
    one.page.value(f"{REVERSED}({json.dumps([[290, 450], [300, 452], [310, 455], [312, 456]])}); 0")
    tally.check("the other end erases", shows(one, 1))
    tally.check("and the pen stays the tool", one.page.value("wb.hand.tool") == "pen")
    for kind, (x, y) in zip(("mousePressed", "mouseMoved", "mouseMoved", "mouseReleased"), at(one, (180, 660), (250, 700), (330, 740), (330, 740))):
        one.page.call("Input.dispatchMouseEvent", type=kind, x=x, y=y, button="right", buttons=2, clickCount=1, pointerType="pen", force=0.5)
    tally.check("with its button a pen selects", one.page.wait("wb.hand.chosenItems().length === 1 && wb.hand.tool === 'select'"))
    one.page.value("wb.pointing.hasStylus = false; 0")


def test_keyboard(tally: Tally, one: Sheet) -> None:
    """What is typed stays above a keyboard that covers the lower half of the window."""
    take(one, "text")
    one.tap(*at(one, (200, 950))[0])
    one.page.until("document.activeElement === wb.typing.box")
    one.page.value("Object.defineProperty(visualViewport, 'height', { configurable: true, get: () => 600 }); visualViewport.dispatchEvent(new Event('resize')); 0")
    bottom = "wb.typing.box.getBoundingClientRect().bottom"
    tally.check("what is typed moves above it", one.page.wait(f"{bottom} < 600 && {bottom} > 500"), str(one.page.value(bottom)))
    one.page.call("Input.insertText", text="above")
    one.page.key("Enter", CONTROL)
    one.page.value("delete visualViewport.height; 0")
    tally.check("and is drawn where it was to be", one.page.wait("wb.ink.items.some(({ letters, points }) => letters === 'above' && Math.abs(points[0].x * wb.view.wide / 64 - wb.view.corner()[0] - 200) < 2)"))


def test_tablet(tally: Tally, browser: Browser, room: Path, ports: int) -> None:
    with class_of(browser, room, ports, [("Anna", 0.0)]) as (one,):
        one.be(WIDTH, HEIGHT, "light", "finger")
        one.page.value("wb.view.sheet.focus(); 0")
        for test in (test_fingers, test_button, test_pen, test_keyboard):
            test(tally, one)
