"""The tools that draw, erase, select and move, each as one step of undo: by mouse, by finger and by keys."""
from __future__ import annotations

import json
import math
import time
from typing import Union

from ..live.browser import CONTROL, SHIFT, Missed, all_came

from .sheets import Sheet, Tally

# windows by their width, height, scheme and hand: each two of these meet
WINDOWS = (1600, 900, "light", "mouse"), (1600, 900, "dark", "finger"), (390, 780, "light", "finger"), (390, 780, "dark", "mouse")
USUAL = 1280, 800, "light", "mouse"

# by keys, from the cell 5, 5 on: what is there before, the keys, and rows from column 5 on after them
RIGHT, DOWN = ["ArrowRight"] * 6, ["ArrowDown"] * 2
HERE = ["line 5 5 11 5 -"]
Key = Union[str, tuple[str, int]]
BY_KEYS: tuple[tuple[str, list[str], list[Key], dict[int, str]], ...] = (
    ("the pen", [], ["p", "Enter", *RIGHT, *DOWN, "Enter"], {5: "#######", 6: "      #", 7: "      #"}),
    ("an arrow", [], ["a", "Enter", *RIGHT, "Enter"], {5: "######>"}),
    ("a frame", [], ["f", "Enter", *RIGHT, *DOWN, "Enter"], {5: "#######", 6: "#     #", 7: "#######"}),
    ("a filled frame", [], ["b", "Enter", *RIGHT, *DOWN, "Enter"], {5: "#######", 6: "#######", 7: "#######"}),
    ("a text of lines", [], ["t", "Enter", "a", "b", ("Enter", SHIFT), "c", "Enter"], {5: "ab ", 6: "c  "}),
    ("the eraser", [*HERE, "line 5 7 11 7 -"], ["e", "Enter", *DOWN, "Enter"], {5: " " * 7, 7: " " * 7}),
    ("a selection", HERE, ["s", "Enter", *DOWN, "Enter"], {5: " " * 7, 7: "-" * 7}),
    ("a deletion", HERE, [("a", CONTROL), "Delete"], {5: " " * 7}),
)

# drawops of a stroke for each second, and for a shorter one
MOST_OF_A_SECOND = 10


def on_a_new_page(one: Sheet, other: Sheet) -> None:
    """Both look at a new page, which is that in view if nothing was drawn on it."""
    new = json.dumps(one.page.value("wb.session.member.choose(null).then(({ page }) => page)"))
    other.page.value(f"wb.session.goToPage({new}); 0")
    for sheet in (one, other):
        sheet.page.until(f"wb.session.board.page === {new} && !wb.session.shown.size")


def count(sheet: Sheet) -> int:
    return int(sheet.page.value("wb.session.board.drawops.length"))


def has(sheet: Sheet, drawn: int) -> bool | Missed:
    """Whether the page comes to show this many drawings, and no more soon after."""
    return sheet.page.wait(f"wb.session.board.drawops.length === {drawn} && !wb.session.waiting.size")


def both_have(one: Sheet, other: Sheet, drawn: int) -> bool | Missed:
    """The same of both: who drew last may hear of it last."""
    return has(one, drawn) and has(other, drawn)


def test_pen(tally: Tally, one: Sheet, other: Sheet) -> None:
    on_a_new_page(one, other)
    one.keys("p")
    points = [(4, 4), (10, 3), (16, 6), (22, 9), (28, 6), (34, 3), (40, 6), (46, 9), (52, 6), (58, 4), (50, 12), (30, 14), (10, 12)]
    began = time.monotonic()
    one.stroke(points)
    most = math.ceil(MOST_OF_A_SECOND * max(1.0, time.monotonic() - began))
    tally.check("a stroke of the pen appears in the other window", other.page.wait("wb.session.board.drawops.length > 3 && wb.layout.markAt(4, 4) === '#'"))
    one.page.until("!wb.session.waiting.size")
    tally.check("it took few drawops", count(one) <= most, str(count(one)))
    tally.check("it ends where the hand let go", other.page.wait("wb.layout.markAt(10, 12) === '#'"))
    one.page.key("z", CONTROL)
    tally.check("one undo takes the stroke back", has(one, 0) and has(other, 0))
    one.page.key("z", CONTROL | SHIFT)
    tally.check("one redo draws it again", other.page.wait("wb.layout.markAt(10, 12) === '#' && wb.layout.markAt(4, 4) === '#'"))
    one.page.key("z", CONTROL)
    has(other, 0)
    one.click(3, 3)
    tally.check("a dot of the pen", other.shows(3, 3, "#") and has(other, 1))


def test_groups(tally: Tally, one: Sheet, other: Sheet) -> None:
    on_a_new_page(one, other)
    one.keys("b")
    one.drag((4, 2), (13, 5))
    tally.check("a filled frame", all_came(other.shows(4, row, "#" * 10) for row in range(2, 6)) and has(other, 4))
    one.keys("a")
    one.drag((4, 8), (12, 8))
    tally.check("an arrow has a head", other.shows(4, 8, "########>"))
    one.page.key("z", CONTROL)
    tally.check("undo takes the arrow back", has(other, 4))
    one.page.key("z", CONTROL)
    tally.check("and then the filled frame", has(other, 0))
    one.keys("t")
    one.click(2, 10)
    for line in ("first", "", "  third"):
        one.page.write(line)
        one.page.key("Enter", SHIFT if line != "  third" else 0)
    tally.check("many lines of text at once", other.shows(2, 10, "first") and other.shows(2, 12, "  third") and has(other, 2), other.text_of("text"))
    one.page.key("z", CONTROL)
    tally.check("they are one step", has(other, 0))


def test_eraser(tally: Tally, one: Sheet, other: Sheet) -> None:
    on_a_new_page(one, other)
    one.keys("l")
    for row in (2, 4, 6, 8):
        one.drag((4, row), (20, row))
    both_have(one, other, 4)
    one.keys("e")
    one.drag((10, 1), (10, 7))
    tally.check("the eraser deletes what it touches", has(other, 1) and other.shows(4, 8, "#" * 17))
    one.page.key("z", CONTROL)
    tally.check("one undo brings all back", has(other, 4) and has(one, 4))


def test_selection(tally: Tally, one: Sheet, other: Sheet) -> None:
    on_a_new_page(one, other)
    one.keys("f")
    one.drag((4, 2), (9, 4))
    one.keys("l")
    one.drag((20, 2), (26, 2))
    both_have(one, other, 2)
    one.keys("s")
    one.drag((2, 1), (12, 6))
    tally.check("a rectangle selects what lies in it", one.page.wait("wb.hand.selection.size === 1"))
    one.drag((4, 3), (8, 9))
    tally.check("a selection is moved", other.shows(8, 8, "######") and other.shows(4, 2, " " * 6))
    tally.check("it stays selected", one.page.wait("wb.hand.selected().length === 1 && wb.hand.selected()[0].x0 === 8"))
    one.page.key("z", CONTROL)
    tally.check("one undo moves it back", all_came(sheet.shows(4, 2, "######") and sheet.shows(8, 8, " " * 6) and has(sheet, 2) for sheet in (one, other)))
    one.page.key("a", CONTROL)
    tally.check("all are selected", one.page.wait("wb.hand.selected().length === 2"))
    one.page.key("Delete")
    tally.check("they are deleted by a key", has(other, 0))
    one.page.key("z", CONTROL)
    tally.check("and come back as one step", has(other, 2))


def test_selection_by_keys(tally: Tally, one: Sheet, other: Sheet) -> None:
    one.page.value("wb.hand.drop(); wb.view.sheet.focus(); Object.assign(wb.hand.cursor, { x: 20, y: 2, on: true }); 0")
    one.keys("s", "Enter")
    one.walk(0, 3)
    one.keys("Enter")
    tally.check("a drawing is moved by keys", other.shows(20, 5, "#" * 7) and other.shows(20, 2, " " * 7))
    one.page.key("z", CONTROL)
    tally.check("and back by one undo", other.shows(20, 2, "#" * 7) and has(other, 2) and has(one, 2))


PASTE = """((text) => {
    const data = new DataTransfer();
    data.setData('text/plain', text);
    wb.view.sheet.dispatchEvent(new ClipboardEvent('paste', { clipboardData: data, bubbles: true, cancelable: true }));
})"""

COPY = """((kind) => {
    const data = new DataTransfer();
    wb.view.sheet.dispatchEvent(new ClipboardEvent(kind, { clipboardData: data, bubbles: true, cancelable: true }));
    return data.getData('text/plain');
})"""


def test_tools(tally: Tally, one: Sheet, other: Sheet) -> None:
    """All that is drawn, erased and moved, by mouse and by a finger, in windows of each kind."""
    one.page.value("wb.hand.setGlyph('#'); 0")
    for width, height, scheme, hand in WINDOWS:
        one.be(width, height, scheme, hand)
        one.page.value(f"wb.view.setSize({9 if width > 1000 else 6}); wb.view.home()")
        for test in (test_pen, test_groups, test_eraser, test_selection):
            with tally.told(f"{width} points, {scheme}, {hand}"):
                test(tally, one, other)
    one.be(*USUAL)
    one.keys("0")


def test_keys(tally: Tally, one: Sheet, other: Sheet) -> None:
    """Each tool by keys alone, in windows of each kind; one undo takes back what it did."""
    for width, height, scheme, _ in WINDOWS[1:3]:
        one.be(width, height, scheme, "keys")
        on_a_new_page(one, other)
        for name, ground, keys, wanted in BY_KEYS:
            if ground:  # without, the undo before has left the page empty
                on_a_new_page(one, other)
            for line in ground:
                one.page.value(f"wb.session.send({json.dumps(line)}).then(({{ ok }}) => ok)")
            has(one, len(ground))
            one.page.value("wb.hand.setGlyph('#'); wb.hand.drop(); wb.view.sheet.focus(); Object.assign(wb.hand.cursor, { x: 5, y: 5, on: true }); 0")
            for key in keys:
                one.page.key(*key) if isinstance(key, tuple) else one.keys(key)
            is_so = all_came(other.shows(5, y, row) for y, row in wanted.items())
            tally.check(f"{name} by keys ({width} points, {scheme})", is_so, other.text_of("text"))
            one.page.key("z", CONTROL)
            rows = {y: " " * len(row) for y, row in wanted.items()}
            rows.update({int(line.split()[2]): line[-1] * 7 for line in ground})
            tally.check(f"undo of {name} by keys ({width} points, {scheme})", all_came(other.shows(5, y, row) for y, row in rows.items()), other.text_of("text"))
    one.be(*USUAL)


def test_pinch(tally: Tally, one: Sheet, other: Sheet) -> None:
    """Two fingers move the sheet and make it larger; what one of them had begun is dropped."""
    on_a_new_page(one, other)
    one.be(390, 780, "light", "finger")
    one.keys("l")
    (x, y), wide = one.point(12, 12), one.page.value("wb.view.wide")
    before = one.page.value(f"wb.view.cellAt({{ clientX: {x}, clientY: {y} }})")
    one.page.touch("touchStart", (x - 30, y))
    one.page.touch("touchStart", (x - 30, y), (x + 30, y))
    one.page.touch("touchMove", (x - 45, y), (x + 45, y))
    one.page.touch("touchMove", (x - 60, y), (x + 60, y))
    one.page.touch("touchEnd")
    tally.check("two fingers make the sheet larger", one.page.wait(f"wb.view.wide > {wide} * 1.5"))
    after = one.page.value(f"wb.view.cellAt({{ clientX: {x}, clientY: {y} }})")
    tally.check("about their middle", abs(after["x"] - before["x"]) <= 1 and abs(after["y"] - before["y"]) <= 1, f"{before} {after}")
    tally.check("and draw nothing", not other.page.wait("wb.session.board.drawops.length", 0.4))
    one.be(*USUAL)
    one.keys("0")
    one.page.value("wb.view.home()")


def test_clipboard(tally: Tally, one: Sheet, other: Sheet) -> None:
    one.page.key("a", CONTROL)
    copied = one.page.value(f"{COPY}('copy')")
    tally.check("a copy is the words of the drawings", copied == "frame 4 2 9 4 #\nline 20 2 26 2 #\n", repr(copied))
    on_a_new_page(one, other)
    one.page.value("wb.hand.pointer = null; Object.assign(wb.hand.cursor, { x: 30, y: 12, on: true }); 0")
    one.page.value(f"{PASTE}({json.dumps(copied)})")
    tally.check("it is pasted on another page, where the cursor is", other.shows(30, 12, "######          #######") and has(other, 2), other.text_of("text"))
    tally.check("what was pasted is selected", one.page.wait("wb.hand.selected().length === 2"))
    cut = one.page.value(f"{COPY}('cut')")
    tally.check("a cut deletes", has(other, 0) and cut.startswith("frame 30 12 35 14"), cut)
    one.page.value(f"{PASTE}({json.dumps('one' + chr(10) + '  two' + chr(10))})")
    tally.check("any text is pasted line by line", other.shows(30, 12, "one") and other.shows(30, 13, "  two"), other.text_of("text"))
    one.page.key("z", CONTROL)
    tally.check("as one step", has(other, 0))
    one.page.value(f"{PASTE}({json.dumps('r' + chr(233) + 'sum' + chr(233))})")
    tally.check("letters that there are not are told", other.shows(30, 12, "resume") and "ASCII" in one.text_of("told"))


def test_letters(tally: Tally, one: Sheet, other: Sheet) -> None:
    """Single letters are keys on the sheet alone, and not where they are switched off."""
    one.page.value("wb.view.sheet.focus()")
    one.keys("l")
    tally.check("a letter is a key on the sheet", one.page.wait("wb.hand.tool === 'line'"))
    one.page.value("document.getElementById('new').focus()")
    one.keys("f")
    tally.check("and nowhere else", one.page.value("wb.hand.tool") == "line")
    one.page.value("wb.view.sheet.focus()")
    one.keys("?")
    one.page.value("document.getElementById('letters').click()")
    one.keys("Escape", "f")
    tally.check("they can be switched off", one.page.value("wb.hand.tool") == "line" and one.page.value("localStorage.getItem('wb-letters')") == "off")
    one.page.value("document.getElementById('letters').click(); wb.view.sheet.focus()")
    one.keys("f")
    tally.check("and on", one.page.wait("wb.hand.tool === 'frame'"))


def test_zoom(tally: Tally, one: Sheet, other: Sheet) -> None:
    x, y = one.point(40, 12)
    before, wide = (one.page.value(what) for what in (f"wb.view.cellAt({{ clientX: {x}, clientY: {y} }})", "wb.view.wide"))
    for turn in range(2):
        one.page.call("Input.dispatchMouseEvent", type="mouseWheel", x=x, y=y, deltaX=0, deltaY=-100, modifiers=CONTROL)
        tally.check("it becomes larger by the wheel", one.page.wait(f"wb.view.wide === {wide + turn + 1}"))
    after = one.page.value(f"wb.view.cellAt({{ clientX: {x}, clientY: {y} }})")
    tally.check("what is under the pointer stays there when it becomes larger", before == after, f"{before} {after}")
    one.keys("0")
    one.page.value("wb.view.home()")


def test_palm(tally: Tally, one: Sheet, other: Sheet) -> None:
    """If there is a stylus, a finger and the palm of the hand draw nothing."""
    on_a_new_page(one, other)
    one.keys("l")
    (x, y), (far, _) = one.point(10, 5), one.point(20, 5)
    for kind, at in (("mousePressed", x), ("mouseMoved", far), ("mouseReleased", far)):
        one.page.call("Input.dispatchMouseEvent", type=kind, x=at, y=y, button="left", buttons=1, clickCount=1, pointerType="pen")
    tally.check("a line is drawn by a stylus", other.shows(10, 5, "#" * 11), other.text_of("text"))
    one.page.call("Emulation.setTouchEmulationEnabled", enabled=True)
    one.page.touch("touchStart", (x, y + 40))
    one.page.touch("touchMove", (x + 30, y + 70))
    one.page.touch("touchEnd")
    tally.check("a finger then draws nothing", not other.page.wait("wb.session.board.drawops.length > 1", 0.5))
    one.page.call("Emulation.setTouchEmulationEnabled", enabled=False)
    one.page.value("wb.pointing.hasStylus = false; wb.view.home()")
