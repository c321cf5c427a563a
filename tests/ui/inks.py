"""The page as ink: what is written, erased, moved and undone by mouse, by a finger, by a stylus and by keys."""
from __future__ import annotations

import json
import math
import time

from ..live.browser import CONTROL, PATIENCE, SHIFT, Missed, all_came

from .sheets import Sheet, Tally
from .tools import USUAL, WINDOWS, has, on_a_new_page
from .writing import Point, Stroke, smooth, written

# milliseconds after which what was written and is not full is sent
RESTS = 700

# the items of the page in view, their drawings, and of one its points in units
ITEMS, DRAWN = "wb.ink.items.length", "wb.session.board.drawops.length"

# whether two pages are the same: a number for the picture of all ink of the page in view, painted anew
PICTURE = """(() => {
    const canvas = document.createElement('canvas');
    wb.files.paintInk(wb.files.sheetOf(canvas, 900, 700), wb.session.board, 10);
    const { data } = canvas.getContext('2d').getImageData(0, 0, 900, 700);
    return data.reduce((sum, part, i) => (sum * 31 + part + i % 7) % 4294967291, 7) + ' ' + wb.ink.items.length;
})()"""


def at(sheet: Sheet, *points: Point) -> Stroke:
    """Points of the window for points of the sheet."""
    left, top = sheet.page.value("(({ left, top }) => [left, top])(wb.view.sheet.getBoundingClientRect())")
    return [(left + x, top + y) for x, y in points]


def draw(sheet: Sheet, stroke: Stroke, lifts: bool = True) -> None:
    """The hand goes along points of the window, and lets go there if it is to."""
    if sheet.hand == "finger":
        sheet.page.touch("touchStart", stroke[0])
        for point in stroke[1:]:
            sheet.page.touch("touchMove", point)
        if lifts:
            sheet.page.touch("touchEnd")
        return
    sheet.page.press(*stroke[0])
    sheet.page.go(stroke[1:])
    if lifts:
        sheet.page.mouse("mouseReleased", *stroke[-1])


def lift(sheet: Sheet, point: Point) -> None:
    if sheet.hand == "finger":
        sheet.page.touch("touchEnd")
    else:
        sheet.page.mouse("mouseReleased", *point)


def gather(sheet: Sheet, *strokes: Stroke) -> None:
    """Draws strokes of which none is sent, however slow the machine is: the pen rests for long."""
    sheet.page.value("wb.pen.rests = 100000; 0")
    for stroke in strokes:
        draw(sheet, stroke)


def send(sheet: Sheet) -> None:
    """Sends what was gathered. From now on the pen rests as it does."""
    sheet.page.value(f"wb.pen.rests = {RESTS}; wb.pen.flush(); 0")


def is_settled(sheet: Sheet, items: int) -> bool | Missed:
    """Whether the page comes to show this many items, and nothing waits."""
    return sheet.page.wait(f"{ITEMS} === {items} && !wb.session.waiting.size && !wb.ink.waiting.length")


def are_settled(one: Sheet, other: Sheet, items: int) -> bool | Missed:
    """The same of both: who drew last may hear of it last."""
    return is_settled(one, items) and is_settled(other, items)


def are_equal(one: Sheet, other: Sheet) -> bool:
    """Whether both come to show one picture. Either may still come to another when it is looked at."""
    end = time.monotonic() + PATIENCE
    while time.monotonic() < end:
        if other.page.wait(f"{PICTURE} === {json.dumps(one.page.value(PICTURE))}", 1.0):
            return True
    return False


def wave(x: float, y: float, wide: float, many: int = 80) -> Stroke:
    return [(x + wide * i / many, y + 24 * math.sin(i / 6)) for i in range(many + 1)]


def clean(one: Sheet, other: Sheet) -> None:
    """Both look at a new page, as ink, in its usual size. A hand that a slow machine holds up does not rest: no stroke becomes straight."""
    on_a_new_page(one, other)
    for sheet in (one, other):
        sheet.look("ink")
        sheet.page.value("wb.view.fit(); wb.view.home(); wb.hand.cursor.on = false; wb.pen.holds = 100000; wb.view.sheet.focus(); 0")


def test_pen(tally: Tally, one: Sheet, other: Sheet) -> None:
    clean(one, other)
    one.keys("p")
    way = at(one, *wave(60, 230, 260))
    draw(one, way[:60], lifts=False)
    tally.check("a stroke is seen while it is drawn", other.page.wait("wb.others.heard.some(({ beside }) => beside.shapes.length) || " + f"{ITEMS} === 1"))
    for point in way[60:]:
        one.page.touch("touchMove", point) if one.hand == "finger" else one.page.mouse("mouseMoved", *point)
    lift(one, way[-1])
    tally.check("it is one item in both windows", are_settled(one, other, 1))
    tally.check("of a few drawops", int(one.page.value(DRAWN)) <= 4, str(one.page.value(DRAWN)))
    far = one.page.value("""((way) => {
        const { points } = wb.ink.items[0], [left, top] = wb.view.corner(), scale = wb.view.wide / 64;
        const box = wb.view.sheet.getBoundingClientRect();
        return Math.max(...[points[0], points.at(-1)].map(({ x, y }, i) => Math.hypot(x * scale - left + box.left - way[i][0], y * scale - top + box.top - way[i][1])));
    })(%s)""" % json.dumps([way[0], way[-1]]))
    tally.check("it begins and ends where the hand did", far < 1.0, str(far))
    tally.check("both show one picture", are_equal(one, other))
    one.page.key("z", CONTROL)
    tally.check("one undo takes it back", are_settled(one, other, 0))
    one.page.key("z", CONTROL | SHIFT)
    tally.check("one redo draws it again", are_settled(one, other, 1))


def test_unsent(tally: Tally, one: Sheet, other: Sheet) -> None:
    """A stroke that is not sent yet costs nothing to take back; one that follows soon goes into the same text."""
    clean(one, other)
    one.keys("p")
    one.page.value("window.sent = 0; wb.session.on('ghosts', () => { window.sent += wb.session.waiting.size; }); 0")
    gather(one, at(one, (80, 230), (100, 250), (120, 230)))
    one.page.key("z", CONTROL)
    tally.check("undo of a stroke that is not sent draws nothing", not one.page.wait("window.sent || wb.pen.strokes", RESTS / 1000 + 0.4))
    tally.check("and nobody has it", int(one.page.value(ITEMS)) == 0 and int(other.page.value(ITEMS)) == 0)
    gather(one, at(one, (80, 230), (100, 250)), at(one, (110, 230), (130, 250)), at(one, (140, 230), (150, 250)))
    one.page.key("z", CONTROL)
    send(one)
    tally.check("of three strokes at once the last is taken back", is_settled(other, 1) and other.page.wait("wb.ink.items[0].points.filter(({ up }) => up).length === 1"))
    tally.check("the two are one drawop", int(other.page.value(DRAWN)) == 1)
    draw(one, at(one, (200, 230), (240, 260)))
    one.page.value("document.dispatchEvent(new Event('x')); dispatchEvent(new Event('pagehide')); 0")
    tally.check("closing the page sends what is open", other.page.wait(f"{ITEMS} === 2"))


def test_eraser(tally: Tally, one: Sheet, other: Sheet) -> None:
    clean(one, other)
    one.keys("p")
    gather(one, *(at(one, (x, 220), (x + 3, 270)) for x in (80, 120, 160)))
    send(one)
    are_settled(one, other, 1)
    one.keys("e")
    draw(one, at(one, (105, 245), (140, 245)))
    tally.check("the eraser takes strokes from lift to lift", are_settled(one, other, 1) and other.page.wait("wb.ink.items[0].points.filter(({ up }) => up).length === 1"))
    one.page.key("z", CONTROL)
    whole = f"{ITEMS} === 1 && wb.ink.items[0].points.filter(({{ up }}) => up).length === 2"
    tally.check("undo of a part brings all back", other.page.wait(whole) and one.page.wait(whole))
    draw(one, at(one, (60, 245), (180, 245)))
    tally.check("all parts are deleted, and nothing is drawn anew", are_settled(one, other, 0))
    one.page.key("z", CONTROL)
    tally.check("and come back", are_settled(one, other, 1))


def test_shapes(tally: Tally, one: Sheet, other: Sheet) -> None:
    clean(one, other)
    for n, key in enumerate("laro"):
        one.keys(key)
        draw(one, at(one, (60 + 70 * n, 220), (90 + 70 * n, 240), (110 + 70 * n, 270)))
    tally.check("a line, an arrow, a rectangle and an ellipse", are_settled(one, other, 4) and other.page.value("wb.ink.items.map(({ kind }) => kind).join('')") == "llro")
    tally.check("each is one drawop", int(other.page.value(DRAWN)) == 4)
    tally.check("the arrow has its head", other.page.value("wb.ink.items[1].flag & 1") == 1)
    one.keys("v")
    (x, y), = at(one, (200, 245))
    draw(one, [(x, y), (x + 20, y + 15), (x + 40, y + 30)])
    tally.check("a shape is moved by units", other.page.wait(f"{ITEMS} === 4 && wb.ink.items[3].kind === 'r'"), other.page.value("wb.ink.items.map(({ kind }) => kind).join('')"))
    moved = other.page.value("[wb.ink.items[3].points[0].x, wb.ink.items[3].points[0].y]")
    one.page.key("z", CONTROL)
    other.page.until(f"{ITEMS} === 4 && wb.ink.items[2].kind === 'r'")
    was = other.page.value("[wb.ink.items[2].points[0].x, wb.ink.items[2].points[0].y]")
    tally.check("by as much as the hand", abs(moved[0] - was[0] - 256) <= 7 and abs(moved[1] - was[1] - 192) <= 7, f"{was} {moved}")


def test_moves(tally: Tally, one: Sheet, other: Sheet) -> None:
    """Another's chain of several drawops is moved as a whole, exactly."""
    clean(one, other)
    one.keys("p")
    draw(one, at(one, *[(60 + 2 * i, 230 + 30 * math.sin(i / 4)) for i in range(130)]))
    one.page.until(f"!wb.pen.strokes && !wb.session.waiting.size && {DRAWN} > 1")
    tally.check("a long stroke is a chain", is_settled(other, 1) and other.page.wait(f"wb.ink.items[0].drawings.length === {one.page.value(DRAWN)}"), str(other.page.value(DRAWN)))
    before = other.page.value("wb.ink.items[0].points.map(({ x, y }) => [x, y])")
    start = other.page.value("""(() => {
        const { x, y } = wb.ink.items[0].points[0], [left, top] = wb.view.corner(), box = wb.view.sheet.getBoundingClientRect();
        return [x * wb.view.wide / 64 - left + box.left, y * wb.view.wide / 64 - top + box.top];
    })()""")
    other.keys("v")
    hand, other.hand = other.hand, "mouse"
    draw(other, [(start[0], start[1]), (start[0] + 10, start[1] + 20), (start[0] + 25, start[1] + 40)])
    other.hand = hand
    tally.check("it is moved", one.page.wait(f"{ITEMS} === 1 && wb.ink.items[0].source === {other.page.value('wb.session.hello.me')}") and is_settled(other, 1))
    after = one.page.value("wb.ink.items[0].points.map(({ x, y }) => [x, y])")
    ways = {(a[0] - b[0], a[1] - b[1]) for a, b in zip(after, before)}
    tally.check("each point by one way", len(after) == len(before) and len(ways) == 1, str(ways)[:200])
    other.page.key("z", CONTROL)
    tally.check("one undo brings it back", one.page.wait(f"{ITEMS} === 1 && wb.ink.items[0].source !== {other.page.value('wb.session.hello.me')}"))


# how wide and high a frame is that another window shows, and a stroke beside it, in units
EXTENTS = """['r', 's'].flatMap((kind) => {
    const { points } = wb.ink.items.find((item) => item.kind === kind), [xs, ys] = [points.map(({ x }) => x), points.map(({ y }) => y)];
    return [Math.max(...xs) - Math.min(...xs), Math.max(...ys) - Math.min(...ys)];
})"""


def test_resizing(tally: Tally, one: Sheet, other: Sheet) -> None:
    """A frame, and a stroke in it, by a corner of the box about both."""
    clean(one, other)
    one.keys("r")
    draw(one, at(one, (80, 230), (130, 260), (180, 300)))
    one.keys("p")
    draw(one, at(one, *wave(95, 265, 60, 30)))
    are_settled(one, other, 2)
    before = other.page.value(EXTENTS)
    one.page.key("a", CONTROL)
    one.page.until("wb.hand.chosenItems().length === 2")
    draw(one, at(one, (181, 301), (220, 320), (281, 341)))
    # the box about both is 2.3 points wider at each side than the frame, which is 100 by 70 of them
    times = [(104.7 + 100) / 104.7, (74.7 + 40) / 74.7] * 2
    wanted = [extent * by for extent, by in zip(before, times)]
    tally.check("a corner makes what is selected larger", are_settled(one, other, 2) and other.page.wait(
        f"{EXTENTS}.every((extent, i) => Math.abs(extent - {json.dumps(wanted)}[i]) < 20)"), f"{before} {other.page.value(EXTENTS)} {wanted}")
    tally.check("it stays selected", one.page.wait("wb.hand.chosenItems().length === 2"))
    one.page.key("z", CONTROL)
    tally.check("one undo makes it as it was", other.page.wait(f"{ITEMS} === 2 && JSON.stringify({EXTENTS}) === JSON.stringify({json.dumps(before)})"))
    one.page.key("Escape")


def test_letters(tally: Tally, one: Sheet, other: Sheet) -> None:
    clean(one, other)
    one.keys("t")
    (x, y), = at(one, (80, 240))
    one.page.touch("touchStart", (x, y)) if one.hand == "finger" else one.page.press(x, y)
    lift(one, (x, y))
    one.page.until("document.activeElement === wb.typing.box")
    one.page.call("Input.insertText", text="Gr\u00f6\u00dfe \u2248 \u6f22 \U0001F600")
    one.page.key("Enter")
    tally.check("letters of all languages", other.page.wait("wb.ink.items[0]?.letters === 'Gr\u00f6\u00dfe \u2248 \u6f22 \U0001F600'"))
    tally.check("who listens has them in the page's text", other.page.wait("document.getElementById('text').textContent.includes('Gr\u00f6\u00dfe \u2248 \u6f22')"), other.text_of("text"))
    is_settled(one, 1)
    one.page.value("wb.typing.edit(wb.ink.items[0]); 0")
    one.page.value("wb.typing.box.select()")
    one.page.call("Input.insertText", text="anew")
    one.page.key("Enter")
    tally.check("they are edited", other.page.wait("wb.ink.items[0]?.letters === 'anew'") and is_settled(other, 1))
    one.keys("n")
    draw(one, at(one, (80, 290), (200, 330), (300, 390)))
    one.page.until("document.activeElement === wb.typing.box")
    one.page.call("Input.insertText", text="For Monday: what happens at night? " * 3)
    one.page.key("Enter", CONTROL)
    tally.check("a note of several drawops is one item", other.page.wait(f"{ITEMS} === 2 && wb.ink.items[1].kind === 'n' && wb.ink.items[1].letters.length > 100"))
    is_settled(one, 2)
    tally.check("both show one picture", are_equal(one, other))


def test_hands(tally: Tally, one: Sheet, other: Sheet) -> None:
    """All of it by mouse and by a finger, by day and by night, in windows of two widths."""
    for width, height, scheme, hand in WINDOWS:
        one.be(width, height, scheme, hand)
        other.wish(scheme)
        for test in (test_pen, test_unsent, test_eraser, test_shapes, test_moves, test_resizing, test_letters):
            with tally.told(f"{width} points, {scheme}, {hand}"):
                test(tally, one, other)
    one.be(*USUAL)
    other.wish(USUAL[2])


def test_by_keys(tally: Tally, one: Sheet, other: Sheet) -> None:
    """Each tool by keys alone."""
    clean(one, other)
    for key, kind in (("p", "s"), ("m", "h"), ("l", "l"), ("a", "l"), ("r", "r"), ("o", "o")):
        one.page.value("wb.hand.drop(); wb.view.sheet.focus(); Object.assign(wb.hand.cursor, { x: 12, y: 12, on: true }); 0")
        one.keys(key, "Enter")
        one.walk(6, 3)
        one.keys("Enter")
        tally.check(f"{key} by keys", are_settled(one, other, 1) and other.page.value("wb.ink.items[0].kind") == kind, str(other.page.value("wb.ink.items.map(({ kind }) => kind).join()")))
        one.page.key("z", CONTROL)
        tally.check(f"undo of {key} by keys", are_settled(one, other, 0))
    one.keys("t", "Enter")
    one.page.until("document.activeElement === wb.typing.box")
    one.page.write("by keys")
    one.keys("Enter")
    tally.check("letters by keys", are_settled(one, other, 1) and other.page.value("wb.ink.items[0].letters") == "by keys")
    one.page.key("a", CONTROL)
    one.keys("Delete")
    tally.check("all are deleted by keys", is_settled(other, 0))
    one.keys("4")
    tally.check("a colour by a key", one.page.value("wb.style.look.colour") == 4)
    one.keys("1")


def test_stylus(tally: Tally, one: Sheet, other: Sheet) -> None:
    """A pen that tells how hard it is pressed draws a stroke with pressure; fingers then move the view."""
    clean(one, other)
    one.keys("p")
    for n, (kind, force) in enumerate((("mousePressed", 0.2), ("mouseMoved", 0.6), ("mouseMoved", 0.9), ("mouseReleased", 0.9))):
        (x, y), = at(one, (80 + 30 * min(n, 2), 240))
        one.page.call("Input.dispatchMouseEvent", type=kind, x=x, y=y, button="left", buttons=1, clickCount=1, pointerType="pen", force=force)
    tally.check("a stroke with pressure", is_settled(other, 1) and other.page.value("wb.ink.items[0].kind") == "v")
    pressed = other.page.value("wb.ink.items[0].points.map(({ pressure }) => Math.round(pressure * 10))")
    tally.check("as hard as it was pressed", pressed[0] == 2 and pressed[-1] == 9, str(pressed))
    one.page.value("wb.pointing.hasStylus = false; 0")


def test_sight(tally: Tally, one: Sheet, other: Sheet) -> None:
    """Everything in sight, and the way back."""
    clean(one, other)
    one.keys("p")
    draw(one, at(one, (80, 240), (160, 300)))
    is_settled(one, 1)
    one.page.value("wb.view.goTo(900, 900); 0")
    tally.check("the way back is offered", one.page.wait("!document.getElementById('away').hidden"))
    one.press("#away")
    tally.check("and shows the drawings", one.page.wait("document.getElementById('away').hidden && wb.view.left < 100"))
    one.page.value("wb.view.goTo(500, 500); wb.view.setSize(90); wb.view.sheet.focus(); 0")
    one.keys("0")
    tally.check("a key shows everything", one.page.wait("wb.view.wide === 10 && wb.view.left < 100"))
    for key in ("+", "+", "-", "-"):
        one.keys(key)
    tally.check("larger and smaller by keys", one.page.wait("Math.abs(wb.view.wide - 10) < 0.01"))
    one.keys("c")
    tally.check("a key shows the characters", one.page.wait("document.body.dataset.look === 'cells'"))
    tally.check("where ink stands packed, which is told", one.page.wait("!document.getElementById('away').hidden && document.getElementById('away').textContent.includes('4000')"))
    one.keys("c")
    tally.check("and ink again", one.page.wait("document.body.dataset.look === 'ink'"))


def test_clear(tally: Tally, one: Sheet, other: Sheet) -> None:
    clean(one, other)
    one.keys("l")
    for n in range(3):
        draw(one, at(one, (80 + 40 * n, 240), (100 + 40 * n, 300)))
    are_settled(one, other, 3)
    one.page.value("window.confirm = (text) => { window.asked = text; return true; }; 0")
    one.press("#file")
    one.press("#clear")
    tally.check("a page is cleared", is_settled(other, 0))
    tally.check("after it was asked, with what it costs", "3 drawings" in str(one.page.value("window.asked")), str(one.page.value("window.asked")))
    one.page.value("wb.view.sheet.focus(); 0")
    one.page.key("z", CONTROL)
    tally.check("one undo brings all back", is_settled(other, 3))


def test_writing(tally: Tally, one: Sheet, other: Sheet) -> None:
    """A word of a hand that does not rest takes few drawops, however slow the machine is."""
    clean(one, other)
    one.keys("p")
    gather(one, *(at(one, *smooth(stroke, 4)) for stroke in written("hello", 70, 220, 60)))
    send(one)
    drawn = len(one.page.value("wb.steps.done.at(-1).names()"))
    tally.check("takes four drawops at most", 0 < drawn <= 4, str(drawn))
    tally.check("which both windows get", all_came(has(sheet, drawn) for sheet in (one, other)))
    tally.check("a word of six strokes", other.page.value("wb.ink.items.reduce((sum, { points }) => sum + 1 + points.filter(({ up }) => up).length, 0)") == 6)


def test_inks(tally: Tally, one: Sheet, other: Sheet) -> None:
    for test in (test_hands, test_by_keys, test_stylus, test_writing, test_sight, test_clear):
        test(tally, one, other)
    for sheet in (one, other):
        sheet.look("cells")
        sheet.page.value("wb.view.fit(); wb.view.home(); 0")
