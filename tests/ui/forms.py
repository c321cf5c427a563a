"""The forms that every board has, by real events: diamonds, lines that are bent, heads at both ends, full shapes, a stroke that is held straight, and an
eraser that takes only what it touches."""
from __future__ import annotations

import json
import time
from pathlib import Path

from ..live.browser import CONTROL, Browser, Missed
from .classroom import LOSSY, class_of, stroke
from .inks import at, draw, lift
from .sheets import Sheet, Tally
from .writing import Point

# of each item its kind, its flag, and how many points it has
FORMS = "JSON.stringify(wb.ink.items.map(({ kind, flag, points }) => kind === 's' ? [kind, 1 + points.filter(({ up }) => up).length] : [kind, flag, points.length]))"

# of three lines of an item where each begins and ends on a picture of it, in units
EXTENTS = """((item) => {
    const canvas = document.createElement('canvas'), [width, height] = [1600, 690], brush = wb.files.sheetOf(canvas, width, height);
    brush.translate(20 - item.points[0].x, -item.points[0].y);
    wb.ink.paints.paint(brush, item, { wide: 64 });
    const { data } = brush.getImageData(0, 0, width, height), high = height / 3, at = [0, 1, 2].map((line) => {
        const dark = Array.from({ length: width }, (_, x) => x).filter((x) => Array.from({ length: high }, (_, y) => data[4 * ((line * high + y) * width + x)] < 128).some(Boolean));
        return [dark[0], dark[dark.length - 1]];
    });
    return [at.map(([first]) => first), at.map(([, last]) => last)];
})"""

# a sentence from right to left, which ends with two letters that are broad, and full stops
ARABIC = "\u0633\u0644\u0627\u0645..."


def both(one: Sheet, other: Sheet, forms: list[list[object]]) -> bool | Missed:
    wanted = json.dumps(json.dumps(forms, separators=(",", ":")))
    return one.page.wait(f"{FORMS} === {wanted} && !wb.session.waiting.size") and other.page.wait(f"{FORMS} === {wanted}")


def drag(anna: Sheet, *way: Point) -> None:
    """Moves a handle of what is selected. What was changed is another item, whose handles are there once that is selected."""
    anna.page.until("wb.hand.chosenItems().length === 1 && !wb.session.waiting.size && !wb.painter.isPlanned")
    draw(anna, at(anna, *way))


def test_shapes(tally: Tally, anna: Sheet, tom: Sheet) -> None:
    anna.keys("i")
    anna.press("#style [aria-label=full]")
    draw(anna, at(anna, (150, 200), (200, 230), (250, 280)))
    tally.check("a full diamond", both(anna, tom, [["d", 2, 2]]), anna.page.value(FORMS))
    anna.press("#style [aria-label=full]")
    anna.keys("a")
    anna.press("#style [aria-label='heads at both ends']")
    draw(anna, at(anna, (300, 250), (400, 250), (500, 250)))
    tally.check("an arrow with two heads", both(anna, tom, [["d", 2, 2], ["l", 3, 2]]), anna.page.value(FORMS))
    anna.press("#style [aria-label='heads at both ends']")
    anna.keys("v")
    anna.page.click(*at(anna, (350, 250))[0])
    drag(anna, (400, 250), (400, 280), (400, 310))
    tally.check("it is bent by its middle", both(anna, tom, [["d", 2, 2], ["l", 3, 3]]), anna.page.value(FORMS))
    bend = "wb.ink.items[1].points.map(({ x, y }) => [Math.round(x * wb.view.wide / 64 - wb.view.corner()[0]), Math.round(y * wb.view.wide / 64 - wb.view.corner()[1])])"
    tally.check("which is where the hand put it", tom.page.value(f"JSON.stringify({bend})") == "[[300,250],[500,250],[400,310]]", str(tom.page.value(bend)))
    drag(anna, (400, 310), (400, 280), (400, 251))
    tally.check("and straight again", both(anna, tom, [["d", 2, 2], ["l", 3, 2]]), anna.page.value(FORMS))
    drag(anna, (500, 250), (500, 220), (480, 180))
    tally.check("an end is moved alone", tom.page.wait(f"JSON.stringify({bend}) === '[[300,250],[480,180]]'"), str(tom.page.value(bend)))
    anna.page.key("a", CONTROL)
    anna.press("#chosen-delete")
    tally.check("all are deleted", both(anna, tom, []))


def test_held(tally: Tally, anna: Sheet, tom: Sheet) -> None:
    """A pen that rests at the end of a stroke makes it straight, until it is lifted."""
    anna.keys("p")
    way: list[Point] = [(150 + 20 * n, 300 + (6 if n % 2 else -6)) for n in range(8)]
    draw(anna, at(anna, *way), lifts=False)
    tally.check("the pen rests", anna.page.wait("wb.pen.strokes?.isStraight"))
    (x, y), = at(anna, (400, 340))
    anna.page.mouse("mouseMoved", x, y)
    lift(anna, (x, y))
    anna.page.value("wb.pen.flush(); 0")
    ends = "wb.ink.items[0]?.points.map(({ x, y }) => [Math.round(x * wb.view.wide / 64 - wb.view.corner()[0]), Math.round(y * wb.view.wide / 64 - wb.view.corner()[1])])"
    tally.check("a straight stroke to where the pen was lifted", tom.page.wait(f"{ends} && JSON.stringify([{ends}[0], {ends}.at(-1)]) === '[[150,294],[400,340]]'"), str(tom.page.value(ends)))
    off = f"Math.max(...{ends}.map(([x, y]) => Math.abs(294 + (x - 150) * 46 / 250 - y)))"
    tally.check("nowhere off it", float(tom.page.value(off)) <= 1.5, str(tom.page.value(off)))
    anna.page.key("z", CONTROL)
    tally.check("one undo takes it back", both(anna, tom, []))


def test_parts(tally: Tally, anna: Sheet, tom: Sheet) -> None:
    """The eraser takes what it touches alone, if it is to."""
    stroke(anna, *[(150 + 10 * n, 300) for n in range(31)])
    tally.check("a line of a pen", both(anna, tom, [["s", 1]]))
    anna.keys("e")
    anna.press("#style [aria-label='only what it touches']")
    draw(anna, at(anna, (300, 250), (300, 300), (300, 350)))
    tally.check("is cut in two", both(anna, tom, [["s", 2]]), anna.page.value(FORMS))
    gap = "wb.ink.items[0].points.flatMap(({ x, up }, i, all) => up ? [all[i - 1].x, x] : []).map((x) => Math.round(x * wb.view.wide / 64 - wb.view.corner()[0]))"
    left, right = tom.page.value(gap)
    tally.check("by as much as the eraser is wide", 285 <= left <= 294 and 306 <= right <= 315, f"{left} {right}")
    anna.press("#style [aria-label='only what it touches']")
    anna.page.key("z", CONTROL)
    tally.check("one undo makes it whole", both(anna, tom, [["s", 1]]))
    time.sleep(0.5)
    draw(anna, at(anna, (300, 250), (300, 300), (300, 350)))
    tally.check("else it takes all", both(anna, tom, []))


def test_letters(tally: Tally, anna: Sheet, tom: Sheet) -> None:
    """A link opens by a double click; what is written from right to left stands so, its full stop at the left."""
    for text, y in (("https://example.org/a", 200), (ARABIC, 300)):
        anna.keys("t")
        anna.page.click(*at(anna, (200, y))[0])
        anna.page.until("document.activeElement === wb.typing.box")
        anna.page.call("Input.insertText", text=text)
        anna.page.key("Enter")
    tally.check("a link and letters", both(anna, tom, [["k", 0, 1], ["t", 0, 1]]), anna.page.value(FORMS))
    tom.page.value("window.open = (...words) => { window.opened = words.join(' '); }; 0")
    tom.keys("v")
    (across, down), = at(tom, (230, 200))
    for count in (1, 2):
        for kind in ("mousePressed", "mouseReleased"):
            tom.page.call("Input.dispatchMouseEvent", type=kind, x=across, y=down, button="left", buttons=1, clickCount=count)
    tally.check("a double click opens the link, which learns nothing of the board", tom.page.wait("window.opened === 'https://example.org/a _blank noopener,noreferrer'"))
    dark = tom.page.value("""(() => {
        const canvas = document.createElement('canvas'), item = wb.ink.items.find(({ kind }) => kind === 't'), width = 900;
        const brush = wb.files.sheetOf(canvas, width, 200);
        brush.translate(20 - item.points[0].x, 20 - item.points[0].y);
        wb.ink.paints.paint(brush, item, { wide: 64 });
        const { data } = brush.getImageData(0, 0, width, 200), rows = Array(width).fill(0);
        for (let i = 0; i < data.length; i += 4) if (data[i] < 128) rows[(i / 4) % width] += 1;
        const [first, last] = [rows.findIndex(Boolean), rows.findLastIndex(Boolean)];
        return [first, last, rows.slice(first, first + 12).reduce((a, b) => a + b), rows.slice(last - 11, last + 1).reduce((a, b) => a + b)];
    })()""")
    tally.check("the full stop of a line from right to left is at its left end", dark[2] * 2 < dark[3], str(dark))
    tally.check("on paper too", tom.page.value("/text-anchor=.start. direction=.rtl./.test(wb.files.svg(wb.session.board))") is True)
    anna.keys("t")
    anna.page.click(*at(anna, (600, 420))[0])
    anna.page.until("document.activeElement === wb.typing.box")
    letters = f"{ARABIC}\n{ARABIC} {ARABIC}\nabc"
    anna.page.call("Input.insertText", text=letters)
    anna.page.key("Enter")
    tom.page.until(f"wb.ink.items.length === 3 && wb.ink.items[2].letters === {json.dumps(letters)}")
    left, right = tom.page.value(f"{EXTENTS}(wb.ink.items[2])")
    tally.check("lines from right to left end at the right, and others at the left", abs(right[0] - right[1]) < 6 and abs(left[1] - left[2]) < 30 and left[0] > left[1] + 100, f"{left} {right}")


def test_edge(tally: Tally, anna: Sheet, tom: Sheet) -> None:
    """The page ends at its edge, which is seen, and what is drawn beyond stays on it."""
    for scheme in ("dark", "light"):
        anna.wish(scheme)
        anna.page.value("wb.view.fit(); wb.view.home(); 0")
        anna.page.until("!wb.painter.isPlanned")
        found, wanted = anna.page.value("""(() => {
            const { view, painter: { brush, colours } } = wb, spelled = (x) => `#${[...brush.getImageData(x, 400, 1, 1).data.slice(0, 3)].map((part) => part.toString(16).padStart(2, '0')).join('')}`;
            return [[3, view.pixelX(0) - 1, view.pixelX(0) + 7].map(spelled), [colours.desk, colours.edge, colours.paper]];
        })()""")
        tally.check(f"beyond its edge there is no paper ({scheme})", found == wanted and len(set(found)) == 3, f"{found} {wanted}")
    before = int(tom.page.value("wb.ink.items.length"))
    stroke(anna, (4, 560), (40, 560), (90, 560))
    tally.check("a stroke from beyond begins at the edge", tom.page.wait(f"wb.ink.items.length === {before + 1} && wb.ink.items.at(-1).points[0].x < 10"), str(tom.page.value("wb.ink.items.at(-1).points[0]")))


def test_forms(tally: Tally, browser: Browser, room: Path, ports: int) -> None:
    with class_of(browser, room, ports, [("Anna", 0.0), ("Tom", LOSSY)]) as (anna, tom):
        for test in (test_shapes, test_held, test_parts, test_letters, test_edge):
            test(tally, anna, tom)
