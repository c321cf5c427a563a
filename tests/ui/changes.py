"""What is drawn is changed, by real events in two windows of which one loses a third of all datagrams: a word of a line, its colour and width, a nudge, a
copy, a turn, and what a reload leaves of undo."""
from __future__ import annotations

import json
import math
import time
from pathlib import Path

from ..live.browser import CONTROL, SHIFT, Browser, Missed, all_came
from .classroom import LOSSY, class_of
from .inks import at, draw, gather, send
from .sheets import Sheet, Tally
from .writing import Point, smooth, written

# of each item its colour, its width, and how many strokes it has
ITEMS = "JSON.stringify(wb.ink.items.map(({ colour, width, points }) => [colour, width, 1 + points.filter(({ up }) => up).length]))"

# the middle of what is selected, and how wide and high it is, in points of the sheet
CHOSEN = """(() => {
    const scale = wb.view.wide / 64, [left, top] = wb.view.corner(), all = wb.hand.chosenItems().flatMap(({ points }) => points);
    const [xs, ys] = [all.map(({ x }) => x * scale - left), all.map(({ y }) => y * scale - top)], [x0, x1, y0, y1] = [Math.min(...xs), Math.max(...xs), Math.min(...ys), Math.max(...ys)];
    return [(x0 + x1) / 2, (y0 + y1) / 2, x1 - x0, y1 - y0];
})()"""

# seconds after which something is a step of its own
SOON = 1.5

# a rectangle about the second word of the line
SECOND: list[Point] = [(340, 190), (450, 260), (560, 330)]


def shows(sheet: Sheet, items: list[list[int]]) -> bool | Missed:
    """Whether a window comes to show items of these colours, widths and numbers of strokes."""
    return sheet.page.wait(f"{ITEMS} === {json.dumps(json.dumps(items, separators=(',', ':')))} && !wb.session.waiting.size && !wb.ink.waiting.length")


def both(one: Sheet, other: Sheet, items: list[list[int]]) -> bool:
    return bool(shows(one, items)) and bool(shows(other, items))


def test_word(tally: Tally, anna: Sheet, tom: Sheet) -> None:
    """Two words that were written without a pause are one item. One of them is made red in two clicks, and moved in two."""
    anna.keys("p")
    words = [stroke for text, x in (("green", 120), ("light", 360)) for stroke in written(text, x, 220, 60)]
    gather(anna, *(at(anna, *smooth(stroke, 4)) for stroke in words))
    send(anna)
    tally.check("a line of two words is one item", both(anna, tom, [[0, 2, 17]]), anna.page.value(ITEMS))
    anna.keys("v")
    draw(anna, at(anna, *SECOND))
    tally.check("a rectangle selects the strokes of one word", anna.page.wait("wb.hand.chosen.pieces().length === 1 && wb.hand.chosen.pieces()[0].parts.size === 9"))
    anna.press("#style [aria-label=red]")
    tally.check("a second click makes it red, and nothing else", both(anna, tom, [[0, 2, 8], [1, 2, 9]]), anna.page.value(ITEMS))
    tally.check("it stays selected", anna.page.wait("wb.hand.chosenItems().length === 1 && wb.hand.chosenItems()[0].colour === 1"))
    anna.press("#style [aria-label=thick]")
    tally.check("and is made thick", both(anna, tom, [[0, 2, 8], [1, 4, 9]]), anna.page.value(ITEMS))
    for _ in range(2):
        anna.page.key("z", CONTROL)
    tally.check("two undos bring back the line", both(anna, tom, [[0, 2, 17]]), anna.page.value(ITEMS))
    anna.page.key("Escape")
    draw(anna, at(anna, *SECOND))
    anna.page.until("wb.hand.chosen.pieces().length === 1")
    before = anna.page.value(CHOSEN)
    # the stem of the h
    draw(anna, at(anna, (430, 250), (440, 310), (450, 370)))
    tally.check("the word is moved, and the other stays", both(anna, tom, [[0, 2, 8], [0, 2, 9]]), anna.page.value(ITEMS))
    after = anna.page.value(CHOSEN)
    tally.check("by as much as the hand", math.hypot(after[0] - before[0] - 20, after[1] - before[1] - 120) < 3, f"{before} {after}")
    tally.check("as large as it was", math.hypot(after[2] - before[2], after[3] - before[3]) < 3, f"{before} {after}")


def test_place(tally: Tally, anna: Sheet, tom: Sheet) -> None:
    """What is selected is nudged, copied, turned and deleted."""
    before = anna.page.value(CHOSEN)
    drawn = int(anna.page.value("wb.session.shown.size + wb.session.erased.size"))
    for _ in range(3):
        anna.page.key("ArrowRight", SHIFT)
    anna.page.key("ArrowDown")
    tally.check("arrows move it", anna.page.wait(f"Math.abs({CHOSEN}[0] - {before[0] + 30}) < 2 && Math.abs({CHOSEN}[1] - {before[1] + 1}) < 2 && !wb.session.waiting.size"), str(anna.page.value(CHOSEN)))
    anna.page.until("!wb.changing.timer")
    moved = int(anna.page.value("wb.session.shown.size + wb.session.erased.size")) - drawn
    tally.check("four keys are one move", moved <= 4, str(moved))
    anna.page.key("d", CONTROL)
    tally.check("a copy stands beside it", both(anna, tom, [[0, 2, 8], [0, 2, 9], [0, 2, 9]]), anna.page.value(ITEMS))
    x, y, wide, high = anna.page.value(CHOSEN)
    above = y - high / 2 - 30 - 1
    draw(anna, at(anna, (x, above), (x + (y - above) * 0.7, above + (y - above) * 0.3), (x + (y - above), y)))
    tally.check("the grip above turns it", anna.page.wait(f"Math.abs({CHOSEN}[3] - {wide}) < 4 && Math.abs({CHOSEN}[2] - {high}) < 4"), f"{wide} by {high}, {anna.page.value(CHOSEN)}")
    tally.check("about its middle", anna.page.wait(f"Math.hypot({CHOSEN}[0] - {x}, {CHOSEN}[1] - {y}) < 4"), f"{x}, {y}, {anna.page.value(CHOSEN)}")
    time.sleep(SOON)
    anna.press("#chosen-delete")
    tally.check("a bar over it deletes it", both(anna, tom, [[0, 2, 8], [0, 2, 9]]), anna.page.value(ITEMS))
    tally.check("and goes with it", anna.page.wait("document.getElementById('chosen').hidden"))
    anna.unfold("#hidden")
    tally.check("what was moved and turned was not erased: what was deleted has a row", anna.page.wait("document.querySelectorAll('#hidden li').length === 1"), anna.text_of("hidden"))
    anna.fold()


def test_order(tally: Tally, anna: Sheet, tom: Sheet) -> None:
    """The lower of two shapes comes to the front."""
    for colour, x in (("red", 200), ("blue", 240)):
        anna.keys("r")
        anna.press(f"#style [aria-label={colour}]")
        draw(anna, at(anna, (x, 430), (x + 40, 460), (x + 100, 500)))
    kinds = "wb.ink.items.filter(({ kind }) => kind === 'r').map(({ colour }) => colour).join()"
    tally.check("two rectangles", anna.page.wait(f"{kinds} === '1,6'") and tom.page.wait(f"{kinds} === '1,6'"))
    anna.keys("v")
    anna.page.click(*at(anna, (202, 465))[0])
    anna.press("#chosen-front")
    tally.check("the lower one is in front", anna.page.wait(f"{kinds} === '6,1'") and tom.page.wait(f"{kinds} === '6,1'"))
    anna.page.until("wb.hand.selection.size && !wb.session.waiting.size")
    anna.press("#chosen-back")
    tally.check("and at the back again", anna.page.wait(f"{kinds} === '1,6'") and tom.page.wait(f"{kinds} === '1,6'"))


def test_group(tally: Tally, anna: Sheet, tom: Sheet) -> None:
    """Two rectangles are one: a click takes both, also of who did not make it so, and what is moved stays one until it is ungrouped."""
    left = "wb.ink.items.filter(({ kind }) => kind === 'r').map(({ points: [{ x }] }) => Math.round(x * wb.view.wide / 64 - wb.view.corner()[0])).join()"
    anna.page.key("Escape")
    draw(anna, at(anna, (180, 415), (300, 480), (360, 520)))
    anna.page.until("wb.hand.chosenItems().length === 2")
    tally.check("two can be grouped, and are no group", anna.page.value("[document.getElementById('chosen-group').hidden, document.getElementById('chosen-ungroup').hidden].join()") == "false,true")
    anna.press("#chosen-group")
    joined = "wb.ink.items.filter((item) => wb.ink.kept.groupOf(item).length === 2).length"
    tally.check("they are a group in both windows", anna.page.wait(f"{joined} === 2 && !wb.session.waiting.size") and tom.page.wait(f"{joined} === 2"))
    tom.keys("v")
    tom.page.click(*at(tom, (202, 465))[0])
    tally.check("one click takes both", tom.page.wait("wb.hand.chosenItems().length === 2"))
    draw(tom, at(tom, (202, 465), (260, 480), (302, 465)))
    tally.check("both are moved", all_came(sheet.page.wait(f"{left} === '300,340' && {joined} === 2") for sheet in (anna, tom)), anna.page.value(left))
    tom.press("#style [aria-label=green]")
    tally.check("both get a colour, and stay a group", anna.page.wait(f"wb.ink.items.filter(({{ kind, colour }}) => kind === 'r' && colour === 4).length === 2 && {joined} === 2"))
    tom.page.until("!wb.session.waiting.size && wb.hand.chosenItems().length === 2")
    tom.page.key("g", CONTROL | SHIFT)
    tally.check("and no group any more", anna.page.wait(f"{joined} === 0 && {left} === '300,340'") and tom.page.wait(f"{joined} === 0 && !wb.session.waiting.size"))
    tom.page.key("Escape")
    tom.page.click(*at(tom, (302, 465))[0])
    tally.check("a click takes one", tom.page.wait("wb.hand.chosenItems().length === 1"))


def test_after(tally: Tally, anna: Sheet, tom: Sheet) -> None:
    """After a reload undo takes back an item of several drawops at once."""
    before = tom.page.value("wb.ink.items.length")
    anna.keys("p")
    draw(anna, at(anna, *[(500 + 2 * n, 480 + 30 * math.sin(n / 4)) for n in range(130)]))
    anna.page.value("wb.pen.flush(); 0")
    tally.check("a long stroke is one item", tom.page.wait(f"wb.ink.items.length === {before + 1} && wb.ink.items.at(-1).drawings.length > 1 && !wb.session.waiting.size"))
    anna.page.until(f"wb.ink.items.length === {before + 1} && !wb.session.waiting.size")
    anna.page.call("Page.reload")
    anna.page.until(f"typeof wb !== 'undefined' && wb.session.hello.ready && wb.session.board.page && wb.ink.items.length === {before + 1} && !wb.steps.done.length")
    anna.page.value("wb.view.sheet.focus(); 0")
    anna.page.key("z", CONTROL)
    tally.check("one undo takes it back", tom.page.wait(f"wb.ink.items.length === {before}") and anna.page.wait(f"wb.ink.items.length === {before}"))


def test_changes(tally: Tally, browser: Browser, room: Path, ports: int) -> None:
    with class_of(browser, room, ports, [("Anna", LOSSY), ("Tom", 0.0)]) as (anna, tom):
        for test in (test_word, test_place, test_order, test_group, test_after):
            test(tally, anna, tom)
