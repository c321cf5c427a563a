"""A lesson, drawn by real events in two browsers that lose a third of all datagrams: it is the same in both soon after the last stroke. Where
WB_PICTURES names a folder, pictures of the page are put there; those of docs/ are among them."""
from __future__ import annotations

import json
import os
import time
from collections.abc import Iterator
from contextlib import contextmanager
from pathlib import Path
from typing import NamedTuple

from ..live.browser import CONTROL, PATIENCE, Browser, BrowserFault

from .inks import DRAWN, PICTURE, at, draw
from .people import introduce
from .sheets import BY_CELLS, Member, Sheet, Tally
from .writing import Point, smooth, written

# seconds from the last stroke to equal pictures
SOON = 2.0

# points of the window from one event of the mouse to the next
STEP = 6.0
WIDTH, HEIGHT = 1600, 1000

# a leaf, from its tip round to it, and the veins of it: where each begins on the middle one
LEAF: list[Point] = [(404, 470), (412, 430), (470, 404), (550, 398), (640, 410), (720, 440), (768, 470), (776, 484), (768, 502), (700, 528), (600, 556), (520, 562),
                     (450, 550), (416, 520), (404, 470)]
VEINS = range(450, 720, 52)

# the sun's middle, and its rays by where they begin and end
SUN = (205, 355)
RAYS = [(0, -68, 3, -92), (38, -58, 50, -80), (62, -30, 84, -40), (68, 14, 92, 19), (48, 52, 64, 70), (8, 70, 10, 94), (-36, 60, -46, 80), (-62, 32, -84, 42),
        (-68, -10, -92, -16), (-48, -50, -64, -68)]


# datagrams that a window says were lost on purpose
LOST = "Number(/([0-9]+) lost on purpose/.exec(document.getElementById('counts').textContent)?.[1] ?? 0)"


class Teacher:
    """A member that draws with the tools of the page."""

    def __init__(self, sheet: Sheet) -> None:
        self.sheet = sheet

    def take(self, key: str, colour: str = "", width: str = "") -> None:
        """A tool by its key, and a colour and a width by their buttons."""
        self.sheet.keys(key)
        for name in filter(None, (colour, width)):
            self.sheet.press(f"#style [aria-label={json.dumps(name)}]")
        self.sheet.page.value("wb.view.sheet.focus(); 0")

    def draw(self, *points: Point) -> None:
        draw(self.sheet, at(self.sheet, *points))

    def write(self, text: str, x: float, y: float, high: float) -> None:
        for stroke in written(text, x, y, high, STEP):
            self.draw(*stroke)

    def letters(self, text: str, *points: Point, held: int = 0) -> None:
        """Types at a point, or in what is drawn between points."""
        if len(points) == 1:
            self.sheet.page.click(*at(self.sheet, *points)[0])
        else:
            self.draw(*points)
        self.sheet.page.until("document.activeElement === wb.typing.box")
        self.sheet.page.call("Input.insertText", text=text)
        self.sheet.page.key("Enter", held)

    def label(self, text: str, point: Point) -> None:
        """Labels a shape, by a double click."""
        (x, y), = at(self.sheet, point)
        for count in (1, 2):
            for kind in ("mousePressed", "mouseReleased"):
                self.sheet.page.call("Input.dispatchMouseEvent", type=kind, x=x, y=y, button="left", buttons=1, clickCount=count)
        self.sheet.page.until("document.activeElement === wb.typing.box")
        self.sheet.page.call("Input.insertText", text=text)
        self.sheet.page.key("Enter")


def draw_lesson(anna: Teacher, tom: Teacher) -> None:
    anna.take("p", "blue", "normal")
    anna.write("Photosynthesis", 118, 148, 66)
    anna.take("m", "yellow", "normal")
    anna.draw(*smooth([(112, 222), (240, 226), (380, 219), (530, 222)], 8))
    anna.take("o", "yellow", "normal")
    anna.sheet.press("#style [aria-label=filled]")
    anna.draw((150, 300), (205, 355), (260, 410))
    anna.sheet.press("#style [aria-label=filled]")
    anna.take("p", "yellow", "thick")
    for x0, y0, x1, y1 in RAYS:
        anna.draw((SUN[0] + x0, SUN[1] + y0), (SUN[0] + x1, SUN[1] + y1))
    anna.take("p", "green", "thick")
    anna.draw(*smooth(LEAF, 6))
    anna.take("p", "green", "fine")
    anna.draw(*smooth([(390, 484), (500, 480), (620, 484), (764, 488)], 8))
    for x in VEINS:
        anna.draw(*smooth([(x, 482), (x + 16, 456), (x + 32, 440)], 6))
        anna.draw(*smooth([(x, 482), (x + 16, 508), (x + 30, 520)], 6))
    for text, x, y, high, colour, arrow in (("light", 322, 368, 44, "orange", [(285, 400), (408, 452)]), ("CO_2", 248, 640, 42, "grey", [(330, 640), (450, 556)]),
                                            ("H_2O", 618, 700, 42, "blue", [(640, 690), (610, 576)]), ("O_2", 892, 320, 42, "red", [(770, 440), (880, 366)])):
        anna.take("p", colour, "normal")
        anna.write(text, x, y, high)
        anna.take("a", colour, "normal")
        anna.draw(arrow[0], ((arrow[0][0] + arrow[1][0]) / 2, (arrow[0][1] + arrow[1][1]) / 2), arrow[1])
    tom.take("a", "violet", "normal")
    tom.draw((1000, 650), (900, 585), (800, 520))
    tom.take("p", "violet", "normal")
    tom.write("why green?", 1016, 640, 48)
    write_letters(anna)


def write_letters(anna: Teacher) -> None:
    anna.take("r", "blue", "normal")
    anna.draw((1010, 150), (1200, 240), (1480, 330))
    anna.take("t", "black", "middle")
    anna.letters("Chlorophyll takes red and blue", (1032, 182))
    anna.take("t", "black", "large")
    anna.sheet.press("#style [aria-label=formula]")
    anna.letters("E = h\u00b7\u03bd = h\u00b7c/\u03bb", (1032, 234))
    anna.take("t", "blue", "middle")
    anna.sheet.press("#style [aria-label=plain]")
    anna.letters("\u03bb \u2248 430 nm und 660 nm", (1032, 288))
    anna.take("n", "yellow")
    anna.letters("For Monday: what happens at night? Draw it on page 2. Sch\u00f6nes Wochenende!", (1180, 400), (1300, 480), (1440, 560), held=CONTROL)
    for n, text in enumerate(("light", "sugar", "growth")):
        x = 780 + 280 * n
        anna.take("r", "violet", "normal")
        anna.draw((x, 850), (x + 80, 880), (x + 160, 920))
        anna.take("v")
        anna.sheet.page.until(f"wb.ink.items.filter(({{ kind }}) => kind === 'r').length === {n + 2} && !wb.session.waiting.size")
        anna.label(text, (x, 885))
        if n:
            anna.take("a", "violet", "normal")
            anna.draw((x - 114, 885), (x - 60, 885), (x - 8, 885))
    anna.take("p", "black", "normal")
    anna.write("6CO_2 + 6H_2O > C_6H_1_2O_6 + 6O_2", 116, 806, 44)


def pictures(one: Sheet, other: Sheet, folder: Path) -> None:
    """Pictures of the finished page, for docs and for whoever looks at them."""
    other.page.mouse("mouseMoved", 910, 615, pressed=False)
    one.page.until("wb.others.heard.some(({ pointed }) => pointed.cell)")
    one.page.picture(folder / "live-board.png")
    for name, width, height, scheme, panel in (("night", WIDTH, HEIGHT, "dark", "chat"), ("network", WIDTH, HEIGHT, "light", "net"), ("tablet", 820, 1180, "light", ""),
                                               ("phone", 390, 844, "light", ""), ("phone-night", 390, 844, "dark", "people")):
        one.be(width, height, scheme, "finger" if width < 1000 else "mouse")
        one.page.value(f"wb.view.sheet.focus(); wb.sight.fitAll(); {panel!r} ? wb.side.show({panel!r}) : wb.side.close(); 0")
        time.sleep(0.6)
        one.page.until("!wb.painter.isPlanned")
        one.page.picture(folder / f"page-{name}.png")
    one.be(WIDTH, HEIGHT, "light", "mouse")
    one.page.value("wb.side.close(); wb.sight.setLook(false); wb.view.fit(); wb.view.home(); 0")
    time.sleep(0.6)
    one.page.picture(folder / "page-characters.png")
    one.look("ink")


class Lesson(NamedTuple):
    """Seconds that a lesson took to draw, and from its last stroke to one picture in both windows, or None; its drawops; and how many datagrams
    one of the windows has lost."""

    drawn: float
    equal: float | None
    drawops: int
    lost: int

    def __str__(self) -> str:
        told = "both show another picture" if self.equal is None else f"both show one picture {self.equal:.1f} s after the last stroke"
        return f"a lesson of {self.drawn:.0f} s by two hands that lose a third: {self.drawops} drawops, {self.lost} datagrams lost on purpose; {told}, with a load of {os.getloadavg()[0]:.1f}"


@contextmanager
def two_windows(browser: Browser, room: Path, ports: int) -> Iterator[tuple[Sheet, Sheet]]:
    """Two members that lose a third of all datagrams, and the window of each, on one page."""
    members: list[Member] = []
    try:
        members += [Member(room, ports, words=["--ports", str(ports), "--teach", "--lose", "0.33"]) for _ in range(2)]
        one, other = (Sheet(browser.open(member.address, WIDTH, HEIGHT, first=BY_CELLS)) for member in members)
        for sheet, name, colour in ((one, "Anna Berg", "blue"), (other, "Tom", "violet")):
            if not sheet.page.wait("wb.session.hello.ready && wb.session.board.page"):
                raise BrowserFault("a member may not draw")
            sheet.look("ink")
            sheet.page.value("wb.view.fit(); wb.view.home(); wb.view.goTo(0, 0); 0")
            introduce(sheet, name, colour)
            sheet.fold()
        other.page.value(f"wb.session.goToPage({json.dumps(one.page.value('wb.session.board.page'))}); 0")
        yield one, other
    finally:
        for member in members:
            member.end()


def give_lesson(one: Sheet, other: Sheet) -> Lesson:
    """Draws it, and waits until both windows show one picture."""
    began = time.monotonic()
    draw_lesson(Teacher(one), Teacher(other))
    one.page.value("wb.pen.flush(); 0")
    ended = time.monotonic()
    equal = None
    while equal is None and time.monotonic() - ended < 3 * PATIENCE:
        one.page.wait("!wb.session.waiting.size && !wb.ink.waiting.length", 0.2)
        if one.page.value(PICTURE) == other.page.value(PICTURE):
            equal = time.monotonic() - ended
    other.page.until(f"{LOST} > 0")
    return Lesson(ended - began, equal, int(one.page.value(DRAWN)), int(other.page.value(LOST)))


def test_lesson(tally: Tally, browser: Browser, room: Path, ports: int) -> None:
    with two_windows(browser, room, ports) as (one, other):
        lesson = give_lesson(one, other)
        print(lesson)
        tally.check("both show one picture, point by point", lesson.equal is not None)
        if os.environ.get("WB_MEASURE"):
            tally.check(f"within {SOON} s of the last stroke", lesson.equal is not None and lesson.equal < SOON, str(lesson.equal))
        tally.check("something was lost", lesson.lost > 0)
        tally.check("all letters are there", other.page.value("['sugar', 'E = h\u00b7\u03bd = h\u00b7c/\u03bb'].every((letters) => wb.ink.items.some((item) => item.letters === letters))"))
        if os.environ.get("WB_PICTURES"):
            for sheet, text in ((other, "Is the leaf warm?"), (one, "Good question! Put your hand on one at noon.")):
                sheet.page.value(f"wb.notes.say({json.dumps(text)}); 0")
                one.page.until(f"wb.notes.told.said.some((said) => said.text === {json.dumps(text)})")
            pictures(one, other, Path(os.environ["WB_PICTURES"]))
