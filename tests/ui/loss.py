"""A loss and its repair, as an animated picture of two windows of one session:

    python3 -m tests.ui.loss docs/pictures/loss.png

It runs two members with a delay of 0.8 s, one of which loses a drawing, and keeps a picture of both windows at each step. It needs Chromium. With
WB_PROGRAM=FILE the members run that program.
"""
from __future__ import annotations

import argparse
import base64
import json
import tempfile
import time
from collections.abc import Iterator
from contextlib import contextmanager
from pathlib import Path
from typing import NamedTuple

from ..live.browser import Browser, BrowserFault, Page, find_chromium
from .animated import Frame, animated
from .inks import at, clean, gather, is_settled, send
from .lesson import Teacher
from .people import introduce
from .sheets import BY_CELLS, Member, Sheet
from .writing import Point, Stroke

PORTS = 26_032
WIDTH, HEIGHT = 620, 520
DELAY = 800

# milliseconds for which the first and the last frame are shown, and each other one at least
FIRST, LAST, LEAST = 1500, 4000, 500

# seconds after which a lost drawing must have come
LONGEST = 60.0

# what a window knows of drawing 2: drawings that are shown, how the board is, whether it was asked for, whether it was sent again
STATE = """(() => {
    const { session: { board, shown }, traffic: { entries } } = wb;
    const of = (kind) => entries.filter((entry) => entry.kind === kind && entry.name?.endsWith(` ${board.page} 2`));
    return JSON.stringify({ shown: board.drawops.length, told: document.getElementById('state')?.textContent ?? '',
        asked: of('request').length, repaired: of('draw').filter(({ answers }) => answers != null).length });
})()"""

# joins the pictures of both windows with a caption, and keeps the points
JOIN = """(async ([left, right, caption, clock]) => {
    const [one, other] = await Promise.all([left, right].map(async (data) => {
        const image = new Image();
        image.src = `data:image/png;base64,${data}`;
        await image.decode();
        return image;
    }));
    const [wide, high] = [460, Math.round(460 * one.height / one.width)], canvas = new OffscreenCanvas(2 * wide + 36, high + 84);
    const brush = canvas.getContext('2d');
    brush.fillStyle = '#e9edf2';
    brush.fillRect(0, 0, canvas.width, canvas.height);
    brush.imageSmoothingQuality = 'high';
    brush.fillStyle = '#1c1e21';
    brush.font = 'bold 16px system-ui, sans-serif';
    [["Anna's page", one], ["Tom's page", other]].forEach(([name, image], i) => {
        brush.fillText(name, 12 + i * (wide + 12), 24);
        brush.drawImage(image, 12 + i * (wide + 12), 34, wide, high);
    });
    brush.font = '18px system-ui, sans-serif';
    brush.fillText(caption, 12, high + 66);
    brush.textAlign = 'right';
    brush.fillText(clock, canvas.width - 12, high + 66);
    (window.joined ??= []).push(brush.getImageData(0, 0, canvas.width, canvas.height));
})"""

# the points of all joined pictures by the numbers of at most 256 colours
PALETTE = """(() => {
    const counts = new Map(), keyOf = (data, i) => (data[i] >> 2) << 12 | (data[i + 1] >> 2) << 6 | data[i + 2] >> 2;
    for (const { data } of joined) {
        for (let i = 0; i < data.length; i += 4) {
            const found = counts.get(keyOf(data, i));
            if (found) found[0] += 1;
            else counts.set(keyOf(data, i), [1, data[i], data[i + 1], data[i + 2]]);
        }
    }
    const colours = [...counts.values()].sort((a, b) => b[0] - a[0]).slice(0, 256).map(([, ...parts]) => parts);
    const far = (a, b) => (a[0] - b[1]) ** 2 + (a[1] - b[2]) ** 2 + (a[2] - b[3]) ** 2, numbers = new Map();
    for (const [key, told] of counts) numbers.set(key, colours.reduce((best, colour, n) => far(colour, told) < far(colours[best], told) ? n : best, 0));
    const coded = (bytes) => { let text = ''; for (const byte of bytes) text += String.fromCharCode(byte); return btoa(text); };
    const numbered = ({ data }) => Uint8Array.from({ length: data.length / 4 }, (_, i) => numbers.get(keyOf(data, 4 * i)));
    return { width: joined[0].width, height: joined[0].height, palette: coded(colours.flat()), frames: joined.map((image) => coded(numbered(image))) };
})()"""


class State(NamedTuple):
    """What is seen and known at one moment: drawings in each window, whether drawing 2 was asked for, heard to be asked for, and sent again."""

    one: int
    other: int
    told: str
    asked: bool
    heard: bool
    repaired: bool


class Step(NamedTuple):
    moment: float
    state: State
    pictures: tuple[str, str]


# what each step shows, for whoever looks
CAPTIONS = {
    "drawn": "Anna has drawn 1, the house. Both show it.",
    "lost": "Anna draws 2, the roof. It is lost on its way to Tom.",
    "next": "Anna draws 3, the sun.",
    "missing": "Drawing 3 came, so 2 is missing: Tom's member sets its request timer.",
    "asked": "The timer fires: Tom's member asks all others for drawing 2.",
    "heard": "Anna's member holds drawing 2, and sets its repair timer.",
    "repaired": "That timer fires: Anna's member sends drawing 2 again, to all.",
    "whole": "Drawing 2 has come: both show the same page.",
}


def caption(state: State) -> str:
    latest = {"drawn": True, "lost": state.one > 1, "next": state.one > 2, "missing": state.other > 1, "asked": state.asked, "heard": state.heard,
              "repaired": state.repaired, "whole": state.one == state.other == 3}
    return CAPTIONS[[name for name, is_so in latest.items() if is_so][-1]]


def state_of(one: Sheet, other: Sheet) -> State:
    here, there = (json.loads(sheet.page.value(STATE)) for sheet in (one, other))
    return State(here["shown"], there["shown"], there["told"], bool(there["asked"]), bool(here["asked"]), bool(here["repaired"]))


def picture(sheet: Sheet) -> str:
    sheet.page.wait("!wb.painter.isPlanned", 2.0)
    return str(sheet.page.call("Page.captureScreenshot", format="png")["data"])


class Camera:
    """Keeps a picture of both windows whenever something changed."""

    def __init__(self, one: Sheet, other: Sheet) -> None:
        self.one, self.other = one, other
        self.began = time.monotonic()
        self.steps: list[Step] = []

    def look(self) -> State:
        moment, state = time.monotonic() - self.began, state_of(self.one, self.other)
        if not self.steps or self.steps[-1].state != state:
            self.steps.append(Step(moment, state, (picture(self.one), picture(self.other))))
        return state

    def look_for(self, seconds: float) -> None:
        end = time.monotonic() + seconds
        while time.monotonic() < end:
            self.look()


@contextmanager
def two_windows(browser: Browser, room: Path) -> Iterator[tuple[Sheet, Sheet]]:
    """Two members that know how far away the other is, and the window of each, on one empty page."""
    members: list[Member] = []
    try:
        members += [Member(room, PORTS, words=["--ports", str(PORTS), "--teach", "--delay", str(DELAY)]) for _ in range(2)]
        one, other = (Sheet(browser.open(member.address, WIDTH, HEIGHT, first=BY_CELLS)) for member in members)
        for sheet, name, colour in ((one, "Anna", "blue"), (other, "Tom", "violet")):
            if not sheet.page.wait("wb.session.hello.ready && wb.session.board.page"):
                raise BrowserFault("a member may not draw")
            introduce(sheet, name, colour)
        for sheet in (one, other):
            if not sheet.page.wait("[...document.querySelectorAll('#members li')].some(({ title }) => / ms away/.test(title))"):
                raise BrowserFault("no delay is known")
            sheet.fold()
        clean(one, other)
        yield one, other
    finally:
        for member in members:
            member.end()


def line(start: Point, end: Point, many: int) -> Stroke:
    return [(start[0] + (end[0] - start[0]) * i / many, start[1] + (end[1] - start[1]) * i / many) for i in range(many + 1)]


def loses(sheet: Sheet, part: float) -> None:
    sheet.page.value(f"wb.session.member.worsen({{ ...wb.session.hello.worsen, lose: {part} }}).then(() => 0)")


def take(one: Sheet, other: Sheet) -> list[Step]:
    """Anna draws a house, a roof and a sun; the roof is lost on its way to Tom."""
    anna = Teacher(one)
    anna.take("r", "blue", "thick")
    anna.draw((150, 250), (240, 300), (330, 370))
    is_settled(other, 1)
    anna.take("p", "red", "thick")
    camera = Camera(one, other)
    camera.look_for(0.2)
    loses(other, 1)
    gather(one, at(one, *line((125, 255), (240, 150), 20), *line((240, 150), (355, 255), 20)))
    send(one)
    camera.look_for(0.6)
    anna.take("o", "yellow", "thick")
    loses(other, 0)
    anna.draw((430, 150), (470, 190), (510, 230))
    end = time.monotonic() + LONGEST
    while camera.look().other < 3 and time.monotonic() < end:
        pass
    camera.look_for(1.5)
    return camera.steps


def told(steps: list[Step]) -> list[Step]:
    """The last picture of all that have one caption, with the moment of the first."""
    kept: list[Step] = []
    for step in steps:
        if kept and caption(kept[-1].state) == caption(step.state):
            kept[-1] = step._replace(moment=kept[-1].moment)
        else:
            kept.append(step)
    if [caption(step.state) for step in kept] != list(CAPTIONS.values()):
        raise BrowserFault(f"another story than that of a loss: {[caption(step.state) for step in kept]}")
    return kept


def joined(page: Page, steps: list[Step]) -> bytes:
    for step in steps:
        words = [*step.pictures, caption(step.state), f"{step.moment - steps[0].moment:.1f} s"]
        page.value(f"{JOIN}({json.dumps(words)}).then(() => 0)")
    found = page.value(PALETTE)
    lasts = [max(LEAST, round(1000 * (after.moment - step.moment))) for step, after in zip(steps, steps[1:])]
    lasts[0] = max(FIRST, lasts[0])
    frames = [Frame(base64.b64decode(points), long) for points, long in zip(found["frames"], [*lasts, LAST])]
    return animated(found["width"], found["height"], base64.b64decode(found["palette"]), frames)


def main() -> None:
    parser = argparse.ArgumentParser(prog="python3 -m tests.ui.loss", description=__doc__, formatter_class=argparse.RawDescriptionHelpFormatter)
    parser.add_argument("file", type=Path, help="where the picture goes, as APNG")
    file = parser.parse_args().file
    program = find_chromium()
    if not program:
        parser.error("there is no chromium here (apt-get install chromium)")
    with tempfile.TemporaryDirectory() as room, Browser(program) as browser, two_windows(browser, Path(room)) as (one, other):
        steps = told(take(one, other))
        file.parent.mkdir(parents=True, exist_ok=True)
        file.write_bytes(joined(browser.open("data:text/html,"), steps))
    for step in steps:
        print(f"{step.moment:5.1f} s  {caption(step.state)}  ({step.state.told})")


if __name__ == "__main__":
    main()
