"""Two members of one session, and the window of each, by cells."""
from __future__ import annotations

import json
import os
import re
import subprocess
import threading
from contextlib import contextmanager
from pathlib import Path
from typing import Iterator

from ..facts import Facts
from ..live.browser import PATIENCE, BrowserFault, Missed, Page

TOP = Path(__file__).resolve().parents[2]


class Member:
    """A member: the program as a user starts it, but for the ports."""

    def __init__(self, room: Path, ports: int, web: int | str = 0, words: list[str] | None = None) -> None:
        words = [str(TOP / "wb-live"), *(words or ["--ports", str(ports), "--teach"]), "--web", str(web), "--no-terminal"]
        environment = {**os.environ, "XDG_STATE_HOME": str(room)}
        self.process = subprocess.Popen(words, cwd=room, env=environment, stdin=subprocess.DEVNULL, stdout=subprocess.PIPE, text=True)
        # where it tells no address, it is ended, so that reading does not last
        guard = threading.Timer(3_600 if "WB_PROGRAM" not in os.environ else 2 * PATIENCE, self.process.kill)
        guard.start()
        told = ""
        while not (found := re.search(r"^page (\S+)$", told, re.MULTILINE)):
            line = self.process.stdout.readline() if self.process.stdout else ""
            if not line:
                raise BrowserFault(f"wb-live gave no address: {told!r}")
            told += line
        guard.cancel()
        self.address = found.group(1)
        self.number = int(re.search(r"member (\d+)", told).group(1))  # type: ignore[union-attr]

    def end(self) -> int:
        self.process.terminate()
        try:
            return self.process.wait(PATIENCE)
        except subprocess.TimeoutExpired:
            self.process.kill()
            return self.process.wait()


# a window that asks for no name, and shows the page by its characters
BY_CELLS = "localStorage.getItem('wb-look') ?? localStorage.setItem('wb-look', 'cells'); localStorage.setItem('wb-asked', 'no');"


# what was to be pressed and stayed covered for some seconds, in all windows
COVERED_FOR = 10.0
COVERED: list[str] = []


def middle_of(page: Page, x: int, y: int) -> tuple[float, float]:
    """Where the middle of a cell is in the window."""
    found = page.value(f"""(() => {{
        const box = document.getElementById('sheet').getBoundingClientRect();
        return [box.left + wb.view.pixelX({x}) + wb.view.wide / 2, box.top + wb.view.pixelY({y}) + wb.view.high / 2];
    }})()""")
    return found[0], found[1]


class Sheet:
    """A member's window, by cells."""

    def __init__(self, page: Page) -> None:
        self.page = page
        self.hand = "mouse"  # or "finger", or "keys"

    def be(self, width: int, height: int, scheme: str, hand: str) -> None:
        """A window of this size, by day or by night, under a mouse, a finger or keys alone, once the page has come to be so."""
        self.hand = hand
        self.resize(width, height, mobile=hand == "finger")
        self.wish(scheme)

    def resize(self, width: int, height: int, mobile: bool = False) -> None:
        self.page.resize(width, height, mobile)
        self.page.until(f"innerWidth === {width} && wb.view.width === wb.view.sheet.clientWidth && wb.view.height === wb.view.sheet.clientHeight")

    def wish(self, scheme: str) -> bool | Missed:
        """The system asks for light or dark. Whether the page comes to be so."""
        self.page.prefer(color_scheme=scheme)
        return self.page.wait(f"document.documentElement.dataset.theme === {json.dumps(scheme)}")

    def point(self, x: int, y: int) -> tuple[float, float]:
        """Where the middle of a cell is in the window."""
        return middle_of(self.page, x, y)

    def drag(self, start: tuple[int, int], end: tuple[int, int]) -> None:
        if self.hand == "finger":
            self.stroke([start, ((start[0] + end[0]) // 2, (start[1] + end[1]) // 2), end])
        else:
            self.page.drag(self.point(*start), self.point(*end))

    def stroke(self, cells: list[tuple[int, int]]) -> None:
        """The mouse goes along cells with its left button down, or a finger does."""
        if self.hand == "finger":
            self.page.touch("touchStart", self.point(*cells[0]))
            for cell in cells[1:]:
                self.page.touch("touchMove", self.point(*cell))
            self.page.touch("touchEnd")
            return
        self.page.press(*self.point(*cells[0]))
        for cell in cells[1:]:
            self.page.mouse("mouseMoved", *self.point(*cell))
        self.page.mouse("mouseReleased", *self.point(*cells[-1]))

    def click(self, x: int, y: int) -> None:
        if self.hand == "finger":
            self.stroke([(x, y)])
        else:
            self.page.click(*self.point(x, y))

    def place(self, chosen: str, part: float = 0.5) -> tuple[float, float]:
        """Where something is that a selector chooses first, once nothing lies over it: at this part of its width."""
        look = f"""(() => {{
            const found = document.querySelector({json.dumps(chosen)});
            found.scrollIntoView({{ block: 'nearest' }});
            const {{ left, top, width, height }} = found.getBoundingClientRect();
            const [x, y] = [left + 1 + (width - 2) * {part}, top + height / 2], over = document.elementFromPoint(x, y);
            return {{ x, y, over: found.contains(over) ? '' : over?.id || over?.className || 'the edge of the window' }};
        }})()"""
        is_free = self.page.wait(f"{look}.over === ''", COVERED_FOR)
        found = self.page.value(look)
        if not is_free:
            COVERED.append(f"{chosen} by {found['over']}")
        return found["x"], found["y"]

    def tap(self, x: float, y: float) -> None:
        if self.hand == "finger":
            self.page.touch("touchStart", (x, y))
            self.page.touch("touchEnd")
        else:
            self.page.click(x, y)

    def press(self, chosen: str) -> None:
        """Presses what a selector chooses first, as the hand does: where it is, or by Enter."""
        if self.hand == "keys":
            self.page.value(f"document.querySelector({json.dumps(chosen)}).focus(); 0")
            self.page.key("Enter")
        else:
            self.tap(*self.place(chosen))

    def slide(self, chosen: str, is_end: bool) -> None:
        """Moves a slider to its end, or to its beginning."""
        if self.hand == "keys":
            self.page.value(f"document.querySelector({json.dumps(chosen)}).focus(); 0")
            self.page.key("End" if is_end else "Home")
            return
        self.tap(*self.place(chosen, float(is_end)))

    def unfold(self, chosen: str) -> None:
        """Has a part of the panel in view."""
        if self.page.value("document.getElementById('side').hidden"):
            self.press("#fold")
        self.press("#" + self.page.value(f"document.querySelector({json.dumps(chosen)}).closest('.panel').getAttribute('aria-labelledby')"))
        self.page.until(f"document.querySelector({json.dumps(chosen)}).getClientRects().length > 0")

    def fold(self) -> None:
        if not self.page.value("document.getElementById('side').hidden"):
            self.press("#close-side")
        self.page.value("wb.view.sheet.focus(); 0")

    def look(self, look: str) -> None:
        """As ink, or by its cells."""
        self.page.value(f"wb.sight.setLook({json.dumps(look == 'ink')}); 0")

    def shows(self, x: int, y: int, text: str, seconds: float = PATIENCE) -> bool | Missed:
        """Whether a row comes to show a text from a column on. An empty place is a space."""
        row = f"(document.getElementById('text').textContent.split('\\n')[{y}] ?? '')"
        return self.page.wait(f"{row}.padEnd(300).substr({x}, {len(text)}) === {json.dumps(text)}", seconds)

    def is_inked(self, x: int, y: int, seconds: float = PATIENCE) -> bool | Missed:
        """Whether the cell comes to have a point on the canvas that is far from the paper's colour, once all is painted."""
        return self.page.wait(f"""!wb.painter.isPlanned && (() => {{
            const {{ view, painter: {{ brush, canvas }} }} = wb;
            const ratio = devicePixelRatio, left = view.pixelX({x}) * ratio, top = view.pixelY({y}) * ratio;
            const {{ data }} = brush.getImageData(left, top, view.wide * ratio, view.high * ratio);
            const paper = brush.getImageData(canvas.width - 1, canvas.height - 1, 1, 1).data;
            return data.some((part, i) => Math.abs(part - paper[i % 4]) > 100);
        }})()""", seconds)

    def text_of(self, name: str) -> str:
        return str(self.page.value(f"document.getElementById('{name}').textContent"))

    def keys(self, *keys: str) -> None:
        for key in keys:
            self.page.key(key)

    def walk(self, across: int, down: int) -> None:
        """Goes with the arrow keys."""
        self.keys(*["ArrowRight" if across > 0 else "ArrowLeft"] * abs(across), *["ArrowDown" if down > 0 else "ArrowUp"] * abs(down))


class Tally:
    """Gathers the facts of a flow, and says where it was."""

    def __init__(self, facts: Facts) -> None:
        self.facts = facts
        self.where = ""

    @contextmanager
    def told(self, where: str) -> Iterator[None]:
        """Facts that are wrong meanwhile are printed with these words."""
        self.where = f" ({where})"
        yield
        self.where = ""

    def check(self, name: str, is_so: object, told: str = "") -> None:
        """A fact, what there was in its place, and what the page was waited for."""
        waited = [is_so] if isinstance(is_so, Missed) else []
        self.facts.holds(f"{name}{self.where}", is_so, *filter(None, [told]), *waited)
