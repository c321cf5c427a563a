"""Windows of a browser with a member each: what they show, and what is drawn in them."""
from __future__ import annotations

import json
import time
from typing import Any

from ..live.browser import PATIENCE, Browser, Missed, Page
from ..ui.sheets import BY_CELLS, middle_of

# switches that keep a hidden page's clock going, which nobody's browser has
FOR_TESTS_ALONE = ("--disable-background-timer-throttling", "--disable-renderer-backgrounding", "--disable-backgrounding-occluded-windows")

WIDE, PHONE = (1280, 800), (390, 780)


class Ordinary(Browser):
    """A browser that slows the pages down that nobody sees, as it comes."""

    def __init__(self, program: str, patience: float) -> None:
        super().__init__(program, patience)
        self.attached: list[str] = []  # the sessions of workers, as the browser names them

    def options(self) -> list[str]:
        return [option for option in super().options() if option not in FOR_TESTS_ALONE]

    def take_event(self, method: str, told: dict[str, Any]) -> None:
        if method == "Target.attachedToTarget" and told["targetInfo"]["type"] == "worker":
            self.attached.append(told["sessionId"])
        super().take_event(method, told)


class Window:
    """A window whose page has a member."""

    def __init__(self, browser: Ordinary, address: str, size: tuple[int, int] = WIDE) -> None:
        self.browser = browser
        self.page: Page = browser.open(address, *size, first=BY_CELLS)
        if size == PHONE:
            self.page.resize(*size, mobile=True)

    def is_ready(self, seconds: float = PATIENCE) -> bool | Missed:
        return self.page.wait("wb.session.hello.ready", seconds)

    def reload(self) -> bool | Missed:
        """Loads the page anew. Whether it comes to be ready."""
        self.page.value("window.isOld = true; 0")
        self.page.call("Page.reload")
        return self.page.wait("!window.isOld && wb.session.hello.ready")

    def says(self, name: str, text: str) -> bool | Missed:
        """Whether an element of the page comes to have a text in it."""
        return self.page.wait(f"document.getElementById({json.dumps(name)}).textContent.includes({json.dumps(text)})")

    @property
    def me(self) -> int:
        return int(self.page.value("wb.session.hello.me"))

    def point(self, x: int, y: int) -> tuple[float, float]:
        """Where the middle of a cell is."""
        return middle_of(self.page, x, y)

    def drag(self, start: tuple[int, int], end: tuple[int, int]) -> None:
        self.page.drag(self.point(*start), self.point(*end))

    def stroke(self, *cells: tuple[int, int]) -> None:
        """A finger that goes from cell to cell."""
        self.page.touch("touchStart", self.point(*cells[0]))
        for cell in cells[1:]:
            self.page.touch("touchMove", self.point(*cell))
        self.page.touch("touchEnd")

    def draw(self, operation: str) -> dict[str, Any]:
        """Has an operation drawn as the page would, and gives the answer."""
        return dict(self.page.value(f"wb.session.send({json.dumps(operation)})"))

    def draw_all(self, operations: list[str]) -> bool:
        """Has operations drawn, one after another. Whether all were taken."""
        return bool(self.page.value(f"Promise.all({json.dumps(operations)}.map((it) => wb.session.send(it))).then((all) => all.every(({{ ok }}) => ok))"))

    def rows(self) -> list[str]:
        return list(self.page.value("wb.session.board.rows"))

    def drawings(self) -> int:
        return int(self.page.value("wb.session.board.drawops.length"))

    def shows(self, x: int, y: int, text: str, seconds: float = PATIENCE) -> bool | Missed:
        """Whether a row comes to show a text from a column on."""
        return self.page.wait(f"(wb.session.board.rows[{y}] ?? '').padEnd(300).substr({x}, {len(text)}) === {json.dumps(text)}", seconds)

    def go_to(self, page: str) -> bool | Missed:
        self.page.value(f"wb.session.goToPage({json.dumps(page)}); 0")
        return self.page.wait(f"wb.session.board.page === {json.dumps(page)}")

    def health(self) -> str:
        return str(self.page.value("document.getElementById('phrase').textContent"))

    def in_worker(self, expression: str) -> Any:
        """What an expression of the member's worker is."""
        self.browser.attached.clear()
        how = {"waitForDebuggerOnStart": False, "flatten": True}
        self.page.call("Target.setAutoAttach", autoAttach=True, **how)
        end = time.monotonic() + PATIENCE
        while not self.browser.attached and time.monotonic() < end:
            self.page.value("0")  # what the browser tells is read with each answer
        worker = Page(self.browser, "", self.browser.attached[-1])
        try:
            return worker.value(expression)
        finally:
            self.page.call("Target.setAutoAttach", autoAttach=False, **how)


def agree(windows: list[Window], drawings: int, seconds: float = 3 * PATIENCE) -> bool:
    """Whether all windows come to show the same rows of this many drawings."""
    end = time.monotonic() + seconds
    while time.monotonic() < end:
        if all(window.drawings() == drawings for window in windows) and len({json.dumps(window.rows()) for window in windows}) == 1:
            return True
        time.sleep(0.05)
    return False
