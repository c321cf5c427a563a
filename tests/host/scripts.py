"""Scripts at random, the same ones each time, whose datagrams come from `datagrams`."""

from __future__ import annotations

import random
from collections.abc import Callable

from . import datagrams

PAGES = [(7, 1), (7, 2), (4294967295, 0)]
MEMBERS = [1, 7, 8, 9]


class Writer:
    """Writes the lines of a session of a few members, as the host of one of them may meet them."""

    def __init__(self, seed: int) -> None:
        self.random = random.Random(seed)
        self.moment = 0

    def operation(self) -> bytes:
        below = self.random.randrange
        kind = below(6)
        if kind < 2:
            return datagrams.line(below(12), below(6), below(12), below(6), "*")
        if kind == 2:
            return datagrams.frame(below(6), below(3), 6 + below(6), 3 + below(3), "#")
        if kind == 3:
            return datagrams.text(below(8), below(6), "meeting at noon, in the room beside the hall"[: 1 + below(44)])
        make = datagrams.delete if kind == 4 else datagrams.restore
        return make(self.random.choice(MEMBERS), 21 + below(3))

    def drawop(self, source: int | None = None) -> str:
        """A drawop whose name comes again now and then, at times with other fields."""
        page, below = self.random.choice(PAGES), self.random.randrange
        source = source or self.random.choice(MEMBERS)
        return datagrams.drawop(source, page, 1 + below(20), below(50), self.operation())

    def marks(self) -> list[datagrams.Mark]:
        return [(source, 1 + self.random.randrange(24)) for source in MEMBERS if self.random.randrange(3)]

    def echoes(self) -> list[datagrams.Echo]:
        ago = self.random.randrange(200_000)
        return [(1, max(0, self.moment - ago), self.random.randrange(1 + ago))] if self.random.randrange(2) else []

    def heard(self) -> str:
        """A datagram of any kind but a drawop."""
        sender, page, below = self.random.choice(MEMBERS), self.random.choice(PAGES), self.random.randrange
        kind = below(8)
        if kind < 3:
            return datagrams.session(sender, below(1_000_000), page, self.marks(), self.echoes())
        if kind < 6:
            return datagrams.request(sender, self.random.choice(MEMBERS), page, 1 + below(24))
        return datagrams.ask_pages(sender) if kind == 6 else datagrams.page_state(sender, page, self.marks())

    def tick(self) -> str:
        self.moment += self.random.randrange(250_000)
        return f"tick {self.moment}"

    def question(self) -> str:
        creator, number = self.random.choice(PAGES)
        word = self.random.choice(["look", "look", "session", "gaps", "report", "digest", "show"])
        return f"{word} {creator} {number}{' 12 6' if word == 'show' else ''}"

    def line(self) -> str:
        """A line of a script that is no arrival, and prints what it does at once."""
        ways: list[Callable[[], str]] = [
            lambda: f"hear {self.heard()}",
            self.tick,
            self.question,
            lambda: f"distance {self.random.choice(MEMBERS)} {self.random.randrange(300_000)}",
            lambda: "pages",
        ]
        return self.random.choice(ways)()

    def script(self, count: int) -> list[str]:
        """A script in which each arrival is a batch of its own, and few boards are large enough."""
        lines = [f"board 1 {8 + self.random.randrange(120)} 1 {self.random.randrange(2**64)}"]
        for _ in range(count):
            if self.random.randrange(2):
                lines.append(f"arrive {self.drawop()}")
            lines.append(self.line())
        return lines
