#!/usr/bin/env python3
"""Writes the script of a live session of 60,000 lines, its datagrams in words: session.py [SEED]

    python3 figures/session.py | ./wb hex >session.txt
    time ./wb run <session.txt >/dev/null

Forty sources draw on four pages. A tenth of the drawops is lost, and most of these come later. Between the arrivals stand
what others send, ticks of the clock, looks and questions, in an order that is random and the same for the same seed.
"""

from __future__ import annotations

import random
import sys
from collections.abc import Callable

ARRIVALS = 26_500
LATE = 1_459  # how many of the lost arrivals come after all
REQUESTS = 4_000
REPORTS = 7_500
STATES = 400
ASKS = 100
TICKS = 10_000
LOOKS = 6_700
QUESTIONS = 3_300
SOURCES = 40
PAGES = 4


class Session:
    """What was drawn, what of it was lost, and the moment."""

    def __init__(self, seed: int) -> None:
        self.numbers = random.Random(seed)
        self.drawn = 0
        self.lost: list[str] = []
        self.moment = 0

    def page(self) -> int:
        return 1 + self.numbers.randrange(PAGES)

    def name(self, place: int) -> str:
        """Source, page and number of the drawop at a place: sources and pages take turns."""
        turn = place // SOURCES
        return f"{100 + place % SOURCES} 7/{1 + turn % PAGES} {1 + turn // PAGES}"

    def draw(self) -> str:
        """The next drawop, or the one after it where that is lost."""
        while True:
            ends = " ".join(str(self.numbers.randrange(160)) for _ in range(4))
            line = f"draw {self.name(self.drawn)} {1_000 + self.drawn} line {ends} *"
            self.drawn += 1
            if self.numbers.randrange(10) > 0:
                return line
            self.lost.append(line)

    def late(self) -> str:
        """A drawop that was lost, or the next one if there is none."""
        return self.lost.pop(self.numbers.randrange(len(self.lost))) if self.lost else self.draw()

    def request(self) -> str:
        asker = 90 + self.numbers.randrange(10)
        return f"request {asker} {self.name(self.numbers.randrange(self.drawn + 1))}"

    def marks(self) -> str:
        """What another may have: of some sources about as much as was drawn."""
        first, turns = self.numbers.randrange(SOURCES - 8), self.drawn // (SOURCES * PAGES)
        return " ".join(f"{100 + first + place}={max(1, turns - self.numbers.randrange(3))}" for place in range(8))

    def report(self) -> str:
        sender = 90 + self.numbers.randrange(10)
        return f"session-message {sender} {self.moment} 7/{self.page()} {self.marks()}"

    def state(self) -> str:
        return f"page-state {90 + self.numbers.randrange(10)} 7/{self.page()} {self.marks()}"

    def ask(self) -> str:
        return f"ask-pages {90 + self.numbers.randrange(10)}"

    def tick(self) -> str:
        self.moment += self.numbers.randrange(1, 5_000)
        return f"tick {self.moment}"

    def look(self) -> str:
        return f"look 7 {self.page()}"

    def question(self) -> str:
        """Gaps, a report, the session message or the pages."""
        word = self.numbers.choice(["gaps", "report", "session", "pages"])
        return word if word == "pages" else f"{word} 7 {self.page()}"

    def lines(self) -> list[str]:
        """The script, behind the line that opens the board and the delays to the sources."""
        kinds: list[tuple[Callable[[], str], int]] = [
            (self.draw, ARRIVALS),
            (self.late, LATE),
            (self.request, REQUESTS),
            (self.report, REPORTS),
            (self.state, STATES),
            (self.ask, ASKS),
            (self.tick, TICKS),
            (self.look, LOOKS),
            (self.question, QUESTIONS),
        ]
        order = [kind for kind, count in kinds for _ in range(count)]
        self.numbers.shuffle(order)
        delays = [f"distance {100 + source} {10_000 + 1_000 * source}" for source in range(SOURCES)]
        return ["board 1 65535 1 42", *delays, *(kind() for kind in order)]


def main() -> None:
    seed = int(sys.argv[1]) if len(sys.argv) > 1 else 1
    sys.stdout.write("".join(f"{line}\n" for line in Session(seed).lines()))


if __name__ == "__main__":
    main()
