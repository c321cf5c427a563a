"""The calls of a host by its lines: what a host of the library takes by bytes (library.py), with the same answers."""
from __future__ import annotations

from typing import Dict, List, Optional, Sequence

from .answers import Answer, Became, Fetch, Gap, drawn_in
from .blocks import Block
from .child import ChildHost
from .drawings import Drawop, Page, drawop_of

# what a block says became of a drawop: of a host that is judged, and of one that is not
FATES = {"new": Became.NEW, "again": Became.AGAIN, "clash": Became.CLASH, "left": Became.FULL}
BATCHES = {"1 0 0 0": Became.NEW, "0 1 0 0": Became.AGAIN, "0 0 1 0": Became.CLASH, "0 0 0 1": Became.FULL}


class Lines:
    """The calls of a child process. `is_judged` is set with the line `judge`. Of a call that is refused the answer says so; a question that is
    none is None."""

    def __init__(self, by: ChildHost) -> None:
        self.by = by
        self.is_judged = False

    # ---- what happens

    def came(self, now: int, datagram: bytes) -> Answer:
        return told(self.by.ask("came %d %s" % (now, datagram.hex())), datagram)

    def came_from(self, now: int, place: int, datagram: bytes) -> Answer:
        return judged(self.by.ask("came %d %d %s" % (now, place, datagram.hex())), datagram)

    def wall(self, now: int, time_of_day: int) -> Answer:
        return judged(self.by.ask("wall %d %d" % (now, time_of_day)))

    def tick(self, now: int) -> Answer:
        return (judged if self.is_judged else told)(self.by.ask("tick %d" % now))

    def add(self, now: int, time: int, member: int, page: Page, operation: str) -> Answer:
        """The user draws. A judged host has the time of day itself."""
        if self.is_judged:
            answer = judged(self.by.ask("add %d %s %s" % (now, page, operation)))
            is_full = answer.refused == "full"
            answer = answer._replace(refused=None if is_full else answer.refused, became=Became.FULL if is_full else answer.became)
        else:
            answer = told(self.by.ask("add %d %d %s %s" % (now, time, page, operation)))
            answer = answer._replace(became=Became.NEW if answer.became is None and answer.refused is None else answer.became)
        return answer._replace(drawop=drawn_in(answer.send, member) if answer.became is Became.NEW else None)

    # ---- questions

    def items(self, line: str) -> Optional[List[str]]:
        """The items of a question's block, which the first line counts."""
        block = self.by.ask(line)
        return None if block.fault is not None else block.lines[1:]

    def show(self, page: Page, width: int, height: int) -> Optional[List[str]]:
        block = self.by.ask("show %d %d %d %d" % (*page, width, height))
        return None if block.fault is not None else block.lines

    def view(self, page: Page) -> Optional[List[Drawop]]:
        found = self.items("view %d %d" % page)
        return None if found is None else [drawop_in(line) for line in found]

    def gaps(self, page: Page) -> Optional[List[Gap]]:
        found = self.items("gaps %d %d" % page)
        return None if found is None else [Gap(*map(int, line.split())) for line in found]

    def report(self, page: Page) -> Optional[Dict[int, int]]:
        found = self.items("report %d %d" % page)
        rows = [line.split() for line in found or []]
        return None if found is None else {int(source): int(number) for source, number in rows}

    def digest(self, page: Page) -> Optional[bytes]:
        block = self.by.ask("digest %d %d" % page)
        return None if block.fault is not None else bytes.fromhex(block.lines[0][7:])

    def pages(self, word: str) -> Optional[List[Page]]:
        found = self.items(word)
        return None if found is None else [Page(*map(int, line.split())) for line in found]

    def next_number(self, page: Page) -> Optional[int]:
        block = self.by.ask("next %d %d" % page)
        return None if block.fault is not None else int(block.lines[0][5:])


def drawop_in(line: str) -> Drawop:
    _, source, page, number, time, operation = line.split(" ", 5)
    return Drawop(int(source), Page.of(page), int(number), int(time), operation)


def told(block: Block, datagram: bytes = b"") -> Answer:
    """The answer of a host that is not judged."""
    last = block.lines[-1] if block.lines else ""
    became = BATCHES[last[6:]] if last.startswith("batch ") else None
    return Answer(sent(block), block.due, became, block.fault, drawop=drawop_of(datagram) if became is Became.NEW else None)


def judged(block: Block, datagram: bytes = b"") -> Answer:
    """The answer of a judged host."""
    became, why, warned, fetched = (first(block.said(word)) for word in ("became", "dropped", "warn", "fetch"))
    fate = FATES[became] if became else None
    return Answer(sent(block), block.due, fate, block.fault, warned, drawop_of(datagram) if fate is Became.NEW else None, why, block.said("record"),
                  fetch_in(fetched) if fetched else None)


def fetch_in(words: str) -> Fetch:
    origin, lacking = words.split()
    place, _, owner = origin.partition("@")
    return Fetch(int(place), int(owner) if owner else None, int(lacking))


def sent(block: Block) -> List[bytes]:
    return [bytes.fromhex(digits) for digits in block.sent()]


def first(said: Sequence[str]) -> Optional[str]:
    return said[0] if said else None
