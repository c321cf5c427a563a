"""Sessions of self-managing hosts that start anew from their records, over a bad network, beside strangers who forge all but drawings.

What they print is held to what is proved of them: wherever two answer one `report` of a page, and `gaps 0`, they answer one
`view`, whoever is asked and when; no name means two drawops; and no batch counts a clash. A record has all that its member drew,
and two thirds of what it took from others. In a careless session it has half of all, and nobody listens for what it drew before.
"""

from __future__ import annotations

import random
from dataclasses import dataclass, field

from wbhost import Block, Host, HostEnded

from ..host import datagrams
from .by_library import HostByBytes

MEMBERS = (1, 2, 3)
PAGES = ((1, 0), (2, 7))
STRANGER = 9
SECOND = 1_000_000
STEPS = 120
LOST, TWICE = 0.35, 0.1
DRAWOP = ("57420101", "57420201")  # how a drawop begins, in the format's two versions
NAME, SOURCE = slice(16, 48), slice(16, 24)  # its name, and of that its source


class Fault(Exception):
    """What a session showed that must not be."""


@dataclass
class Member:
    """A member: its host, and what its record has, in hexadecimal. Its moments go on through its starts."""

    path: str
    number: int
    cells: int
    moment: int = 1
    record: list[str] = field(default_factory=list)
    starts: int = 0
    host: Host | HostByBytes = field(init=False)

    def start(self) -> list[Block]:
        """Starts a self-managing host, which listens for a microsecond, and gives it the record: the blocks of that."""
        if self.starts:
            self.host.end()
        self.starts += 1
        self.host = Host(self.path)
        self.ask([f"board {self.number} {self.cells} 1 {self.number * 1000 + self.starts}", f"tick {self.moment}", "keep 4000 1"])
        return self.ask([f"came {self.moment} {digits}" for digits in self.record])

    def ask(self, lines: list[str]) -> list[Block]:
        try:
            blocks = self.host.ask_all(lines)
        except HostEnded as fault:
            raise Fault(f"member {self.number}: {fault}") from fault
        for line, block in zip(lines, blocks):
            if block.fault is not None:
                raise Fault(f"member {self.number} refuses '{line[:60]}': {block.fault}")
        return blocks

    def end(self) -> None:
        if self.starts:
            self.host.end()


@dataclass
class Restarts:
    """A session: three members, the datagrams on their way, and what was sent and shown so far."""

    path: str
    seed: int
    is_careless: bool = False
    now: int = SECOND
    on_the_way: list[tuple[int, int, str]] = field(default_factory=list)
    sent: list[str] = field(default_factory=list)
    meanings: dict[str, str] = field(default_factory=dict)  # what each name means
    views: dict[tuple[str, ...], list[str]] = field(default_factory=dict)  # what was shown for each report without gaps
    compared: int = 0

    def __post_init__(self) -> None:
        self.random = random.Random(self.seed)
        cells = self.random.choice((12, 40, 200))
        self.members = {number: Member(self.path, number, cells) for number in MEMBERS}

    # ---- lines

    def told(self, member: Member, blocks: list[Block]) -> None:
        """Puts what blocks send on its way to the others."""
        for line in (line for block in blocks for line in block.lines):
            if line.startswith("batch ") and line.split()[3] != "0":
                raise Fault(f"member {member.number} counts a clash: {line}")
            if line.startswith("send "):
                self.send(member, line[5:])

    def send(self, member: Member, digits: str) -> None:
        if digits.startswith(DRAWOP) and self.meanings.setdefault(digits[NAME], digits) != digits:
            raise Fault(f"member {member.number} sends another drawop of a name: {digits}")
        self.sent.append(digits)
        for other in MEMBERS:
            if other != member.number and self.random.random() > LOST:
                for _ in range(2 if self.random.random() < TWICE else 1):
                    self.on_the_way.append((self.now + self.random.randrange(1_000, 400_000), other, digits))

    def tick(self, member: Member) -> None:
        member.moment = max(member.moment + 1, self.now)
        self.told(member, member.ask([f"tick {member.moment}"]))

    def come(self, member: Member, digits: str) -> None:
        """A datagram comes. The record has a drawop that is new."""
        [block] = member.ask([f"came {member.moment} {digits}"])
        self.told(member, [block])
        if block.lines[-1:] == ["batch 1 0 0 0"]:
            member.record.append(digits)

    # ---- what happens

    def draw(self, member: Member) -> None:
        """The record has the drawing before it is on its way: the greatest of what the line sends of this member's own on the page."""
        page = self.random.choice(PAGES)
        x = self.random.randrange(20)
        drawing = self.random.choice((f"line {x} 0 {x + 3} 4 {member.number}", f'text {x} 2 "{self.now}"', f"delete {self.random.choice(MEMBERS)} {x + 1}"))
        [block] = member.host.ask_all([f"add {member.moment} {self.now} {page[0]}/{page[1]} {drawing}"])
        if block.fault is not None and "drawop itself" in block.fault:
            return
        place = datagrams.name_bytes(member.number, page, 0).hex()[:24]
        own = [digits for digits in block.sent() if digits.startswith(DRAWOP) and digits[NAME].startswith(place)]
        if block.lines[-1:] != ["batch 0 0 0 1"]:
            member.record.append(max(own, key=lambda digits: digits[NAME]))
        self.told(member, [block])

    def restart(self, member: Member) -> None:
        kept = 0.5 if self.is_careless else 2 / 3
        is_own = {digits: int(digits[SOURCE], 16) == member.number and not self.is_careless for digits in member.record}
        member.record = [digits for digits in member.record if is_own[digits] or self.random.random() < kept]
        member.moment += self.random.randrange(1, SECOND)
        self.told(member, member.start())

    def forged(self) -> str:
        """What tells of no drawing truly: a report, a page state, a request or a question, in anybody's number."""
        sender, page = self.random.choice((*MEMBERS, STRANGER)), self.random.choice(PAGES)
        highs = (self.random.randrange(1, 40), 2**31 - 1, 2**32 - 1)
        marks = [(source, self.random.choice(highs)) for source in (*MEMBERS, STRANGER) if self.random.random() < 0.6]
        echoes = [(source, self.random.randrange(self.now), self.random.randrange(SECOND)) for source in MEMBERS if self.random.random() < 0.5]
        return self.random.choice((
            datagrams.session(sender, self.random.randrange(self.now), page, marks, echoes),
            datagrams.page_state(sender, page, marks),
            datagrams.request(sender, self.random.choice(MEMBERS), page, self.random.choice(highs)),
            datagrams.ask_pages(sender),
        ))

    def deliver(self) -> None:
        """Hands in what has come by now, in an order by chance, with an old copy and what is forged among it."""
        come = [(number, digits) for moment, number, digits in self.on_the_way if moment <= self.now]
        self.on_the_way = [entry for entry in self.on_the_way if entry[0] > self.now]
        come += [(self.random.choice(MEMBERS), self.forged()) for _ in range(self.random.choice((0, 0, 1, 2)))]
        come += [(self.random.choice(MEMBERS), self.random.choice(self.sent)) for _ in range(self.random.choice((0, 1))) if self.sent]
        self.random.shuffle(come)
        for number, digits in come:
            self.come(self.members[number], digits)

    def compare(self) -> None:
        """Whoever tells a report of a page and no gaps shows what was shown for that report before."""
        for member in self.members.values():
            for creator, number in PAGES:
                place = f"{creator} {number}"
                report, gaps, view, digest = member.ask([f"report {place}", f"gaps {place}", f"view {place}", f"digest {place}"])
                if gaps.lines == ["gaps 0"]:
                    key = (place, *report.lines)
                    self.compared += key in self.views
                    shown = view.lines + digest.lines
                    if self.views.setdefault(key, shown) != shown:
                        raise Fault(f"member {member.number} has two views or two digests of page {place} for one report")
                    self.agreed(member, key)

    def agreed(self, member: Member, key: tuple[str, ...]) -> None:
        """A member showed what others did for this report of a page."""

    def step(self) -> None:
        self.now += self.random.randrange(1_000, 300_000)
        for member in self.members.values():
            self.tick(member)
        self.deliver()
        chance, member = self.random.random(), self.members[self.random.choice(MEMBERS)]
        if chance < 0.4:
            self.draw(member)
        elif chance < 0.46:
            self.restart(member)
        if self.random.random() < 0.3:
            self.compare()

    def finish(self) -> None:
        """What comes after all steps."""

    def starts(self) -> int:
        return sum(member.starts for member in self.members.values())

    def run(self) -> None:
        try:
            for member in self.members.values():
                member.start()
            for _ in range(STEPS):
                self.step()
            self.finish()
        finally:
            for member in self.members.values():
                member.end()


def fault_of(session: Restarts) -> str | None:
    """Runs a session: its fault, where there is one."""
    try:
        session.run()
    except Fault as fault:
        return str(fault)
    return None
