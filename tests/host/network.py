"""Self-managing hosts in virtual time, and the network between them.

Each member has a clock that begins at 0 when it joins, and its driver does four things alone. It hands in what comes, ticks up to 2 ms after
DUE, says what its user draws, and shows pages.
"""

from __future__ import annotations

import heapq
import random
from dataclasses import dataclass, field
from typing import Callable

from .program import Dialog

SECOND = 1_000_000
LOST, DOUBLED = 0.3, 0.1
LATENESS = 2_000  # microseconds, at most, of a tick
PATIENCE = 400  # simulated seconds, after which a session that is not whole has failed


@dataclass
class Member:
    number: int
    dialog: Dialog
    joined: int
    due: int = 0
    waiting: int = 0  # the number of the tick that is waited for
    refused: list[str] = field(default_factory=list)
    sent: dict[int, int] = field(default_factory=dict)  # how many datagrams of each kind


class Network:
    """Hosts, and the datagrams on their way."""

    def __init__(self, seed: int, cells: int = 2_000, lost: float = LOST) -> None:
        self.random = random.Random(seed)
        self.cells, self.lost = cells, lost
        self.now = 0
        self.members: list[Member] = []
        self.events: list[tuple[int, int, Callable[[], None]]] = []
        self.count = 0

    def at(self, moment: int, does: Callable[[], None]) -> None:
        self.count += 1
        heapq.heappush(self.events, (moment, self.count, does))

    def until(self, moment: int) -> None:
        while self.events and self.events[0][0] <= moment:
            self.now, _, does = heapq.heappop(self.events)
            does()
        self.now = moment

    # ---- drivers

    def join(self, listen: int = 0) -> Member:
        member = Member(1 + len(self.members), Dialog(), self.now)
        self.members.append(member)
        self.tell(member, f"board {member.number} {self.cells} 1 {self.random.getrandbits(64)}")
        self.tell(member, f"keep 4000 {listen}")
        return member

    def tell(self, member: Member, line: str) -> list[str]:
        """A line and its block: what it sends is on its way, and the next tick is waited for."""
        *block, last = member.dialog.ask(line).splitlines()
        for said in block:
            if said.startswith("send "):
                self.send(member, said[5:])
        if last.startswith("refused"):
            member.refused.append(f"{line[:60]}: {last}")
        elif last != "ok never":
            member.due = int(last[3:])
            member.waiting += 1
            turn = member.waiting
            moment = max(self.now, member.joined + member.due) + self.random.randrange(LATENESS)
            self.at(moment, lambda: self.tick(member, turn))
        return block

    def clock(self, member: Member) -> int:
        return self.now - member.joined

    def tick(self, member: Member, turn: int) -> None:
        if turn == member.waiting:
            self.tell(member, f"tick {self.clock(member)}")

    def send(self, sender: Member, digits: str) -> None:
        kind = int(digits[6:8], 16)
        sender.sent[kind] = sender.sent.get(kind, 0) + 1
        for other in self.members:
            if other is not sender:
                self.carry(other, digits)

    def carry(self, other: Member, digits: str) -> None:
        for copy in range(1 + (self.random.random() < DOUBLED)):
            if self.random.random() >= self.lost:
                delay = self.random.randrange(5_000, 50_000) + copy * self.random.randrange(SECOND)
                self.at(self.now + delay, lambda: self.come(other, digits))

    def come(self, member: Member, digits: str) -> None:
        self.tell(member, f"came {self.clock(member)} {digits}")

    def draw(self, member: Member, pages: list[tuple[int, int]]) -> None:
        creator, number = self.random.choice(pages)
        x, y = self.random.randrange(60), self.random.randrange(20)
        operation = self.random.choice([f"line {x} {y} {x + 3} {y} {self.random.choice('abc')}", f'text {x} {y} "{self.now}"'])
        if self.random.random() < 0.1:
            operation = f"delete {self.random.choice(self.members).number} {1 + self.random.randrange(9)}"
        before = len(member.refused)
        self.tell(member, f"add {self.clock(member)} {1_690_000_000_000_000 + self.now} {creator}/{number} {operation}")
        if len(member.refused) > before and "drawop itself" in member.refused[-1]:
            member.refused.pop()

    # ---- what they show

    def shown(self, member: Member) -> list[str]:
        """All that it shows of all pages, without what closes each block."""
        pages = [line.split() for line in member.dialog.ask("pages").splitlines()[1:-1]]
        lines = [f"{word} {creator} {number}" for creator, number in pages for word in ("report", "view")]
        return [text for line in lines for text in [line, *member.dialog.ask(line).splitlines()[:-1]]]

    def holes(self, member: Member) -> int:
        pages = [line.split() for line in member.dialog.ask("pages").splitlines()[1:-1]]
        return sum(int(member.dialog.ask(f"gaps {creator} {number}").split()[1]) for creator, number in pages)

    def is_whole(self) -> bool:
        first = self.shown(self.members[0])
        return all(self.holes(member) == 0 and self.shown(member) == first for member in self.members)

    def whole_after(self) -> float:
        """How many seconds it takes from now on until all are whole; more than PATIENCE where they are not."""
        begun = self.now
        while not self.is_whole() and self.now - begun <= PATIENCE * SECOND:
            self.until(self.now + SECOND // 2)
        return (self.now - begun) / SECOND

    def end(self) -> list[str]:
        """Ends all hosts. What they refused."""
        for member in self.members:
            member.dialog.end()
        return [refused for member in self.members for refused in member.refused]
