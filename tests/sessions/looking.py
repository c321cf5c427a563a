"""Sessions of eight `wb host` children whose drivers look and report, over a network that loses, repeats and disorders datagrams by a seed. What they print
is held to what is proved of sessions: wherever two members answer the same `report` of a page and `gaps 0`, in mid-session too, they show
the same canvas; no batch counts a clash; and whatever a member sends of a drawop, its repairs too, is byte for byte what its source sent first."""

from __future__ import annotations

import random
from collections import defaultdict
from dataclasses import dataclass, field

from wbhost import Host, HostEnded

MEMBERS = range(1, 9)
PAGES = ("1 0", "2 7")
WIDTH, HEIGHT = 24, 8
STEPS = 160
DRAWOP = "57420101", "57420201"
GLYPHS = "*#+o@x%&"


class Fault(Exception):
    """What a session showed that must not be."""


class Member:
    """A member of a session: a host, and the moment of its last tick."""

    def __init__(self, path: str, number: int, seed: int) -> None:
        self.number = number
        self.host = Host(path)
        self.ask(f"board {number} 2048 1 {seed * 8 + number}")

    def ask(self, line: str) -> list[str]:
        """The block of a line without the line that closes it."""
        try:
            block = self.host.ask(line)
        except HostEnded as fault:
            raise Fault(f"member {self.number} at '{line[:60]}': {fault}") from fault
        if block.fault is not None:
            raise Fault(f"member {self.number} refuses '{line[:60]}': {block.fault}")
        return block.lines

    def close(self) -> None:
        self.host.end()


@dataclass
class Session:
    """Eight members, the datagrams that are on their way, and what each source sent first under each name."""

    path: str
    seed: int
    now: int = 1_000_000
    repairs: int = 0
    compared: int = 0
    on_the_way: list[tuple[int, int, str]] = field(default_factory=list)
    first_sent: dict[str, str] = field(default_factory=dict)

    def __post_init__(self) -> None:
        self.random = random.Random(self.seed)
        self.members = {n: Member(self.path, n, self.seed) for n in MEMBERS}

    def do(self, member: Member, line: str) -> None:
        """Gives a member a line, and puts what it sends on its way to the others."""
        for given in member.ask(line):
            if given.startswith("batch ") and given.split()[3] != "0":
                raise Fault(f"member {member.number} counts a clash: {given}")
            if given.startswith("send "):
                self.send(member, given.removeprefix("send "))

    def send(self, member: Member, datagram: str) -> None:
        if datagram.startswith(DRAWOP):
            name = datagram[16:48]
            if name not in self.first_sent and int(name[:8], 16) != member.number:
                raise Fault(f"member {member.number} sends a drawop that its source never sent: {datagram}")
            self.repairs += name in self.first_sent
            if self.first_sent.setdefault(name, datagram) != datagram:
                raise Fault(f"member {member.number} repairs with other bytes: {datagram}")
        for other in MEMBERS:
            if other != member.number and self.random.random() > 0.35:
                for _ in range(2 if self.random.random() < 0.1 else 1):
                    self.on_the_way.append((self.now + self.random.randrange(1_000, 400_000), other, datagram))

    def tick(self, member: Member) -> None:
        self.do(member, f"tick {self.now}")

    def draw(self, member: Member) -> None:
        page = self.random.choice(PAGES)
        number = int(member.ask(f"next {page}")[0].removeprefix("next "))
        x, y = self.random.randrange(WIDTH), self.random.randrange(HEIGHT)
        glyph = GLYPHS[member.number - 1]
        drawing = self.random.choice([
            f"line {x} {y} {self.random.randrange(WIDTH)} {self.random.randrange(HEIGHT)} {glyph}",
            f"frame {x} {y} {self.random.randrange(WIDTH)} {self.random.randrange(HEIGHT)} {glyph}",
            f'text {x} {y} "member {member.number}"',
            *(f"{word} {self.random.choice(MEMBERS)} {self.random.randrange(1, 9)}" for word in ("delete", "restore")),
        ])
        if drawing.split()[1:] == [str(member.number), str(number)]:
            return  # no drawop deletes or restores itself
        self.do(member, f"say draw {member.number} {page.replace(' ', '/')} {number} {self.now} {drawing}")

    def deliver(self) -> None:
        """Gives each member what has come to it by now, in an order by chance."""
        come = [entry for entry in self.on_the_way if entry[0] <= self.now]
        self.on_the_way = [entry for entry in self.on_the_way if entry[0] > self.now]
        self.random.shuffle(come)
        for number in {number for _, number, _ in come}:
            self.tick(self.members[number])
        for _, number, datagram in come:
            self.do(self.members[number], f"datagram {datagram}")

    def compare(self) -> None:
        """Compares the canvases of all members that report the same of a page and lack nothing there."""
        for page in PAGES:
            alike: dict[tuple[str, ...], list[Member]] = defaultdict(list)
            for member in self.members.values():
                if member.ask(f"gaps {page}") == ["gaps 0"]:
                    alike[tuple(member.ask(f"report {page}"))].append(member)
            for members in alike.values():
                canvases = {tuple(m.ask(f"show {page} {WIDTH} {HEIGHT}") + m.ask(f"digest {page}")) for m in members}
                if len(canvases) > 1:
                    raise Fault(f"members {[m.number for m in members]} report the same of page {page}, and show two canvases or have two digests")
                self.compared += len(members) - 1

    def step(self, drawing: bool) -> None:
        self.now += self.random.randrange(1_000, 60_000)
        self.deliver()
        member = self.random.choice(list(self.members.values()))
        self.tick(member)
        page = self.random.choice(PAGES)
        if drawing and self.random.random() < 0.5:
            self.draw(member)
        elif self.random.random() < 0.5:
            self.do(member, f"session {page}")
        else:
            self.do(member, f"look {page}")

    def run(self) -> None:
        for step in range(STEPS):
            self.step(drawing=step < STEPS // 2)
            if step % 16 == 15:
                self.compare()

    def close(self) -> None:
        for member in self.members.values():
            member.close()
