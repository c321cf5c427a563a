"""Sessions of hosts of three kinds, driven, self-managing and judged, that start anew as hosts of any kind, while somebody draws on another
page under the names of all.

On the other pages they are held to what is proved of them (wb_host_sessions): wherever two answer one `report` of a page, and `gaps 0`,
they answer one `view`, whatever kinds they are of, and no name means two drawops.
"""

from __future__ import annotations

from dataclasses import dataclass, field
from pathlib import Path

from wbhost import Block, Host

from ..host import datagrams
from .by_library import HostByBytes
from .restarts import DRAWOP, MEMBERS, NAME, PAGES, STRANGER, Fault, Member, Restarts

KINDS = ("driven", "self-managing", "judged")
ELSEWHERE = (3, 5)  # the page on which drawings are forged
WALL = 1_764_000_000_000_000  # the time of day at the moment 0
TELLS = ("57420102", "57420105")  # how a session message and a page state begin
PAGE = slice(24, 40)  # where a drawop's name has its page
FORGED = datagrams.page_bytes(ELSEWHERE).hex()


@dataclass
class Mixed(Member):
    """A member whose program is of one kind, and of another after its next start. With a library what manages itself is there, by its bytes."""

    kind: str = "driven"
    library: Path | None = None
    drawn: dict[tuple[int, int], int] = field(default_factory=dict)  # the greatest number under which it drew on a page

    def start(self) -> list[Block]:
        if self.starts:
            self.host.end()
        self.starts += 1
        self.host = HostByBytes(self.library, self.kind == "judged") if self.library and self.kind != "driven" else Host(self.path)
        self.ask([f"board {self.number} {self.cells} 1 {self.number * 1000 + self.starts}", f"tick {self.moment}"])
        if self.kind == "self-managing":
            self.ask(["keep 4000 1"])
        if self.kind == "judged":
            self.ask([f"judge {self.moment} 4000 1 {WALL + self.moment} {self.number} {self.cells}"])
        blocks = self.ask([self.given(digits) for digits in self.record])
        self.moment += 2  # it listens no more, so no forged mark makes it leave numbers out
        return blocks + self.ask([f"tick {self.moment}"])

    def given(self, digits: str) -> str:
        """The line with which the host is given a drawop of the record."""
        lines = {"driven": "datagram {}", "self-managing": f"came {self.moment} {{}}", "judged": "held datagram {}"}
        return lines[self.kind].format(digits)

    def coming(self, digits: str, sender: int) -> str:
        """The line with which the host is handed a datagram that came."""
        lines = {"driven": "datagram {}", "self-managing": f"came {self.moment} {{}}", "judged": f"came {self.moment} {sender}@{sender} {{}}"}
        return lines[self.kind].format(digits)

    def drawing(self, page: tuple[int, int], drawing: str, time: int) -> str:
        """The line with which its user draws."""
        place = f"{page[0]}/{page[1]}"
        if self.kind == "driven":
            return f"say draw {self.number} {place} {self.drawn.get(page, 0) + 1} {time} {drawing}"
        return f"add {self.moment} {place} {drawing}" if self.kind == "judged" else f"add {self.moment} {time} {place} {drawing}"


@dataclass
class Kinds(Restarts):
    """A session of members of three kinds."""

    library: Path | None = None
    forged_page = ELSEWHERE

    def __post_init__(self) -> None:
        super().__post_init__()
        cells = self.random.choice((100, 400))
        self.mixed = {number: Mixed(self.path, number, cells, kind=kind, library=self.library) for number, kind in zip(MEMBERS, KINDS)}
        self.members = {**self.mixed}
        self.senders: dict[str, int] = {}  # who sent a datagram last
        self.reporters: dict[tuple[str, ...], set[str]] = {}  # the kinds of hosts that told a report without gaps

    # ---- lines

    def send(self, member: Member, digits: str) -> None:
        self.senders[digits] = member.number
        if digits.startswith(DRAWOP) and digits[PAGE] == FORGED:
            self.on_the_way += [(self.now + self.random.randrange(1_000, 400_000), other, digits) for other in MEMBERS if other != member.number]
        else:
            super().send(member, digits)

    def come(self, member: Member, digits: str) -> None:
        """A datagram comes. What is forged on the other page may clash."""
        host = self.mixed[member.number]
        self.tick(host)
        if host.kind == "driven" and digits.startswith(TELLS) and digits not in self.senders:
            return  # a driven host believes each mark, and would have gaps for ever
        [block] = host.ask([host.coming(digits, self.senders.get(digits, STRANGER))])
        is_forged = digits.startswith(DRAWOP) and digits[PAGE] == FORGED
        if is_forged:
            block = block._replace(lines=[line for line in block.lines if not line.endswith((" 0 1 0", " clash"))])
        elif "became clash" in block.lines:
            raise Fault(f"member {host.number} counts a clash: {digits}")
        self.told(host, [block])
        if block.lines[-1:] in (["batch 1 0 0 0"], ["became new"]):
            host.record.append(digits)

    # ---- what happens

    def forged(self) -> str:
        """What strangers say: as in sessions of one kind, or a drawing on the other page, under the name of anybody."""
        if self.random.random() < 0.5:
            return super().forged()
        drawing = datagrams.line(self.random.randrange(20), 0, self.random.randrange(20), 9, "!")
        return datagrams.drawop(self.random.choice(MEMBERS), self.forged_page, self.random.randrange(1, 9), self.now, drawing)

    def draw(self, member: Member) -> None:
        host, page, x = self.mixed[member.number], self.random.choice(PAGES), self.random.randrange(20)
        self.tick(host)
        [block] = host.host.ask_all([host.drawing(page, f"line {x} 0 {x + 3} 4 {member.number}", self.now)])
        place = datagrams.name_bytes(member.number, page, 0).hex()[:24]
        own = [digits for digits in block.sent() if digits.startswith(DRAWOP) and digits[NAME].startswith(place)]
        if own:
            host.record.append(max(own, key=lambda digits: digits[NAME]))
            host.drawn[page] = int(host.record[-1][NAME][24:], 16)
        self.told(host, [block])

    def restart(self, member: Member) -> None:
        self.mixed[member.number].kind = self.random.choice(KINDS)
        super().restart(member)

    def step(self) -> None:
        super().step()
        self.tell()

    def tell(self) -> None:
        """What the drivers of driven hosts do now and again: report a page, or request what is missing there."""
        for host in self.mixed.values():
            if host.kind == "driven" and self.random.random() < 0.6:
                page = self.random.choice(PAGES)
                self.told(host, host.ask([f"{self.random.choice(('session', 'look'))} {page[0]} {page[1]}"]))

    def finish(self) -> None:
        """Nobody draws any more, or starts."""
        for _ in range(40):
            self.now += 200_000
            for host in self.mixed.values():
                self.tick(host)
            self.tell()
            self.deliver()
            self.compare()

    def agreed(self, member: Member, key: tuple[str, ...]) -> None:
        self.reporters.setdefault(key, set()).add(self.mixed[member.number].kind)

    def kinds_that_agreed(self) -> int:
        """Of how many kinds hosts agreed on one report, at most."""
        return max(map(len, self.reporters.values()), default=0)


class Forged(Kinds):
    """One in which drawings are forged on a page that is compared."""

    forged_page = PAGES[0]
