"""How soon sessions of self-managing hosts are whole, by the program in virtual time: medians, 90th percentiles and greatest of many runs.

    tests/take-figures policy [--runs N] [--only WORD]

Each member is a `wb host`. Each copy of a datagram is lost by itself and takes 20 ms, or what the case says; ticks come up to 2 ms late. The
reports of all take 4,000 bytes a second, the constants are 2,2,1,1.
"""
from __future__ import annotations

import argparse
import statistics
import sys
from concurrent.futures import ProcessPoolExecutor
from dataclasses import dataclass
from functools import partial
from typing import Callable, List, NamedTuple, Optional, Sequence

from ..host import datagrams
from ..host.program import Dialog
from ..host.network import SECOND, Member, Network

PAGE = (1, 1)
CONSTANTS = "2,2,1,1"
WAY = 20_000
HEADERS = 28  # bytes of IP and UDP
LONGEST = 1_200  # simulated seconds, after which a session that is not whole is given up
RUNS = 60  # of each case


class Case(NamedTuple):
    """One row: how many members, how much is lost, and what the session does."""

    name: str
    members: int
    lost: float
    does: Callable[["Session"], float]
    way: int = WAY


@dataclass
class Found:
    """What one run took: seconds; requests, repairs and bytes of all."""

    seconds: float
    requests: int
    repairs: int
    bytes: int


class Session(Network):
    """Hosts in virtual time, which says how many drawops each holds."""

    def __init__(self, seed: int, lost: float, way: int) -> None:
        super().__init__(seed, cells=65_535, lost=lost)
        self.way = way
        self.bytes = 0
        self.held: List[int] = []

    def join(self, listen: int = 0) -> Member:
        member = Member(1 + len(self.members), Dialog("--tuning", CONSTANTS), self.now)
        self.members.append(member)
        self.held.append(0)
        self.tell(member, f"board {member.number} {self.cells} 1 {self.random.getrandbits(64)}")
        self.tell(member, f"keep 4000 {listen}")
        return member

    def tell(self, member: Member, line: str) -> List[str]:
        block = super().tell(member, line)
        self.held[member.number - 1] += sum(int(said.split()[1]) for said in block if said.startswith("batch "))
        return block

    def send(self, sender: Member, digits: str) -> None:
        self.bytes += HEADERS + len(digits) // 2
        super().send(sender, digits)

    def carry(self, other: Member, digits: str) -> None:
        if self.random.random() >= self.lost:
            self.at(self.now + self.way, lambda: self.come(other, digits))

    def draw_one(self, member: Member) -> None:
        self.tell(member, f"add {self.clock(member)} {self.now} {PAGE[0]}/{PAGE[1]} line 0 0 4 0 *")

    def hold(self, members: Sequence[Member], names: Sequence[int], row: int = 900) -> None:
        """These members hold drawops of a source that has left."""
        for number in names:
            for member in members:
                self.come(member, datagrams.drawop(row, PAGE, number, 5, datagrams.text(number % 60, 0, "x")))

    def sent_of(self, kind: int) -> int:
        return sum(member.sent.get(kind, 0) for member in self.members)

    def seconds_until(self, wanted: int) -> float:
        """The seconds from now on until each member holds `wanted` drawops."""
        begun = self.now
        while min(self.held) < wanted and self.events and self.now - begun < LONGEST * SECOND:
            self.until(self.events[0][0])
        return (self.now - begun) / SECOND if min(self.held) >= wanted else float("inf")


# ---- what sessions do


def all_draw(drawings: int, after: int, session: Session) -> float:
    """All draw in four tenths of a second, `after` seconds after the start: the seconds from the last drawing on."""
    turns = [(after * SECOND + session.random.randrange(400_000), member) for member in session.members for _ in range(drawings)]
    for moment, member in sorted(turns, key=lambda turn: turn[0]):
        session.until(moment)
        session.draw_one(member)
    # a drawing of one's own has no line `batch`
    session.held = [count + drawings for count in session.held]
    return session.seconds_until(len(session.members) * drawings)


def join_of(names: Sequence[int], rows: int, session: Session) -> float:
    """All but one hold these numbers of some rows whose sources have left, and the last one joins at the same time: the seconds of its join."""
    for row in range(rows):
        session.hold(session.members[:-1], names, 900 + row)
    return session.seconds_until(len(names) * rows)


def outages(stretch: int, lost: int) -> List[int]:
    """Three stretches that are held, and between them what nobody holds."""
    step = stretch + lost
    return [first + more for first in (1, 1 + step, 1 + 2 * step) for more in range(stretch)]


def at_random(count: int, most: int, session: Session) -> List[int]:
    """So many numbers at random places, the last of which is the greatest."""
    return [*sorted(session.random.sample(range(1, most), count - 1)), most]


def join_of_random(count: int, most: int, session: Session) -> float:
    """A join of these."""
    return join_of(at_random(count, most, session), 1, session)


CASES = [
    Case("all draw at the start, 0.3 ms", 2, 0.3, partial(all_draw, 20, 0), 300),
    Case("all draw at the start, 0.3 ms", 3, 0.3, partial(all_draw, 20, 0), 300),
    Case("all draw at the start", 2, 0.3, partial(all_draw, 20, 0)),
    Case("all draw at the start", 3, 0.3, partial(all_draw, 20, 0)),
    Case("all draw at the start", 8, 0.3, partial(all_draw, 20, 0)),
    Case("all draw after 30 s", 2, 0.3, partial(all_draw, 20, 30)),
    Case("all draw after 30 s", 3, 0.3, partial(all_draw, 20, 30)),
    Case("a join of 1,000", 2, 0.5, partial(join_of, range(1, 1_001), 1)),
    Case("a join of 1,000", 3, 0.5, partial(join_of, range(1, 1_001), 1)),
    *(Case("two outages of 70 held by nobody", members, 0.0, partial(join_of, outages(60, 70), 1)) for members in (2, 3, 8, 30)),
    Case("9 of 10 held by nobody", 3, 0.3, partial(join_of, range(10, 501, 10), 1)),
    Case("9 of 10 held by nobody", 8, 0.3, partial(join_of, range(10, 501, 10), 1)),
    Case("50 of 500 at random places", 3, 0.3, partial(join_of_random, 50, 500)),
    Case("69 of 70 held by nobody", 3, 0.0, partial(join_of, range(70, 1_401, 70), 1)),
]


def run(place: int, seed: int) -> Found:
    """One run of a case."""
    case = CASES[place]
    session = Session(seed, case.lost, case.way)
    for _ in range(case.members):
        session.join()
    seconds = case.does(session)
    found = Found(seconds, session.sent_of(datagrams.REQUEST), session.sent_of(datagrams.DRAWOP), session.bytes)
    session.end()
    return found


def requests_of_nobody(seed: int) -> List[float]:
    """Three members hear of 9 of 10 numbers that nobody holds: the requests a second of each from 10 to 20 minutes, and from two hours on for ten minutes."""
    session = Session(seed, 0.0, WAY)
    for _ in range(3):
        session.join()
    session.hold(session.members, range(10, 501, 10))
    rates = []
    for begin in (600, 7_200):
        session.until(begin * SECOND)
        before = session.sent_of(datagrams.REQUEST)
        session.until((begin + 600) * SECOND)
        rates.append((session.sent_of(datagrams.REQUEST) - before) / 600 / len(session.members))
    session.end()
    return rates


def scattered(seed: int) -> int:
    """Two members hold 20 numbers at random places among 1,400, and a third joins: how many it has after 20 minutes."""
    session = Session(seed, 0.0, WAY)
    for _ in range(3):
        session.join()
    session.hold(session.members[:-1], at_random(20, 1_400, session))
    session.until(LONGEST * SECOND)
    count = session.held[-1]
    session.end()
    return count


# ---- the table


def part(values: Sequence[float], share: float) -> str:
    value = sorted(values)[min(len(values) - 1, int(share * len(values)))]
    return "not in %d" % LONGEST if value == float("inf") else "%.1f" % value


def row(case: Case, found: Sequence[Found]) -> str:
    seconds = [each.seconds for each in found]
    cells = [case.name, case.members, "%d %%" % (100 * case.lost), len(found), part(seconds, 0.5), part(seconds, 0.9), part(seconds, 1)]
    cells += [round(statistics.mean(each.requests for each in found)), round(statistics.mean(each.repairs for each in found)), round(statistics.mean(each.bytes for each in found) / 1000)]
    return "| %s |" % " | ".join(map(str, cells))


def main(words: Optional[Sequence[str]] = None) -> None:
    given = argparse.ArgumentParser(description=(__doc__ or "").splitlines()[0])
    given.add_argument("--runs", type=int, default=RUNS, metavar="N", help="so many runs of each case (%(default)s)")
    given.add_argument("--only", default="", metavar="WORD", help="the cases whose names have this")
    given.add_argument("--workers", type=int, metavar="N", help="so many sessions at once")
    options = given.parse_args(words)
    print("| | Members | Lost | Runs | Median, s | 90 in 100 | Greatest | Requests | Drawops | kB |\n|" + "---|" * 10)
    seeds = range(1, 1 + options.runs)
    with ProcessPoolExecutor(options.workers) as workers:
        for place, case in enumerate(CASES):
            if options.only in case.name:
                print(row(case, list(workers.map(partial(run, place), seeds))), flush=True)
        if options.only in "requests for what nobody holds":
            rates = list(workers.map(requests_of_nobody, seeds))
            print("requests a second of a host for what nobody holds, from 10 minutes on, and two hours later: %s" % ", ".join("%.2f" % statistics.median(each) for each in zip(*rates)))
        if options.only in "20 of 1,400 at random places":
            counts = sorted(workers.map(scattered, seeds))
            print("of 20 of 1,400 at random places a newcomer has after 20 minutes: %d, and from %d to %d" % (statistics.median_low(counts), counts[0], counts[-1]))


if __name__ == "__main__":
    main(sys.argv[1:])
