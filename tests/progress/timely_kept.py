"""A session of self-managing hosts, in time that a list of events stands for, whose drivers and network keep to stated times.

The terms are those of docs/PROGRESS.md, in microseconds. Until `QUIET` members draw and may join, what they send may be lost, and some datagrams are
forged. From then on what one sends comes to each other within `DELIVERY`, now and then twice. Each host is called at the latest
`LATE` behind its DUE, by a clock of its own, which loses up to `DRIFT`. It is opened as wb-live opens it, by `board`, `tick` and `keep`.
"""

from __future__ import annotations

import heapq
import itertools
import random
from collections import Counter
from typing import Callable, NamedTuple

from ..host.program import Dialog

DRAWOP, SESSION, REQUEST, ASK_PAGES, PAGE_STATE = "01", "02", "03", "04", "05"  # the kind of a datagram, in the digits of its bytes

QUIET, DELIVERY, LATE, DRIFT = 3_000_000, 50_000, 10_000, 4_000
LASTS = 300_000_000  # a clock that is slow loses DRIFT in this time
FAR = 1_000_000  # a host uses no greater delay, whatever echoes it hears
ASKING, ANSWERING = 4, 2  # delays that a request waits at first, and an answer, by the constants 2,2,1,1
SETTLED = QUIET + DELIVERY
REPAIRING = ANSWERING * FAR + 2 * DELIVERY + LATE + LATE
KNOWN = SETTLED + DELIVERY + 3 * FAR + DRIFT + 1
IS_NEW = "batch 1 0 0 0"
MOST_LEVEL = 16  # a request timer waits twice as long at each level, up to this one
RATE = 4_000  # bytes a second, which all reports together may take
HEARD = 192_000_000  # for so long a member counts after it was heard
LONGEST_MEAN = 64_000_000
LONGEST_PAUSE = LONGEST_MEAN + LONGEST_MEAN // 2
LONGEST_GAP = 16_000_000  # from one turn to the next
PLACES_OF_LAST = 48  # for so many names a host asks at once, if there are as many
PLACES, PAYS = 64, 2  # so many names may be owed, and one that came pays for two
MOST_REPORT_BYTES = 1_184
MOST_BYTES = {DRAWOP: 102, SESSION: MOST_REPORT_BYTES, REQUEST: 28, ASK_PAGES: 12, PAGE_STATE: 534}  # no datagram of a kind is longer
COUNTED = SETTLED + HEARD + DRIFT + LONGEST_PAUSE  # from then on reports go by the number of hosts

SECOND, COST = 1_000_000, 250_000
HOUR = 3_600 * SECOND

Loses = Callable[["TimelyKept", int, str], bool]


class Sizes(NamedTuple):
    """How much boards hold: slices of marks with those of one page more, holes, and numbers of the longest hole."""

    slices: int
    holes: int
    numbers: int


class Soon(NamedTuple):
    """How many names a host gives up one after the other, how long its turns take until they come to a missing number that is held, and how long after
    a call, or after `since`, its next report is due."""

    gives: int
    turning: int
    pause: int
    since: int


class Waits(NamedTuple):
    """No delay that a host uses is above `far`, and no two constants of requests, or of repairs, sum to more than these."""

    far: int
    asking: int
    answering: int


HERE = Waits(FAR, ASKING, ANSWERING)
FEW, SEVERAL = Waits(FAR, 2, 2), Waits(FAR, 6, 4)  # of wb-live and the page, among few members and among several


class Sent(NamedTuple):
    """What a host sent since its opening, by kinds, and in how many bytes, what it was called for: requests for what it held and drawings, and how many
    drawops came in."""

    since: int
    kinds: Counter[str]
    bytes: Counter[str]
    called: Counter[str]


def kind(datagram: str) -> str:
    return datagram[6:8]


def name(datagram: str) -> str:
    """The name of a drawop, or of what a request asks for, in digits."""
    return datagram[-32:] if kind(datagram) == REQUEST else datagram[16:48]


def slowest(sizes: Sizes, most: int) -> Soon:
    """So it is in each session."""
    return with_pause(sizes, most, LONGEST_PAUSE, QUIET)


def by_rate(sizes: Sizes, most: int, members: int) -> Soon:
    """And so, by how many hosts there are."""
    return with_pause(sizes, most, pause_of(RATE, members), COUNTED)


def with_pause(sizes: Sizes, most: int, pause: int, since: int) -> Soon:
    return Soon(most, 2 * sizes.numbers * sizes.holes * (LONGEST_GAP + LATE), pause, since)


def pause_of(rate: int, members: int) -> int:
    return 3 * min(max(members * MOST_REPORT_BYTES * 1_000_000 // rate, 2_000_000), LONGEST_MEAN) // 2


def soonest(members: int) -> Soon:
    """So it is if each missing number is held, and none is given up before its timer was backed off."""
    pause = pause_of(RATE, members)
    return Soon(1, LONGEST_GAP + LATE, pause, COUNTED)


def request_span() -> int:
    return ASKING * FAR + LATE


def step(sizes: Sizes, soon: Soon) -> int:
    """For so long nothing new comes at most, while something is lacked that another holds."""
    span = soon.pause + LATE
    asked_within = 21_000_000 + DRIFT + request_span() + 2 * sizes.slices * span + soon.turning + DELIVERY
    return span + asked_within + soon.gives * request_span() + REPAIRING


def whole_by(sizes: Sizes, soon: Soon, wait: int, most: int) -> int:
    """The time at which all hold all: no request timer waits for longer at `KNOWN`, and all together lack no more."""
    return max(KNOWN + wait + REPAIRING, soon.since) + (most + 1) * step(sizes, soon)


def rounds_by(soon: Soon, wait: int, rounds: int) -> int:
    """The time at which all hold all if each host always asks for all that it lacks, or for so many names that `rounds` times as many are all."""
    return max(KNOWN + wait + REPAIRING, soon.since) + rounds * (soon.pause + LATE + request_span() + REPAIRING)


def spans(waits: Waits) -> tuple[int, int, int]:
    """From where a name is asked for to its first request, from a request to where all hold the name, and when requests are answered."""
    return waits.asking * waits.far + LATE, waits.answering * waits.far + 2 * DELIVERY + 2 * LATE, SETTLED + DELIVERY + 3 * waits.far + DRIFT + 1


def round_span(waits: Waits) -> int:
    asking, answering, _ = spans(waits)
    return 2 * asking + answering


def crowded_by(wait: int, most: int, waits: Waits, places: int = PLACES_OF_LAST, since: int = 0) -> int:
    """The time at which all hold all if each host that lacks something always asks for all that it lacks, or for `places` names, though it gives names up
    early. In a round as many names come, or 64 are asked for, and credit pays for few such rounds."""
    _, answering, known = spans(waits)
    span = round_span(waits)
    bringing = -(-most // places)
    owed = (PLACES + PAYS * most) * COST + LONGEST_GAP + LATE + bringing * span
    crowded = -(-owed // (PLACES * COST - span))
    return max(known + wait + answering, since) + LONGEST_GAP + LATE + (bringing + crowded) * span


def filled_by(wait: int, most: int, waits: Waits, since: int = 0) -> int:
    """The time at which all hold all if from `since` on each lacks nothing but numbers below one that it holds, and each of these is held by one of them:
    a round brings one name, and each host asks for one within three turns."""
    return crowded_by(wait, most, waits, 1, since) + 3 * (LONGEST_GAP + LATE)


def window_span(slices: int, soon: Soon, waits: Waits) -> int:
    """In so long a window a host that lacks the last number of a source hears of it, and gets it or asks for 64 names."""
    asking, answering, _ = spans(waits)
    return PLACES * COST + DRIFT + LONGEST_GAP + LATE + 4 * slices * (soon.pause + LATE) + DELIVERY + 2 * asking + answering


def topped_by(wait: int, asks: int, slices: int, soon: Soon, waits: Waits) -> int:
    """The time at which each holds the last number of each source, if none asks for a name more than `asks` times."""
    _, answering, known = spans(waits)
    return max(known + wait + answering, soon.since) + (asks // PLACES + 1) * window_span(slices, soon, waits) + 1


def gained_by(wait: int, most: int, slices: int, soon: Soon, waits: Waits) -> int:
    """The time at which they do, whatever they ask for, if each missing number is held: each window brings a name, since credit does not pay for crowd after
    crowd of 64 names."""
    asking, answering, known = spans(waits)
    crowds = (PLACES * COST + LONGEST_GAP + LATE) // (PLACES * COST - 2 * asking) + 1
    gaining = window_span(slices, soon, waits) + crowds * 2 * asking + asking + answering
    return max(known + wait + answering, soon.since) + LONGEST_GAP + LATE + most * gaining + 1


def longest_wait(waits: Waits) -> int:
    """No request timer waits for longer, however long its requests were lost."""
    return waits.asking * waits.far << MOST_LEVEL


def outlasted_by(most: int, asks: int, members: int, waits: Waits) -> int:
    """The time at which all hold all after an outage, however long it was, if each missing number is held, and none asks for a name more than `asks` times.
    Reports go by the number of members, and one slice has all marks of a page."""
    wait = longest_wait(waits)
    return filled_by(wait, most, waits, topped_by(wait, asks, 1, soonest(members), waits))


def outlasted_anyway_by(most: int, members: int, waits: Waits) -> int:
    """The same, however often they ask."""
    wait = longest_wait(waits)
    return filled_by(wait, most, waits, gained_by(wait, most, 1, soonest(members), waits))


def rows_of(held: set[str]) -> dict[str, list[int]]:
    """The numbers that are held of each source on each page, ascending."""
    rows: dict[str, list[int]] = {}
    for told in sorted(held):
        rows.setdefault(told[:24], []).append(int(told[24:], 16))
    return rows


def holes_of(numbers: list[int]) -> list[tuple[int, int]]:
    """The greatest ranges of numbers that are missing below the top."""
    return [(low + 1, high - 1) for low, high in zip([0, *numbers], numbers) if high - low > 1]


def sizes_of(held: set[str]) -> Sizes:
    rows = rows_of(held)
    slices = [-(-count // 64) for count in Counter(row[8:] for row in rows).values()]
    lengths = [last + 1 - first for numbers in rows.values() for first, last in holes_of(numbers)]
    return Sizes(sum(slices) + max(slices, default=1), len(lengths), max(lengths, default=0))


class TimelyKept:
    """Members 1, 2, .. at their hosts, and the lines that are on their way. Others may join."""

    def __init__(self, members: int, cells: int, seed: int, loses: Loses) -> None:
        self.random = random.Random(seed)
        self.loses = loses
        self.cells, self.seed = cells, seed
        self.hosts: dict[int, Dialog] = {}
        self.now = 0
        self.lag: dict[int, int] = {}
        self.due: dict[int, int] = {}
        self.called_by: dict[int, int] = {}
        self.latest = 0
        self.events: list[tuple[int, int, int, str, str]] = []
        self.order = itertools.count()
        self.requests: list[str] = []
        self.reports: list[tuple[int, int]] = []  # when, and by whom
        self.sent: dict[int, Sent] = {}
        self.held: dict[int, set[str]] = {member: set() for member in range(1, members + 1)}
        self.records: dict[int, list[str]] = {member: [] for member in self.held}
        self.sizes = sizes_of(set())
        self.refused: list[str] = []
        for member in self.held:
            self.open(member, self.random.randrange(2**40))

    def slow(self, member: int, time: int) -> int:
        """What the clock of a member has lost by a time: that of each second one is slow."""
        return DRIFT * time // LASTS if member % 2 == 0 else 0

    def clock(self, member: int, time: int) -> int:
        return time - self.lag[member] - self.slow(member, time)

    def open(self, member: int, moment: int) -> None:
        """Opens the host of a member, whose clock stands at this moment, and calls it at once."""
        dialog = self.hosts[member] = Dialog()
        dialog.ask(f"board {member} {self.cells} 1 {self.seed * 100 + member}")
        dialog.ask(f"tick {moment}")
        self.sent[member] = Sent(moment, Counter(), Counter(), Counter())
        self.lag[member] = self.now - self.slow(member, self.now) - moment
        self.due[member] = int(dialog.ask(f"keep {RATE} 0").split()[1])
        self.called_by[member] = self.now + self.random.randrange(LATE + 1)

    def join(self, time: int) -> None:
        """The host of one more member is opened at this time, and its clock begins then."""
        member = len(self.held) + 1
        self.held[member], self.records[member] = set(), []
        self.put(time, member, "join", "")

    def restart(self, member: int) -> None:
        """The program of a member starts anew, and its record lacks the last three drawings. Its clock goes on, and begins a moment later."""
        moment = self.clock(member, self.now) + 1
        self.hosts[member].end()
        self.open(member, moment)
        record, self.records[member] = self.records[member][:-3], []
        self.held[member] = set()
        for datagram in record:
            if IS_NEW in self.tell(member, "came", f" {datagram}"):
                self.holds(member, datagram)

    def tell(self, member: int, word: str, rest: str = "") -> list[str]:
        """The block of a line that tells the moment, without the line that closes it; what it sends goes to the others. Whenever one is handed in behind
        the quiet time, no host is to be behind its DUE by more than `LATE`."""
        if self.now > QUIET:
            self.latest = max(self.latest, *(self.now - self.lag[other] - due for other, due in self.due.items()))
        self.counts_call(member, word, rest.strip())
        *block, closing = self.hosts[member].ask(f"{word} {self.clock(member, self.now)}{rest}").splitlines()
        if not closing.startswith("ok "):
            self.refused.append(closing)
            return []
        self.due[member] = int(closing.removeprefix("ok "))
        at = self.due[member] + self.lag[member]
        self.called_by[member] = max(self.now, at + self.slow(member, at) + self.random.randrange(LATE - DRIFT + 1))
        for told in block:
            if told.startswith("send "):
                self.send(member, told.removeprefix("send "))
        return block

    def counts_call(self, member: int, word: str, came: str) -> None:
        """What a host may send a drawop for, and which drawops come to it."""
        called = self.sent[member].called
        if word == "add" or word == "came" and kind(came) == REQUEST and name(came) in self.held[member]:
            called["drawop"] += 1
        if word == "came" and kind(came) == DRAWOP and name(came) not in self.held[member]:
            called["came"] += 1

    def put(self, time: int, member: int, word: str, rest: str) -> None:
        heapq.heappush(self.events, (time, next(self.order), member, word, rest))

    def send(self, sender: int, datagram: str) -> None:
        """What is sent before the quiet time may be lost. Then it comes to each, at times twice."""
        self.sent[sender].kinds[kind(datagram)] += 1
        self.sent[sender].bytes[kind(datagram)] += len(datagram) // 2
        if kind(datagram) == DRAWOP:
            self.holds(sender, datagram)
        if kind(datagram) == REQUEST:
            self.requests.append(name(datagram))
        if kind(datagram) == SESSION:
            self.reports.append((self.now, sender))
        for member in self.hosts:
            if member != sender and not (self.now <= QUIET and self.loses(self, member, datagram)):
                for _ in range(self.random.choices((1, 2), (4, 1))[0]):
                    self.put(self.now + self.random.randrange(DELIVERY + 1), member, "came", f" {datagram}")

    def holds(self, member: int, datagram: str) -> None:
        told = name(datagram)
        if told not in self.held[member]:
            self.held[member].add(told)
            self.records[member].append(datagram)
            self.sizes = Sizes(*(max(pair) for pair in zip(self.sizes, sizes_of(self.held[member]))))

    def draw(self, time: int, member: int, page: str, number: int) -> None:
        self.put(time, member, "add", f" {time} {page} line 0 {number % 8} 4 {number % 5} *")

    def step(self) -> None:
        """The next line that comes to a host, or the tick of one that has something to do, or a host that is opened."""
        time, member = min((time, member) for member, time in self.called_by.items())
        if not self.events or time <= self.events[0][0]:
            self.now = time
            self.tell(member, "tick")
            return
        self.now, _, member, word, rest = heapq.heappop(self.events)
        if word == "join":
            self.open(member, 1)
            return
        if word == "restart":
            self.restart(member)
            return
        if IS_NEW in self.tell(member, word, rest) and word == "came":
            self.holds(member, rest.strip())

    def run_until(self, time: int) -> None:
        """Every line and every tick up to a time."""
        while min([*self.called_by.values(), *(event[0] for event in self.events[:1])]) <= time:
            self.step()

    def run_until_all_hold(self, every: set[str], last: int) -> None:
        """Goes on until each holds all of these, or the time has come."""
        while self.now < last and not all(every <= held for held in self.held.values()):
            self.step()

    def wait(self, every: set[str]) -> int:
        """No request timer for one of these waits for longer: each request that was sent for a name doubled its waits once."""
        backed_off = max(Counter(asked for asked in self.requests if asked in every).values(), default=0)
        return ASKING * FAR << backed_off

    def shows(self, member: int, word: str, page: tuple[int, int]) -> list[str]:
        return self.hosts[member].ask(f"{word} {page[0]} {page[1]}").splitlines()[:-1]
