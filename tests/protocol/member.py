"""A member, written from docs/PROTOCOL.md and docs/vectors alone: bytes and moments go in, and bytes to send come out. It has no socket and no clock,
and looks at nothing of the program. It judges who is a member, and keeps nothing of strangers."""

from __future__ import annotations

from collections.abc import Callable, Hashable, Iterator
from itertools import islice
from random import Random
from typing import NamedTuple, Optional, Union

from . import codec, painting
from .codec import AskPages, Drawop, Echo, Mark, Operation, Page, PageState, Request, SessionMessage

SECOND = 1_000_000
DAY = 24 * 3_600 * SECOND
LISTENING, RATE, SHORTEST, LONGEST = 6 * SECOND, 4_000, 2 * SECOND, 64 * SECOND
HEARD, FRESH, GONE = 192 * SECOND, 256 * SECOND, 600 * SECOND
UNKNOWN_DELAY, DELAY_LIMIT, HOLD_DOWNS = 100_000, 1 << 24, 3
C1, C2, D1, D2 = 2, 2, 1, 1
MOST_LEVEL, OLD_LEVEL = 16, 4
MOST_TIMERS, MOST_MARKS, MOST_ECHOES, MOST_FIRSTS, MOST_PAGES, STATE_BYTES = 64, 64, 32, 24, 64, 534
FIRST_FORGED, MOST_ABOVE = 1 << 31, 65_537

Report = Union[SessionMessage, PageState]


class Name(NamedTuple):
    source: int
    page: Page
    seq: int


class RequestTimer(NamedTuple):
    level: int
    delay: int
    since: int
    due: int


class RepairTimer(NamedTuple):
    due: int
    delay: int


def delay_of(now: int, sent: int, held: int) -> Optional[int]:
    """The one-way delay to a member whose echo of ours came now, if it tells one."""
    delay = (now - sent - held) // 2
    return delay if sent + held <= now and delay < DELAY_LIMIT else None


class Member:
    """`wall` is the time of day at moment 0. A member that `returns` listens first."""

    def __init__(self, number: int, random: Random, wall: int, returns: bool = False) -> None:
        self.number, self.wall = number, wall
        self.chance: Callable[[int], int] = lambda most: random.randint(0, most)
        self.clock = random.randrange(1 << 40)  # what its session messages call moment 0
        self.listens_until = LISTENING if returns else 0
        self.held: dict[Page, dict[tuple[int, int], Drawop]] = {}  # by source and sequence number
        self.tops: dict[Page, dict[int, int]] = {}
        self.whole: dict[tuple[Page, int], int] = {}  # of a source on a page all numbers up to this are held
        self.requests: dict[Name, RequestTimer] = {}
        self.repairs: dict[Name, RepairTimer] = {}
        self.turn = Name(-1, Page(-1, 0), 0)  # the name whose old timer started anew last
        self.held_down: dict[Name, int] = {}
        self.delays: dict[int, int] = {}
        self.heard: dict[int, tuple[int, int]] = {}  # the moment that a member's last session message named, and when it came
        self.echoed = 0  # the last number that had its turn among the echoes
        self.sent: dict[int, int] = {}  # the moments that its own named, and when it sent them
        self.has_twin = False
        self.members: dict[Hashable, int] = {}  # the origins that are members', and when something came from there
        self.homes: dict[int, tuple[Hashable, int]] = {}  # where a number has echoed us, and when it last reported from there
        self.report_at, self.reported = self.chance(SECOND), (Page(-1, 0), 0)  # the last mark that it sent
        self.ask_at: Optional[int] = self.chance(SECOND // 5)
        self.ask_wait = SECOND
        self.answer_at: Optional[int] = None
        self.quiet_until = 0

    # ---- what it holds, and lacks

    def holds(self, name: Name) -> bool:
        return (name.source, name.seq) in self.held.get(name.page, {})

    def count(self) -> int:
        return sum(map(len, self.held.values()))

    def marks(self, page: Page) -> tuple[Mark, ...]:
        return tuple(Mark(*it) for it in painting.marks(self.held.get(page, {}).values(), page).items())

    def own_top(self, page: Page) -> int:
        return max((mark.high for mark in self.marks(page) if mark.source == self.number), default=0)

    def rows(self, page: Page, width: int, height: int) -> list[str]:
        return painting.canvas(self.held.get(page, {}).values(), page, width, height)

    def stream(self) -> bytes:
        """All drawops, by page, source and number."""
        return b"".join(codec.write(self.held[page][place]) for page in sorted(self.held) for place in sorted(self.held[page]))

    def missing(self, page: Page, source: int) -> Iterator[Name]:
        held, whole = self.held.get(page, {}), self.whole.get((page, source), 0)
        while (source, whole + 1) in held:
            whole += 1
        self.whole[page, source] = whole
        return (Name(source, page, seq) for seq in range(whole + 1, self.tops[page][source] + 1) if (source, seq) not in held)

    def lacking(self) -> list[tuple[Page, int]]:
        """The pages and sources of which something is missing."""
        return [(page, source) for page, tops in self.tops.items() for source in tops if next(self.missing(page, source), None)]

    def know(self, name: Name) -> None:
        tops = self.tops.setdefault(name.page, {})
        tops[name.source] = max(name.seq, tops.get(name.source, 0))

    def keep(self, drawop: Drawop) -> None:
        self.held.setdefault(drawop.page, {})[drawop.source, drawop.seq] = drawop
        self.know(Name(drawop.source, drawop.page, drawop.seq))

    # ---- what comes in

    def come(self, now: int, data: bytes, origin: Hashable = None) -> None:
        """Takes what came from an origin. What comes from none is a member's."""
        it = codec.read(data)
        if it is None:
            return
        if self.trusts(now, origin):
            self.members[origin] = now
        number = it.source if isinstance(it, Drawop) else it.asker if isinstance(it, (Request, AskPages)) else it.sender
        if isinstance(it, Drawop):
            self.take(now, it, self.trusts(now, origin))
        elif number == self.number:
            self.meet(now, it)
        elif isinstance(it, Request):
            self.requested(now, it, self.trusts(now, origin))
        elif not isinstance(it, AskPages):
            self.note(now, it, origin)
        elif self.held and self.answer_at is None and now >= self.quiet_until:
            self.answer_at = now + self.chance(SECOND // 2)
        self.ask_for(now)

    def take(self, now: int, it: Drawop, is_trusted: bool) -> None:
        is_forged = it.source == self.number and it.seq >= min(FIRST_FORGED, self.own_top(it.page) + MOST_ABOVE)
        if not is_trusted or is_forged or it.time > self.wall + now + DAY:
            return
        name = Name(it.source, it.page, it.seq)
        if not self.holds(name):
            self.keep(it)
        if any([self.requests.pop(name, None), self.repairs.pop(name, None)]):
            self.held_down[name] = now + HOLD_DOWNS * self.delay(it.source)

    def requested(self, now: int, it: Request, is_trusted: bool) -> None:
        name = Name(it.source, it.page, it.seq)
        timer = self.requests.get(name)
        if self.holds(name):
            if name not in self.repairs and self.held_down.get(name, now) <= now:
                delay = self.delay(it.asker)
                self.repairs[name] = RepairTimer(now + D1 * delay + self.chance(D2 * delay), delay)
        elif timer and is_trusted and (not timer.level or now - timer.since >= (timer.due - timer.since) // 2):
            self.set_request(now, name, timer.level + 1, self.delay(name.source))

    def note(self, now: int, it: Report, origin: Hashable) -> None:
        """A report, and the delay to its sender by the echo of ours."""
        if not self.is_believed(now, it, origin):
            return
        if isinstance(it, PageState):
            self.ask_at, self.answer_at, self.quiet_until = None, None, max(self.quiet_until, now + SECOND)
        else:
            self.heard[it.sender] = it.sent, now
            for echo in it.echoes:
                delay = delay_of(self.clock + now, echo.sent, echo.held) if echo.source == self.number else None
                if delay is not None:
                    self.delays[it.sender] = delay
        for mark in it.marks:
            if mark.source == self.number and (now >= self.listens_until or mark.high >= FIRST_FORGED):
                continue
            name = Name(mark.source, it.page, mark.high)
            self.know(name)
            if name in self.requests and self.requests[name].level >= OLD_LEVEL:
                self.set_request(now, name, 0, self.delay(mark.source))

    def meet(self, now: int, it: Union[Request, AskPages, Report]) -> None:
        """What names this member: its own, or that of a twin, whose session messages it echoes."""
        if isinstance(it, SessionMessage) and it.sent not in self.sent:
            self.heard[self.number] = it.sent, now
            self.has_twin |= self.is_echoed(now, it)

    def renumber(self) -> None:
        """Takes another number. What it drew stays, and its twin is now another member."""
        while self.number in self.heard:
            self.number = self.chance((1 << 32) - 1)
        self.has_twin = False

    # ---- who is a member

    def is_echoed(self, now: int, it: Report) -> bool:
        """Whether it has an echo of a moment of ours, which must not be held longer than there was time."""
        echoes = it.echoes if isinstance(it, SessionMessage) else ()
        ours = [(now - self.sent[echo.sent], echo.held) for echo in echoes if echo.source == self.number and echo.sent in self.sent]
        return any(ago <= FRESH and held <= ago + ago // 4_096 for ago, held in ours)

    def is_believed(self, now: int, it: Report, origin: Hashable) -> bool:
        """Learns who is a member. A number that has echoed us stays where it is."""
        is_echoed, (home, last) = self.is_echoed(now, it), self.homes.get(it.sender, (None, now))
        if is_echoed:
            self.members[origin] = now
        if is_echoed or home == origin:
            self.homes[it.sender] = origin, now
        return is_echoed or home in (None, origin) or now - last > HEARD

    def trusts(self, now: int, origin: Hashable) -> bool:
        return origin is None or now - self.members.get(origin, now - GONE - 1) <= GONE

    # ---- what it sends

    def delay(self, other: int) -> int:
        return self.delays.get(other, UNKNOWN_DELAY)

    def set_request(self, now: int, name: Name, level: int, delay: int) -> None:
        level = min(level, MOST_LEVEL)
        self.requests[name] = RequestTimer(level, delay, now, now + (C1 * delay << level) + self.chance(C2 * delay << level))

    def ask_for(self, now: int) -> None:
        """Request timers for what is missing, as many as may run. Each source has its share."""
        lacking = self.lacking()
        for page, source in lacking:
            for name in islice(self.missing(page, source), max(1, MOST_TIMERS // len(lacking))):
                if name not in self.requests and len(self.requests) < MOST_TIMERS:
                    self.set_request(now, name, 0, self.delay(source))

    def take_turn(self, now: int) -> None:
        """Starts one old timer anew, each in turn: who has asked in vain for long does not wait for hours."""
        old = sorted(name for name, timer in self.requests.items() if timer.level >= OLD_LEVEL)
        if old:
            self.turn = next((it for it in old if it > self.turn), old[0])
            self.set_request(now, self.turn, 0, self.delay(self.turn.source))

    def draw(self, now: int, page: Page, operation: Operation) -> bytes:
        """A new drawop of this member. None while it listens."""
        assert now >= self.listens_until, "it listens"
        last = max((it.time for it in self.held.get(page, {}).values()), default=-1)
        seq = self.tops.get(page, {}).get(self.number, 0) + 1
        drawop = Drawop(self.number, page, seq, max(self.wall + now, last + 1), operation)
        self.keep(drawop)
        return codec.write(drawop)

    def timer_due(self) -> Optional[int]:
        """When the next timer of a request or a repair fires."""
        return min([it.due for it in self.requests.values()] + [it.due for it in self.repairs.values()], default=None)

    def due(self) -> int:
        moments = [self.report_at, self.timer_due(), self.ask_at, self.answer_at]
        return min(moment for moment in moments if moment is not None)

    def tick(self, now: int) -> list[bytes]:
        """What is due."""
        sent: list[codec.Datagram] = []
        for name, timer in sorted(self.requests.items()):
            if timer.due <= now:
                self.set_request(now, name, timer.level + 1, timer.delay)
                sent.append(Request(self.number, *name))
        for name, repair in sorted(self.repairs.items()):
            if repair.due <= now:
                del self.repairs[name]
                self.held_down[name] = now + HOLD_DOWNS * repair.delay
                sent.append(self.held[name.page][name.source, name.seq])
        if self.answer_at is not None and self.answer_at <= now:
            pages = sorted(self.held)[:MOST_PAGES]
            self.answer_at, self.quiet_until = None, now + min(max(len(pages) * STATE_BYTES * SECOND // RATE, SECOND), LONGEST)
            sent += [PageState(self.number, page, self.marks(page)[:MOST_MARKS]) for page in pages]
        if self.ask_at is not None and self.ask_at <= now:
            self.ask_at = now + self.ask_wait // 2 + self.chance(self.ask_wait)
            self.ask_wait = min(2 * self.ask_wait, LONGEST)
            sent.append(AskPages(self.number))
        if self.report_at <= now:
            report = self.report(now)
            members = 1 + sum(now - came <= HEARD for _, came in self.heard.values())
            mean = min(max(members * len(codec.write(report)) * SECOND // RATE, SHORTEST), LONGEST)
            self.report_at = now + mean // 2 + self.chance(mean)
            self.take_turn(now)
            sent.append(report)
        return [codec.write(it) for it in sent]

    def echoed_in_turn(self, now: int) -> list[int]:
        """First those that have echoed us and are here, up to 24; the others have their turn, by number."""
        here = [other for other, (_, came) in self.heard.items() if other != self.number and now - came < HEARD]

        def turn(other: int) -> tuple[bool, bool, int]:
            return other not in here, other <= self.echoed, other

        firsts = sorted((other for other in here if other in self.delays), key=turn)[:MOST_FIRSTS]
        rest = sorted(self.heard.keys() - {self.number, *firsts}, key=turn)[: MOST_ECHOES - len(firsts)]
        self.echoed = max((other for other in rest if other in here), default=self.echoed)
        return firsts + rest

    def report(self, now: int) -> SessionMessage:
        """The rest of the page that was reported last, or else the next page, with its echoes."""
        page, last = self.reported
        left = [mark for mark in self.marks(page) if mark.source > last]
        if not left:
            pages = sorted(self.held) or [Page(0, 0)]
            page = next((it for it in pages if it > page), pages[0])
            left = list(self.marks(page))
        if left:
            self.reported = page, left[:MOST_MARKS][-1].source
        twin = [(other, it) for other, it in self.heard.items() if other == self.number and now - it[1] <= FRESH]
        others = [(other, self.heard[other]) for other in self.echoed_in_turn(now)]
        echoes = sorted(Echo(other, sent, now - came) for other, (sent, came) in others + twin)
        self.sent[self.clock + now] = now
        return SessionMessage(self.number, self.clock + now, page, tuple(left[:MOST_MARKS]), tuple(echoes))
