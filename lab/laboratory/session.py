"""A session in virtual time. Time moves to the next event, a datagram that comes or a timer that is due, and nothing is waited for.

Events are taken in windows as long as the least delay of a link. What happens within a window at one member can't reach another
in the same window, so all members are at work at once, and what comes of it does not hang on which is first. Each member is given what
happens to it in a window in its order, with a tick where its timer is due. A timer that is set in a window and due before the next thing
that happens there fires with that: at most a window late. No request or repair is, since no distance is shorter than a window.
"""
from __future__ import annotations

import heapq
import itertools
import random
from collections.abc import Callable
from dataclasses import dataclass, field
from typing import NamedTuple

from laboratory.hosts import PAGE, Arrival, Drawing, Fault, Happening, Joining, Member, Report
from laboratory.losses import Sending
from laboratory.measures import Book
from laboratory.network import Network
from laboratory.queues import Hop, Queues
from laboratory.reading import Datagram, Name, Read

WIDTH, HEIGHT = 100, 50
GLYPHS = "*#+o@x%&$=~^"
LOOKS = 64  # as many request timers a look lets stand, so whoever lacks more looks again
LONGEST_WINDOW = 100_000  # microseconds: hosts take this as the delay to a source of which nothing was told

Times = tuple[tuple[int, int], ...]


@dataclass(frozen=True)
class Plan:
    """What the members do. Moments are microseconds; `session` is the time between two session messages that a driver says, or 0.

    `away` tells between which moments a member is not there; one that is away at 0 joins late. `begins` tells whether members have
    something to do at 0. A session that `lasts` goes on to the last moment, also where nothing is lacking.
    """

    draws: list[tuple[int, int]]
    session: int
    until: int
    away: dict[int, Times] = field(default_factory=dict)
    begins: bool = False
    lasts: bool = False


class Event(NamedTuple):
    """Something that happens to members, or a datagram that comes to a node, which is nothing of a member's."""

    moment: int
    serial: int
    members: tuple[int, ...]
    what: str | Datagram | Hop


@dataclass
class Session:
    """The members at work, the network between them, and what was counted so far."""

    members: dict[int, Member]
    network: Network
    plan: Plan
    chance: random.Random
    read: Read
    queues: Queues | None = None
    watch: Callable[[int, Book], None] = lambda moment, book: None
    book: Book = field(default_factory=Book)
    now: int = 0

    def __post_init__(self) -> None:
        self.events: list[Event] = []
        self.serials = itertools.count()
        self.drawn = dict.fromkeys(self.members, 0)
        self.first_sent: set[Name] = set()
        self.first_copies: set[int] = set()  # events that bring a drawop for the first time, where members may go meanwhile
        self.due: list[tuple[int, int]] = []
        self.listed: dict[int, int] = {}
        self.arrived: dict[tuple[int, int], set[int]] = {}  # the numbers that came to a member, of a source
        self.waiting: dict[int, list[tuple[int, Happening]]] = {}  # what a host may be given later, in its order
        self.on_the_way = self.draws_left = 0
        self.last_return = max((until for times in self.plan.away.values() for _, until in times if until <= self.plan.until), default=0)
        self.window = min(self.network.least_delay(), LONGEST_WINDOW)
        for moment, source in self.plan.draws:
            self.draws_left += 1
            self.put(moment, (source,), "draw")
        for member in self.members:
            self.begin(member)

    def begin(self, member: int) -> None:
        """When a member joins, and says its first session message; when it comes again its timers are looked at."""
        times = self.plan.away.get(member, ())
        joined = times[0][1] if times and times[0][0] <= 0 else 0
        if joined or self.plan.begins:
            self.put(joined, (member,), "late" if joined else "join")
        for _, until in times[1 if joined else 0:]:
            self.put(until, (member,), "again")
        if self.plan.session:
            self.put(joined + self.chance.randrange(1, self.plan.session), (member,), "session")

    def put(self, moment: int, members: tuple[int, ...], what: str | Datagram | Hop) -> int:
        serial = next(self.serials)
        heapq.heappush(self.events, Event(moment, serial, members, what))
        return serial

    def is_there(self, member: int, moment: int) -> bool:
        return all(not start <= moment < end for start, end in self.plan.away.get(member, ()))

    def will_be_there(self, member: int, moment: int) -> bool:
        """Whether it is there then or later."""
        return all(not (start <= moment and end > self.plan.until) for start, end in self.plan.away.get(member, ()))

    def is_over(self) -> bool:
        """Every drawop was sent, no member that is there lacks one, and nothing but session messages is on its way."""
        return not (self.plan.lasts or self.draws_left or self.on_the_way or self.lacking() or self.now < self.last_return)

    def lacking(self) -> int:
        if not self.plan.away:
            return self.book.outstanding
        return sum(count for member, count in self.book.lacking.items() if self.is_there(member, self.now))

    def run(self) -> None:
        """Runs to the end of the session, or to the last moment of the plan."""
        while (start := self.first_moment()) is not None and start <= self.plan.until:
            self.now = start
            self.take(start, start + self.window)
            self.watch(start, self.book)
            if self.is_over():
                return

    # ---- timers

    def first_moment(self) -> int | None:
        while self.due and not self.is_listed(*self.due[0]):
            heapq.heappop(self.due)
        moments = [*(event[0] for event in self.events[:1]), *(moment for moment, _ in self.due[:1])]
        return min(moments, default=None)

    def list_due(self, number: int) -> None:
        """Puts a member that is there on the list of those with a timer."""
        due = self.members[number].due
        if due is not None and self.listed.get(number) != due and self.is_there(number, due):
            self.listed[number] = due
            heapq.heappush(self.due, (due, number))

    def is_listed(self, due: int, number: int) -> bool:
        return self.listed.get(number) == due == self.members[number].due

    def take_due(self, end: int) -> list[int]:
        """Takes the members with a timer before a moment off the list."""
        numbers = []
        while self.due and self.due[0][0] < end:
            due, number = heapq.heappop(self.due)
            if self.is_listed(due, number):
                del self.listed[number]
                numbers.append(number)
        return numbers

    # ---- a window

    def take(self, start: int, end: int) -> None:
        """Takes all that happens between two moments, and sends what comes of it."""
        agenda: dict[int, list[tuple[int, Happening]]] = {number: [] for number in self.take_due(end)}
        while self.events and self.events[0].moment < end:
            self.happens(heapq.heappop(self.events), agenda)
        numbers = busy = [number for number in sorted(agenda) if not self.waits(number, agenda[number], end)]
        sent: list[tuple[int, int, str | Datagram]] = []
        while busy:
            for number in busy:
                self.members[number].give([*self.waiting.pop(number, []), *agenda.pop(number, [])], start, end)
            for number in busy:
                sent += [(moment, number, what) for moment, what in self.members[number].take()]
            busy = [number for number in busy if self.is_due_before(number, end)]
        for number in numbers:
            self.list_due(number)
        self.send_all(sorted(sent, key=lambda entry: entry[:2]))

    def waits(self, number: int, happenings: list[tuple[int, Happening]], end: int) -> bool:
        """Puts off what a host does nothing by until it has something to do: fewer turns of the processes, and the same lines."""
        if not happenings or self.is_due_before(number, end) or not all(isinstance(what, Arrival) and what.can_wait for _, what in happenings):
            return False
        self.waiting.setdefault(number, []).extend(happenings)
        return True

    def is_due_before(self, number: int, end: int) -> bool:
        due = self.members[number].due
        return due is not None and due < end and self.is_there(number, due)

    def happens(self, event: Event, agenda: dict[int, list[tuple[int, Happening]]]) -> None:
        """Puts an event on the agenda of its members that are there."""
        moment, serial, members, what = event
        if isinstance(what, Hop):
            return self.pass_on(moment, what, agenda)
        if isinstance(what, Datagram):
            self.on_the_way -= what.kind != "session"
            if serial in self.first_copies and what.name:
                self.book.begins(what.name, moment, [m for m in members if not self.is_there(m, moment) and self.will_be_there(m, moment)])
        elif what == "draw":
            self.draws_left -= 1
        for member in members:
            if self.is_there(member, moment):
                happening = self.arrival(member, moment, what) if isinstance(what, Datagram) else self.own(member, moment, what)
                agenda.setdefault(member, []).extend([(moment, happening)] if happening else [])

    def own(self, member: int, moment: int, what: str) -> Happening | None:
        """What a member does by itself; one that comes again has at most its timers to look at."""
        if what == "draw":
            return self.drawing(member)
        if what == "session":
            self.put(moment + self.plan.session, (member,), "session")
            return Report()
        if what in ("late", "again"):
            self.book.joins(member, moment)
        return None if what == "again" else Joining(what == "late")

    def drawing(self, source: int) -> Drawing:
        self.drawn[source] += 1
        x, y, glyph = self.chance.randrange(WIDTH), self.chance.randrange(HEIGHT), GLYPHS[source % len(GLYPHS)]
        to_x, to_y = self.chance.randrange(WIDTH), self.chance.randrange(HEIGHT)
        return Drawing(self.drawn[source], f"line {x} {y} {to_x} {to_y} {glyph}")

    def arrival(self, member: int, moment: int, datagram: Datagram) -> Arrival:
        """A datagram comes, and a member may learn of drawops that it lacks."""
        book = self.book
        book.deliveries += 1
        if datagram.kind == "drawop" and datagram.name:
            book.comes(member, datagram.name, moment)
            self.arrived.setdefault((member, datagram.name[0]), set()).add(datagram.name[1])
        missed: list[Name] = []
        for source, number in datagram.marks:
            if source != member:
                missed += book.learns(member, source, number, moment)
        is_looked = bool(missed) or (datagram.kind == "drawop" and book.lacking[member] >= LOOKS)
        can_wait = self.plan.begins and datagram.kind == "session" and not missed and not book.lacking[member] and self.has(member, datagram)
        return Arrival(datagram, tuple(missed), is_looked, can_wait)

    def has(self, member: int, datagram: Datagram) -> bool:
        """Whether a member that lacks nothing has all that a report tells of."""
        return all(source == member or number in self.arrived.get((member, source), ()) for source, number in datagram.marks)

    # ---- the network

    def send_all(self, sent: list[tuple[int, int, str | Datagram]]) -> None:
        digits = [what for _, _, what in sent if isinstance(what, str)]
        read = iter(self.read(digits)) if digits else iter(())
        for moment, sender, what in sent:
            self.send(moment, sender, what if isinstance(what, Datagram) else next(read))

    def send(self, moment: int, sender: int, datagram: Datagram) -> None:
        """Puts a datagram on its way to all others that are there."""
        first = datagram.kind == "drawop" and datagram.name not in self.first_sent
        sending = Sending(sender, moment, datagram.name[1] if first and datagram.name else 0)
        if first and datagram.name:
            self.first_sent.add(datagram.name)
        absent = [m for m in self.members if m != sender and not self.is_there(m, moment)] if first and self.plan.away else []
        if self.queues:
            self.book.sends(datagram, moment, first, absent)
            return self.put_hop(moment, self.queues.enter(sending, datagram))
        given, missing = self.network.receivers(sending)
        lost = sorted({*absent, *missing}) if first else []
        self.book.sends(datagram, moment, first, [member for member in lost if self.will_be_there(member, moment)])
        for delay, members in given:
            if first and absent:
                members = tuple(member for member in members if member not in absent)
            serial = self.put(moment + delay, members, datagram)
            if first and self.plan.away:
                self.first_copies.add(serial)
            self.on_the_way += datagram.kind != "session"

    def put_hop(self, moment: int, hop: Hop) -> None:
        self.put(moment, (), hop)
        self.on_the_way += hop.datagram.kind != "session"

    def pass_on(self, moment: int, hop: Hop, agenda: dict[int, list[tuple[int, Happening]]]) -> None:
        """A datagram at a node: it comes to the member there, and goes on over the other links, as their queues let it."""
        assert self.queues
        datagram = hop.datagram
        self.on_the_way -= datagram.kind != "session"
        member = self.network.member_at.get(hop.node)
        if member and hop.link is not None and self.is_there(member, moment):
            agenda.setdefault(member, []).append((moment, self.arrival(member, moment, datagram)))
        onward, lost = self.queues.pass_on(moment, hop)
        self.book.dropped += len(lost)
        if hop.is_first and datagram.name:
            there = [m for m in lost if self.is_there(m, moment) and not self.book.is_lacking(m, datagram.name)]
            self.book.begins(datagram.name, moment, there)
        for arrival, next_hop in onward:
            self.put_hop(arrival, next_hop)

    # ---- the end

    def compare(self) -> None:
        """Holds the canvases, reports and digests of all members that are there at the end to be equal, and to lack nothing."""
        if lacking := self.lacking():
            raise Fault(f"members still lack drawops at {self.now} microseconds: {lacking} in all")
        there = [member for number, member in self.members.items() if self.is_there(number, self.now)]
        for member in there:
            member.give(self.waiting.pop(member.number, []), self.now, 0)
            member.take()
        for question in (f"show {PAGE} {WIDTH} {HEIGHT}", f"report {PAGE}", f"digest {PAGE}", f"gaps {PAGE}"):
            answers = [member.answer(question) for member in there]
            for member, answer in zip(there, answers):
                if answer != answers[0]:
                    raise Fault(f"members {there[0].number} and {member.number} answer '{question}' differently at the end")
