"""What a self-managing host asks for while it lacks much: sessions of the model of its policy, in simulated time, of which it is known after each call
what is asked for."""

from __future__ import annotations

import heapq
import itertools
import random
from dataclasses import dataclass, field
from typing import Iterator

from . import datagrams
from .datagrams import Page, Words
from .model import Drawop, Model, Name
from .policy import NAMES, REACH, SECOND, STRANGERS, AskPages, Datagram, Kept, Message, Request, State

PAGE: Page = (7, 1)
RATE = 4_000
LATE = 10_000  # microseconds, at most, of a tick
LASTS = 120 * SECOND


def read(digits: str) -> Datagram:
    """What a datagram says that the model sent."""
    data = bytes.fromhex(digits)
    kind, words = data[3], iter(data[8:])

    def number(size: int) -> int:
        return int.from_bytes(bytes(itertools.islice(words, size)), "big")

    def page() -> Page:
        return number(4), number(4)

    def marks() -> list[tuple[int, int]]:
        return [(number(4), number(4)) for _ in range(number(2))]

    if kind == datagrams.DRAWOP:
        return Drawop(Name(number(4), page(), number(4)), number(8), bytes(words), "*")
    sender = number(4)
    if kind == datagrams.SESSION:
        return Message(sender, number(8), page(), marks(), [(number(4), number(8), number(8)) for _ in range(number(2))])
    if kind == datagrams.REQUEST:
        return Request(sender, Name(number(4), page(), number(4)))
    return AskPages(sender) if kind == datagrams.ASK_PAGES else State(sender, page(), marks())


@dataclass
class Seen:
    """What is seen of the host that lacks much, after each call."""

    least: int = NAMES  # of the names that it asks for, once one came, while it lacks 64 below its tops
    idle: list[Name] = field(default_factory=list)  # these came, were asked for, and led to no request
    alone: list[Name] = field(default_factory=list)  # these came, and a neighbour is not asked for, though fewer than 48 names are
    unfilled: list[int] = field(default_factory=list)  # after a call at this time it asked for fewer names than it has places, and not for all that it lacked


@dataclass
class Watched(Model):
    """A host that tells how often it asks for a name, and how many it gives up before their timers were backed off."""

    early: int = 0
    asks: int = 0

    def ask(self, name: Name) -> str:
        self.asks += 1
        return super().ask(name)

    def stop(self, name: Name) -> str:
        ask = self.timers_of(name).ask
        self.early += ask is not None and ask.level == 0
        return super().stop(name)


class Joining:
    """Two hosts hold all, and a third one is watched, which nothing has come to yet but what it holds at first. What one sends reaches each other one
    within `delay`. It has so many places."""

    def __init__(self, names: list[Name], delay: int, seed: int, held: frozenset[Name] = frozenset(), places: int = STRANGERS) -> None:
        self.random, self.delay, self.now = random.Random(seed), delay, 0
        self.names, self.places = set(names), places
        self.order = itertools.count()
        self.events: list[tuple[int, int, int, Datagram]] = []
        self.models = [Watched(place + 1, 2 * len(names), Words(seed + place)) for place in range(3)]
        self.hosts = [Kept(model, RATE, 0, Words(seed + place, 55)) for place, model in enumerate(self.models)]
        self.calls = [0, 0, 0]
        for model in self.models[:2]:
            model.held = {name: self.drawop(name) for name in names}
        self.models[2].held = {name: self.drawop(name) for name in held}
        self.newcomer, self.seen = self.hosts[2], Seen()
        self.lacked = self.lacked_first = frozenset(names) - held

    @staticmethod
    def drawop(name: Name) -> Drawop:
        return Drawop(name, 5, datagrams.line(0, 0, 1, 1, "x"), "*")

    def is_whole(self) -> bool:
        return self.names <= set(self.newcomer.host.held)

    def step(self) -> None:
        """The next datagram that comes, or the tick of a host that has something to do."""
        place = self.calls.index(min(self.calls))
        if self.events and self.events[0][0] < self.calls[place]:
            self.now, _, place, datagram = heapq.heappop(self.events)
            self.hear(place, datagram)
        else:
            self.now = self.calls[place]
            self.say(place, self.hosts[place].tick(self.now))

    def say(self, place: int, block: str) -> None:
        self.calls[place] = max(self.now, self.hosts[place].due()) + self.random.randrange(LATE)
        if self.hosts[place] is self.newcomer:
            self.count()
        for line in block.splitlines():
            for other in range(3):
                if line.startswith("send ") and other != place:
                    moment = self.now + self.random.randrange(self.delay)
                    heapq.heappush(self.events, (moment, next(self.order), other, read(line.removeprefix("send "))))

    def hear(self, place: int, datagram: Datagram) -> None:
        host = self.hosts[place]
        is_new = isinstance(datagram, Drawop) and datagram.name not in host.host.held
        was_asked = isinstance(datagram, Drawop) and host.level(datagram.name) >= 0
        self.say(place, host.came(self.now, datagram))
        if host is self.newcomer and is_new and isinstance(datagram, Drawop):
            self.look(datagram.name, was_asked)

    def look(self, name: Name, was_asked: bool) -> None:
        asked, missing = set(self.newcomer.asked()), set(self.missing())
        near = {other for other in missing if other[:2] == name[:2] and abs(other.seq - name.seq) <= REACH}
        if was_asked and missing and not missing & asked:
            self.seen.idle.append(name)
        if not near <= asked and len(asked) < STRANGERS:
            self.seen.alone.append(name)
        if len(missing) >= NAMES:
            self.seen.least = min(self.seen.least, len(asked))

    def count(self) -> None:
        """Whether its places are filled, from the first drawop on that came."""
        self.lacked -= frozenset(self.newcomer.host.held)
        asked = self.lacked & frozenset(self.newcomer.asked())
        if self.lacked < self.lacked_first and asked != self.lacked and len(asked) < self.places:
            self.seen.unfilled.append(self.now)

    def missing(self) -> Iterator[Name]:
        """What it lacks below its tops."""
        for page, source, first, last in self.newcomer.holes():
            yield from (Name(source, page, number) for number in range(first, last + 1))


def joined(names: list[Name], delay: int, seed: int, held: frozenset[Name] = frozenset(), places: int = STRANGERS) -> Joining:
    session = Joining(names, delay, seed, held, places)
    while session.now < LASTS and not session.is_whole():
        session.step()
    return session


def row(source: int, last: int) -> list[Name]:
    return [Name(source, PAGE, number) for number in range(1, last + 1)]


def test_places() -> None:
    """While a newcomer lacks 64 names or more below its tops, it asks for 48 or more after each that came. After each call, once it holds something, it asks
    for all that it lacks, or for 48. Some are given up before their timers were backed off, since one that came pays for two: so places are filled, and
    names are not kept."""
    sessions = [joined(row(900, 300), 50_000, seed) for seed in (1, 2)] + [joined(row(900, 150) + row(901, 150), 50_000, 3)]
    for session in sessions:
        print(f"whole after {session.now / SECOND:.1f} s, {session.seen.least} names or more, asked {session.models[2].asks} times, {session.models[2].early} given up early")
    assert all(session.is_whole() for session in sessions)
    assert max(session.models[2].asks for session in sessions) <= 450, "at most one and a half times as often as it lacks names"
    assert [session.seen.idle + session.seen.alone for session in sessions] == [[], [], []]
    assert min(session.seen.least for session in sessions) >= STRANGERS
    assert [session.seen.unfilled for session in sessions[:2]] == [[], []]
    assert max(session.models[2].early for session in sessions) > 0


def test_two_places() -> None:
    """A host that lacks single names among others asks for two, or for all that it lacks, from the first on that came. Then few timers run, and no name is
    given up before its timer was backed off."""
    names, sessions = row(900, 300), []
    for seed in (1, 2):
        lost = set(random.Random(seed).sample(names[:-1], 40))
        sessions.append(joined(names, 50_000, seed, frozenset(names) - lost, 2))
        print(f"whole after {sessions[-1].now / SECOND:.1f} s, {sessions[-1].models[2].early} given up early")
    assert [(session.is_whole(), session.seen.unfilled, session.models[2].early) for session in sessions] == [(True, [], 0)] * 2
    assert max(session.models[2].asks for session in sessions) <= 60, "at most one and a half times as often as it lacks names"
