"""A self-managing host, in plain Python, from docs/PROTOCOL.md and docs/KEEPING.md: what each of its lines prints. It stands on the host of
`model`, whose driver judges."""

from __future__ import annotations

from collections.abc import Iterator
from contextlib import contextmanager
from dataclasses import dataclass, field
from typing import Optional, Union

from . import datagrams
from .datagrams import Echo, Mark, Page, Words
from .model import UNKNOWN_DELAY, Drawop, Model, Name

SECOND = 1_000_000
COST = 250_000
NAMES = 64
BEFORE_TURNS = 56  # turns pass over what is asked for while fewer timers that are not old run
STRANGERS = 48  # places of the credit for neighbours of what came, where their source told no delay
REACH = 64
STRIDE = 19
WINDOW = 64
OLD = 4
SHORTEST_GAP, LONGEST_GAP = SECOND, 16 * SECOND  # from one turn to the next
STEADINESS = 128
ECHOES = 32
FIRSTS = 24  # echoes of members that have answered, before the others have their turn
MARKS = 64
PAGES = 64
STATE_BYTES = 534  # the most of a page state
LONGEST_PAUSE = 64 * SECOND
OURS = 1 << 31
AHEAD = 2 * 86_400 * SECOND
GONE = 192 * SECOND
NOWHERE: Page = (0, 0)


@dataclass(frozen=True)
class Message:
    sender: int
    sent: int
    page: Page
    marks: list[Mark]
    echoes: list[Echo]


@dataclass(frozen=True)
class State:
    sender: int
    page: Page
    marks: list[Mark]


@dataclass(frozen=True)
class Request:
    asker: int
    name: Name


@dataclass(frozen=True)
class AskPages:
    asker: int


Datagram = Union[Drawop, Message, State, Request, AskPages]


def digits_of(datagram: Datagram) -> str:
    match datagram:
        case Drawop():
            return datagram.digits()
        case Message(sender, sent, page, marks, echoes):
            return datagrams.session(sender, sent, page, marks, echoes)
        case State(sender, page, marks):
            return datagrams.page_state(sender, page, marks)
        case Request(asker, name):
            return datagrams.request(asker, *name)
        case AskPages(asker):
            return datagrams.ask_pages(asker)
    raise TypeError(datagram)


class Refused(Exception):
    """Why a line is refused."""


@dataclass
class Kept:
    """A host, and what its policy remembers."""

    host: Model
    rate: int
    listen: int
    words: Words
    ready: int = 0
    report_at: int = 0
    ask_at: Optional[int] = None
    wait: int = SECOND
    answer_at: Optional[int] = None
    quiet: int = 0
    told_page: Page = NOWHERE
    told: int = -1
    until: int = 0
    in_turn: bool = False
    echoed: int = 0
    looked: tuple[Page, int, int] = (NOWHERE, 0, 0)
    round: int = 0
    step: int = 0
    leapt: tuple[Page, int, int] = (NOWHERE, 0, 0)
    leaps: int = 0
    owed: int = 0
    usual: int = 20_000
    turn_at: int = 0
    gap: int = SHORTEST_GAP
    sent: list[str] = field(default_factory=list)

    def __post_init__(self) -> None:
        self.ready = self.host.now + self.listen
        self.report_at = self.host.now + self.word(SECOND)
        self.ask_at = self.host.now + self.word(SECOND // 5)
        self.turn_at = self.host.now + SHORTEST_GAP

    def word(self, most: int) -> int:
        return self.words.next() % (most + 1)

    def due(self) -> int:
        moments = [self.report_at, self.turn_at, self.ask_at, self.answer_at]
        timers = self.host.due()
        return min([moment for moment in moments if moment is not None] + ([] if timers == "never" else [int(timers)]))

    # ---- the lines

    def tick(self, now: int) -> str:
        self.check(now)
        self.begin(now)
        self.timed()
        return self.said()

    def came(self, now: int, datagram: Datagram) -> str:
        self.check(now)
        if isinstance(datagram, Drawop) and self.is_forged_of_ours(datagram.name) and datagram.name not in self.host.held:
            raise Refused("ours")
        self.begin(now)
        batch = self.hears(datagram)
        self.timed()
        return self.said() + batch

    def add(self, now: int, time: int, page: Page, operation: bytes, told: str) -> str:
        self.check(now)
        if now < self.ready:
            raise Refused("listening")
        number = int(self.host.next(page).split()[1])
        own = datagrams.number(self.host.me, 4) + datagrams.number(number, 4)
        if operation[0] in (4, 5) and operation[1:] == own:
            raise Refused("word 6: target is the drawop itself")
        self.begin(now)
        near = [drawop.time for drawop in self.host.held.values() if drawop.name.page == page and drawop.time < time + AHEAD]
        later = min(max([time, *(other + 1 for other in near)]), 2**64 - 1)
        name = Name(self.host.me, page, number)
        if self.host.timers_of(name).ask is not None:
            self.repay()
        printed = self.host.say(Drawop(name, later, operation, told))
        batch = printed if printed.startswith("batch") else ""
        self.sent.append(printed.removeprefix(batch))
        if self.is_full():
            self.end()
        self.timed()
        return self.said() + batch

    def check(self, now: int) -> None:
        if now < self.host.now:
            raise Refused("back in time")

    def begin(self, now: int) -> None:
        self.sent = [self.host.tick(now)]

    def said(self) -> str:
        return "".join(self.sent)

    def is_full(self) -> bool:
        return len(self.host.held) >= self.host.cells

    def is_forged_of_ours(self, name: Name) -> bool:
        return name.source == self.host.me and name.seq >= OURS

    # ---- what came

    def hears(self, datagram: Datagram) -> str:
        """What becomes of it: the batch of a drawop, and else nothing."""
        me = self.host.me
        match datagram:
            case Drawop(name):
                was_asked = self.host.timers_of(name).ask is not None
                batch = self.host.arrive(datagram)
                if batch.startswith("batch 1"):
                    self.learned(name, was_asked)
                return batch
            case Message(sender, sent, page, marks, echoes) if sender != me:
                self.host.session_message(sender, sent, page, self.own(marks), [echo for echo in echoes if echo[0] == me])
                self.measure(sender, echoes)
                self.heed(page, marks)
            case State(sender, page, marks) if sender != me:
                if self.own(marks):
                    self.host.page_state(sender, page, self.own(marks))
                self.ask_at = self.answer_at = None
                self.quiet = max(self.quiet, self.host.now + SECOND)
                self.heed(page, marks)
            case Request(asker, name) if asker != me:
                with self.lent(asker if name in self.host.held else name.source):
                    self.host.request(asker, name)
            case AskPages(asker) if asker != me:
                if self.answer_at is None and self.quiet <= self.host.now and self.host.held:
                    self.answer_at = self.host.now + self.word(SECOND // 2)
        return ""

    def own(self, marks: list[Mark]) -> list[Mark]:
        """The own marks that are believed: while it listens, those below 2^31."""
        return [mark for mark in marks if mark[0] == self.host.me and mark[1] < OURS and self.host.now < self.ready]

    def measure(self, sender: int, echoes: list[Echo]) -> None:
        """An echo tells a delay, which is bounded, and goes into the usual one."""
        for source, sent, held in echoes:
            now = self.host.now
            if source == self.host.me and sent + held <= now and (now - sent - held) // 2 < 2**24:
                near = min(max((now - sent - held) // 2, 10_000), SECOND)
                near += near == UNKNOWN_DELAY
                self.host.delays[sender] = near
                self.usual = (7 * self.usual + near) // 8

    @contextmanager
    def lent(self, source: int) -> Iterator[None]:
        """The usual delay stands in for that to a source which told none."""
        is_lent = self.host.delay(source) == UNKNOWN_DELAY
        if is_lent:
            self.host.delays[source] = self.usual
        yield
        if is_lent:
            self.host.delays[source] = UNKNOWN_DELAY

    def heed(self, page: Page, marks: list[Mark]) -> None:
        """Who reports a number holds it."""
        for source, high in marks:
            name = Name(source, page, high)
            if not self.is_forged_of_ours(name):
                self.want(name, True)

    def learned(self, name: Name, was_asked: bool) -> None:
        """A drawop is new: its neighbours are wanted, and if it was asked for, a name far from it and one that has its turn."""
        if self.is_full():
            self.end()
            return
        if was_asked:
            self.repay()
            self.gap = SHORTEST_GAP
        top = dict(self.host.highest(name.page))[name.source]
        around = [number for far in range(1, REACH + 1) for number in (name.seq + far, name.seq - far)]
        near = [Name(name.source, name.page, number) for number in around if 1 <= number < top]
        self.want_near(near)
        if was_asked:
            self.leaps_past()
            self.turns_past()

    def want_near(self, names: list[Name]) -> None:
        for name in names:
            if self.is_unasked(name) and not self.want(name, False):
                return

    def is_unasked(self, name: Name) -> bool:
        return name not in self.host.held and self.host.timers_of(name).ask is None

    # ---- what is asked for

    def asked(self) -> list[Name]:
        return sorted(name for name, timers in self.host.timers.items() if timers.ask)

    def repay(self) -> None:
        """What was asked for and came or was drawn pays for two."""
        self.owed = max(0, self.owed - 2 * COST)

    def want(self, name: Name, anew: bool) -> bool:
        """Asks for a name where it may. Whether it does."""
        owed = max(self.owed, self.host.now)
        ahead, asked = owed - self.host.now, self.asked()
        places = NAMES if anew or self.host.delay(name.source) != UNKNOWN_DELAY else STRANGERS
        if name in self.host.held or self.is_full() or ahead > (places - 1) * COST:
            return False
        # One old timer may give way to another, or start anew, if less is owed than stands asked.
        is_covered = ahead <= (len(asked) - 1) * COST
        if name in asked:
            if not (anew and self.level(name) >= OLD and is_covered):
                return False
            self.host.stop(name)
        elif asked:
            oldest = min(asked, key=lambda other: (-self.level(other), other))
            if len(asked) >= NAMES or (self.level(oldest) >= OLD and is_covered):
                self.host.stop(oldest)
        with self.lent(name.source):
            self.host.ask(name)
        self.owed = owed + COST
        return True

    def level(self, name: Name) -> int:
        ask = self.host.timers_of(name).ask
        return ask.level if ask else -1

    def end(self) -> None:
        """A full board asks for nothing."""
        for name in self.asked():
            self.host.stop(name)

    def holes(self) -> list[tuple[Page, int, int, int]]:
        """The missing ranges below what is held, ascending by page, source and number: page, source, first, last."""
        host = self.host
        return [(page, *hole) for page in host.drawn_on() for hole in host.missing_below(page, host.highest(page))]

    def hole_behind(self, place: tuple[Page, int, int]) -> Optional[tuple[Page, int, int, int]]:
        return next((hole for hole in self.holes() if hole[:3] > place), None)

    def leaps_past(self) -> None:
        """Leaps, up to the first name that is asked for."""
        any(self.leap() for _ in range(NAMES + 1))

    def leap(self) -> bool:
        """One name of the next hole is wanted, 19 numbers on in each round. Whether it is asked for."""
        hole = self.hole_behind(self.leapt)
        if hole is None:
            self.leaps, self.leapt = (self.leaps + 1) % 2**32, (NOWHERE, 0, 0)
            hole = self.hole_behind(self.leapt)
        if hole is None:
            return False
        page, source, first, last = hole
        self.leapt = page, source, last
        return self.want(Name(source, page, first + STRIDE * self.leaps % (last - first + 1)), True)

    def turns_past(self) -> None:
        """Turns, up to the first name that is asked for, if a place of the credit is left and few timers that are not old run."""
        young = sum(self.level(name) < OLD for name in self.asked())
        if max(self.owed, self.host.now) - self.host.now <= (NAMES - 1) * COST and young < BEFORE_TURNS:
            any(self.turn() for _ in range(NAMES + 1))

    def turn(self) -> bool:
        """The next name of the window of a hole is wanted. Whether it is asked for."""
        hole = self.hole_behind(self.looked)
        if hole is None:
            self.round, self.looked, self.step = (self.round + 1) % 2**32, (NOWHERE, 0, 0), 0
            hole = self.hole_behind(self.looked)
        if hole is None:
            return False
        page, source, first, last = hole
        number = first + WINDOW * (self.round % ((last - first) // WINDOW + 1)) + self.step
        self.step += 1
        if self.step >= WINDOW or number >= last:
            self.looked, self.step = (page, source, last), 0
        return self.want(Name(source, page, min(number, last)), True)

    # ---- what is due

    def timed(self) -> None:
        now = self.host.now
        if self.answer_at is not None and self.answer_at <= now:
            pages = self.host.drawn_on()[:PAGES]
            paid = len(pages) * STATE_BYTES * SECOND // self.rate
            self.answer_at, self.quiet = None, now + min(max(paid, SECOND), LONGEST_PAUSE)
            for page in pages:
                self.send(datagrams.page_state(self.host.me, page, self.host.highest(page)[:MARKS]))
        if self.ask_at is not None and self.ask_at <= now:
            self.send(datagrams.ask_pages(self.host.me))
            self.ask_at = now + self.wait // 2 + self.word(self.wait)
            self.wait = min(2 * self.wait, 64 * SECOND)
        if self.report_at <= now:
            self.report()
        if self.turn_at <= now:
            self.gap = min(max(self.gap, SHORTEST_GAP), LONGEST_GAP)
            self.turn_at = now + self.gap
            self.gap += self.gap // STEADINESS
            self.turn()

    def send(self, digits: str) -> None:
        self.sent.append(f"send {digits}\n")

    def report(self) -> None:
        """What is in turn, and the next time what changed last."""
        now, newest = self.host.now, next(reversed(self.host.held), None) if self.in_turn else None
        page, marks = self.marks_with(newest) if newest else self.marks_in_turn()
        self.in_turn = newest is None
        echoes = self.echoes()
        self.send(datagrams.session(self.host.me, now, page, marks, echoes))
        members = 1 + sum(now - at < GONE for _, at in self.host.senders.values())
        size = 32 + 8 * len(marks) + 20 * len(echoes)
        mean = min(max(members * size * SECOND // self.rate, 2 * SECOND), 64 * SECOND)
        self.report_at = now + mean // 2 + self.word(mean)

    def marks_with(self, name: Name) -> tuple[Page, list[Mark]]:
        """The first marks of the page of a name, or those from its source on, if it is not among these."""
        whole = self.host.highest(name.page)
        is_among = name.source in [source for source, _ in whole[:MARKS]]
        return name.page, whole[:MARKS] if is_among else [mark for mark in whole if mark[0] >= name.source][:MARKS]

    def marks_in_turn(self) -> tuple[Page, list[Mark]]:
        """The rest of the page that is being reported, or the next page."""
        pages = self.host.drawn_on()
        page, is_telling = self.told_page, 0 <= self.told < self.until
        marks = [mark for mark in self.host.highest(page) if mark[0] > self.told][:MARKS] if is_telling else []
        if not marks:
            page = next((other for other in pages if other > page), pages[0] if pages else NOWHERE)
            whole = self.host.highest(page)
            marks, self.until = whole[:MARKS], whole[-1][0] if whole else 0
        self.told_page, self.told = page, marks[-1][0] if marks else -1
        return page, marks

    def echoes(self) -> list[Echo]:
        """First those that have answered and are here, 24 at most; then the others that are here, and those that are gone, in turn."""
        held = {sender: self.host.now - at for sender, (_, at) in self.host.senders.items()}

        def turn(sender: int) -> tuple[bool, int]:
            return sender <= self.echoed, sender

        answered = [sender for sender in held if held[sender] < GONE and self.host.delay(sender) != UNKNOWN_DELAY]
        firsts = sorted(answered, key=turn)[:FIRSTS]
        others = sorted(held.keys() - firsts, key=lambda sender: (held[sender] >= GONE, turn(sender)))[: ECHOES - len(firsts)]
        self.echoed = max((sender for sender in others if held[sender] < GONE), default=self.echoed)
        return [(sender, self.host.senders[sender][0], held[sender]) for sender in sorted([*firsts, *others])]
