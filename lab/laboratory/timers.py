"""Members that are timers alone, reckoned here: what `wb host` does with requests and repairs if its driver judges, without the host.

With the same seeds they send what hosts send, at the same moments, also where constants follow the session, which `tests/lab` holds them
to. They take a tenth of the time, and are for groups of hundreds.
"""
from __future__ import annotations

from collections.abc import Callable, Sequence
from dataclasses import dataclass, field

from laboratory.adapting import Policy
from laboratory.driving import QUIET, UNKNOWN_DELAY
from laboratory.hosts import Arrival, Drawing, Happening, Sent
from laboratory.reading import Datagram, Name

MASK = (1 << 64) - 1
MOST_LEVEL = 16
DRAWOP_SIZE, REQUEST_SIZE = 42, 28  # bytes of a drawop that is a line, and of a request


class Words:
    """The random words of a host: PCG XSH RR 64/32 on stream 54, two of its words each, the low half first."""

    def __init__(self, seed: int) -> None:
        self.step = 54 << 1 | 1
        self.state = (seed + self.step) * 6364136223846793005 + self.step & MASK

    def half(self) -> int:
        old = self.state
        self.state = old * 6364136223846793005 + self.step & MASK
        mixed, turn = ((old >> 18 ^ old) >> 27) & 0xFFFFFFFF, old >> 59
        return (mixed >> turn | mixed << (-turn & 31)) & 0xFFFFFFFF

    def word(self) -> int:
        low = self.half()
        return low | self.half() << 32


@dataclass
class Ask:
    level: int
    due: int
    deaf: int
    delay: int


@dataclass
class TimerMember:
    """A member with its timers. `far` gives the delay to another member."""

    number: int
    words: Words
    policy: Policy
    far: Callable[[int, int], int]
    due: int | None = None
    last_new: int = 0
    held: set[Name] = field(default_factory=set)
    asks: dict[Name, Ask] = field(default_factory=dict)
    answers: dict[Name, tuple[int, int]] = field(default_factory=dict)  # when a repair is due, and the delay to the asker
    quiet: dict[Name, int] = field(default_factory=dict)
    sent: list[Sent] = field(default_factory=list)
    ticked: int = -1

    def give(self, happenings: list[tuple[int, Happening]], start: int, end: int) -> None:
        due = None if self.due is None or self.due >= end else max(self.due, self.ticked, start)
        for moment, happening in happenings:
            if due is not None and due <= moment:
                self.tick(due)
                due = None
            if self.ticked != moment:
                self.tick(moment)
            self.happens(moment, happening)
        if due is not None:
            self.tick(due)
        moments = [ask.due for ask in self.asks.values()] + [due for due, _ in self.answers.values()]
        self.due = min(moments, default=None)

    def take(self) -> list[Sent]:
        sent, self.sent = self.sent, []
        return sent

    def answer(self, question: str) -> list[str]:
        return [f"{source} {number}" for source, number in sorted(self.held)] if question.startswith("report") else []

    def close(self) -> None:
        """Nothing is left open."""

    def delay(self, other: int) -> int:
        return UNKNOWN_DELAY if other == self.number else self.far(self.number, other)

    def happens(self, moment: int, happening: Happening) -> None:
        match happening:
            case Drawing(number, _):
                name = self.number, number
                self.held.add(name)
                self.send(moment, "drawop", name)
            case Arrival(datagram, missed, _):
                if datagram.name and datagram.kind == "request":
                    self.hear(moment, datagram.author, datagram.name)
                elif datagram.name:
                    self.arrives(moment, datagram.name)
                for name in missed:
                    self.notice(moment, name)

    def send(self, moment: int, kind: str, name: Name) -> None:
        is_drawop = kind == "drawop"
        author = name[0] if is_drawop else self.number
        self.sent.append((moment, Datagram(kind, author, name, (name,) if is_drawop else (), DRAWOP_SIZE if is_drawop else REQUEST_SIZE)))

    def expiry(self, moment: int, level: int, lead: int, spread: int, delay: int) -> int:
        """A moment drawn at random: behind a lead, within a spread, both in delays and doubled at each level."""
        return moment + (lead * delay << level) + self.words.word() % ((spread * delay << level) + 1)

    def back_off(self, moment: int, ask: Ask) -> None:
        lead, spread, _, _ = self.policy.now(moment)
        ask.level = min(ask.level + 1, MOST_LEVEL)
        ask.due = self.expiry(moment, ask.level, lead, spread, ask.delay)
        ask.deaf = moment + (ask.due - moment) // 2

    def tick(self, moment: int) -> None:
        """What is due fires. The policy sees it afterwards, since a host takes no line between a request and its back-off."""
        self.ticked = moment
        asked = sorted(name for name, ask in self.asks.items() if ask.due <= moment)
        for name in asked:
            self.send(moment, "request", name)
            self.back_off(moment, self.asks[name])
        repaired = sorted(name for name, (due, _) in self.answers.items() if due <= moment)
        for name in repaired:
            _, delay = self.answers.pop(name)
            self.quiet[name] = moment + QUIET * delay
            self.send(moment, "drawop", name)
        self.sees_own(moment, asked, repaired)

    def sees_own(self, moment: int, asked: Sequence[Name], repaired: Sequence[Name]) -> None:
        for name in asked:
            self.policy.sees_request(name, moment, True)
        for name in repaired:
            self.policy.sees_repair(name, moment, True)

    def notice(self, moment: int, name: Name) -> None:
        """A drawop is missed."""
        if name in self.held or name in self.asks:
            return
        delay = self.delay(name[0])
        self.policy.begins_to_ask(name, moment, delay)
        lead, spread, _, _ = self.policy.now(moment)
        self.asks[name] = Ask(0, self.expiry(moment, 0, lead, spread, delay), 0, delay)

    def hear(self, moment: int, asker: int, name: Name) -> None:
        """Another member asks."""
        if name not in self.held:
            ask = self.asks.get(name)
            self.policy.sees_request(name, moment, False)
            if ask is not None and ask.deaf <= moment:
                ask.delay = self.delay(name[0])
                self.back_off(moment, ask)
            else:
                self.words.word()  # a host draws one word for each request
            return
        if name in self.answers or self.quiet.get(name, 0) > moment:
            self.words.word()
            return
        delay = self.delay(asker)
        self.policy.begins_to_answer(name, moment, delay)
        _, _, lead, spread = self.policy.now(moment)
        self.answers[name] = self.expiry(moment, 0, lead, spread, delay), delay

    def arrives(self, moment: int, name: Name) -> None:
        """A drawop comes: its timers end, and it is quiet where one stood."""
        self.policy.sees_repair(name, moment, False)
        if name not in self.held:
            self.held.add(name)
            self.last_new = moment
        if self.asks.pop(name, None) or self.answers.pop(name, None):
            self.answers.pop(name, None)
            self.quiet[name] = moment + QUIET * self.delay(name[0])
