"""A host in plain Python, from docs/SCRIPTS.md, docs/PROTOCOL.md and docs/HOST.md: what each line prints, but for canvases.

It keeps lists and looks through them each time, so that it is right before it is fast.
"""

from __future__ import annotations

from collections.abc import Iterable, Sequence
from dataclasses import dataclass, field
from hashlib import sha256
from itertools import islice
from typing import NamedTuple, Optional

from . import datagrams
from .datagrams import Echo, Mark, Page, Words, drawn

UNKNOWN_DELAY = 100_000
MOST_ASKED = 64
MOST_LEVEL = 16
C1, C2, D1, D2 = 2, 2, 1, 1


class Name(NamedTuple):
    source: int
    page: Page
    seq: int


class Drawop(NamedTuple):
    name: Name
    time: int
    operation: bytes
    told: str

    def digits(self) -> str:
        return datagrams.drawop(*self.name, self.time, self.operation)

    def words(self) -> str:
        source, (creator, number), seq = self.name
        return f"draw {source} {creator}/{number} {seq} {self.time} {self.told}"

    def place(self) -> tuple[int, int, int]:
        """Its place in the order of display."""
        return self.time, self.name.source, self.name.seq

    def is_aimed_at(self, other: Drawop) -> bool:
        """Whether it deletes or restores another."""
        target = datagrams.number(other.name.source, 4) + datagrams.number(other.name.seq, 4)
        return self.operation[0] in (4, 5) and self.name.page == other.name.page and self.operation[1:] == target


@dataclass
class Ask:
    due: int
    delay: int
    level: int = 0
    deaf: int = 0


@dataclass
class Answer:
    due: int
    delay: int


@dataclass
class Timers:
    ask: Optional[Ask] = None
    answer: Optional[Answer] = None
    quiet: int = 0


@dataclass
class Model:
    me: int
    cells: int
    words: Words
    now: int = 0
    held: dict[Name, Drawop] = field(default_factory=dict)
    marks: dict[Page, dict[int, int]] = field(default_factory=dict)
    delays: dict[int, int] = field(default_factory=dict)
    senders: dict[int, tuple[int, int]] = field(default_factory=dict)
    timers: dict[Name, Timers] = field(default_factory=dict)

    # ---- timers

    def delay(self, source: int) -> int:
        return self.delays.get(source, UNKNOWN_DELAY)

    def timers_of(self, name: Name) -> Timers:
        return self.timers.setdefault(name, Timers())

    def due(self) -> str:
        moments = [timer.due for timers in self.timers.values() for timer in (timers.ask, timers.answer) if timer]
        return str(min(moments, default="never"))

    def miss(self, name: Name) -> None:
        delay = self.delay(name.source)
        self.timers_of(name).ask = Ask(drawn(self.now, delay, self.words.next(), C1, C2), delay)

    def back_off(self, ask: Ask, delay: int, word: int) -> None:
        ask.level, ask.delay = min(ask.level + 1, MOST_LEVEL), delay
        ask.due = drawn(self.now, delay, word, C1, C2, ask.level)
        ask.deaf = self.now + (ask.due - self.now) // 2

    def end_timers(self, name: Name, delay: int) -> None:
        if self.timers_of(name).ask or self.timers_of(name).answer:
            self.timers[name] = Timers(quiet=self.now + 3 * delay)

    # ---- what comes in

    def accept(self, drawop: Drawop) -> str:
        """What becomes of a drawop: new, again, clash or left."""
        became = "left"
        if drawop.name in self.held:
            became = "again" if self.held[drawop.name] == drawop else "clash"
        elif len(self.held) < self.cells:
            self.held[drawop.name] = drawop
            became = "new"
        if drawop.name in self.held:
            self.end_timers(drawop.name, self.delay(drawop.name.source))
        return became

    def arrive(self, drawop: Drawop) -> str:
        became = self.accept(drawop)
        return "batch " + " ".join(str(int(became == kind)) for kind in ("new", "again", "clash", "left")) + "\n"

    def tell_marks(self, page: Page, marks: list[Mark]) -> None:
        heard = self.marks.setdefault(page, {})
        for source, high in marks:
            heard[source] = max(high, heard.get(source, 0))

    def session_message(self, sender: int, sent: int, page: Page, marks: list[Mark], echoes: list[Echo]) -> str:
        if sender == self.me:
            return ""
        self.tell_marks(page, marks)
        self.senders[sender] = sent, self.now
        for source, at, held in echoes:
            if source == self.me and at + held <= self.now and (self.now - at - held) // 2 < 2**24:
                self.delays[sender] = (self.now - at - held) // 2
        return ""

    def page_state(self, sender: int, page: Page, marks: list[Mark]) -> str:
        if sender != self.me:
            self.tell_marks(page, marks)
        return ""

    def request(self, asker: int, name: Name) -> str:
        word = self.words.next()
        if asker == self.me:
            return ""
        timers = self.timers_of(name)
        if name not in self.held:
            if timers.ask and timers.ask.deaf <= self.now:
                self.back_off(timers.ask, self.delay(name.source), word)
        elif not timers.answer and timers.quiet <= self.now:
            delay = self.delay(asker)
            timers.answer = Answer(drawn(self.now, delay, word, D1, D2), delay)
        return ""

    def ask_pages(self, asker: int) -> str:
        if asker == self.me:
            return ""
        return "".join(f"send {datagrams.page_state(self.me, page, self.highest(page))}\n" for page in self.drawn_on())

    # ---- what goes out

    def say(self, drawop: Drawop) -> str:
        became = self.accept(drawop)
        if became == "clash":
            return "batch 0 0 1 0\n"
        return "batch 0 0 0 1\n" if became == "left" else f"send {drawop.digits()}\n"

    def tick(self, moment: int) -> str:
        self.now = moment
        asked = {name: timers.ask for name, timers in sorted(self.timers.items()) if timers.ask and timers.ask.due <= moment}
        answered = {name: timers.answer for name, timers in sorted(self.timers.items()) if timers.answer and timers.answer.due <= moment}
        for ask in asked.values():
            self.back_off(ask, ask.delay, self.words.next())
        for name, answer in answered.items():
            self.timers[name].quiet = moment + 3 * answer.delay
            self.timers[name].answer = None
        requests = [datagrams.request(self.me, *name) for name in asked]
        return "".join(f"send {digits}\n" for digits in requests + [self.held[name].digits() for name in answered])

    def session(self, page: Page) -> str:
        echoes = [(sender, sent, self.now - at) for sender, (sent, at) in sorted(self.senders.items())]
        return f"send {datagrams.session(self.me, self.now, page, self.highest(page), echoes)}\n"

    def look(self, page: Page) -> str:
        standing = sum(timers.ask is not None for timers in self.timers.values())
        names = (Name(source, page, number) for source, first, last in self.missing(page) for number in range(first, last + 1))
        unasked = (name for name in names if not self.timers_of(name).ask)
        wanted = list(islice(unasked, max(0, MOST_ASKED - standing)))
        for name in wanted:
            self.miss(name)
        return f"look {len(wanted)}\n"

    def ask(self, name: Name) -> str:
        timers = self.timers_of(name)
        if name in self.held or timers.ask or timers.answer:
            return "ask 0\n"
        self.miss(name)
        return "ask 1\n"

    def stop(self, name: Name) -> str:
        if not self.timers_of(name).ask:
            return "stop 0\n"
        self.end_timers(name, 0)
        return "stop 1\n"

    # ---- what it reports

    def highest(self, page: Page) -> list[Mark]:
        """The greatest number that is held of each source of the page."""
        names = [name for name in self.held if name.page == page]
        return [(source, max(name.seq for name in names if name.source == source)) for source in sorted({name.source for name in names})]

    def drawn_on(self) -> list[Page]:
        return sorted({name.page for name in self.held})

    def missing_below(self, page: Page, marks: Iterable[Mark]) -> list[tuple[int, int, int]]:
        """What is not held of these sources up to their marks: each source with the first and the last number of a range."""
        found: list[tuple[int, int, int]] = []
        for source, mark in sorted(marks):
            held = sorted(name.seq for name in self.held if (name.source, name.page) == (source, page) and name.seq <= mark)
            ends = zip([0, *held], [*held, mark + 1])
            found += [(source, before + 1, behind - 1) for before, behind in ends if before + 1 < behind]
        return found

    def missing(self, page: Page) -> list[tuple[int, int, int]]:
        known = dict(self.highest(page))
        for source, high in self.marks.get(page, {}).items():
            known[source] = max(high, known.get(source, 0))
        return self.missing_below(page, known.items())

    def gaps(self, page: Page) -> str:
        return listed("gaps", self.missing(page))

    def report(self, page: Page) -> str:
        return listed("report", self.highest(page))

    def digest(self, page: Page) -> str:
        held = sorted(drawop for drawop in self.held.values() if drawop.name.page == page)
        return f"digest {sha256(bytes.fromhex(''.join(drawop.digits() for drawop in held))).hexdigest()}\n"

    def pages(self) -> str:
        return listed("pages", self.drawn_on())

    @staticmethod
    def version() -> str:
        return "version 1\n"

    def known(self) -> str:
        return listed("known", sorted({*self.drawn_on(), *(page for page, marks in self.marks.items() if marks)}))

    def next(self, page: Page) -> str:
        own = [name.seq for name in self.held if name.source == self.me and name.page == page]
        return f"next {max([0, self.marks.get(page, {}).get(self.me, 0), *own]) + 1}\n"

    def view(self, page: Page) -> str:
        drawops = sorted((drawop for drawop in self.held.values() if drawop.name.page == page), key=Drawop.place)
        shown = []
        for drawop in drawops:
            aimed = [other for other in drawops if other.is_aimed_at(drawop)]
            if drawop.operation[0] < 4 and not (aimed and aimed[-1].operation[0] == 4):
                shown.append(drawop.words())
        return f"view {len(shown)}\n" + "".join(f"{words}\n" for words in shown)


def listed(word: str, rows: Sequence[Iterable[object]]) -> str:
    """How many there are, and the numbers of each on a line."""
    return f"{word} {len(rows)}\n" + "".join(" ".join(map(str, row)) + "\n" for row in rows)
