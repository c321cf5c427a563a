"""Vectors of timers and echoes: what comes to a member, and when it sends what. `docs/vectors/timers.json` has them as its timers make them."""

from __future__ import annotations

from collections.abc import Callable
from random import Random
from typing import Optional

from ..host.datagrams import Words
from . import codec
from .codec import LINE, Datagram, Drawop, Echo, Mark, Page, Request, SessionMessage, Shape
from .member import Member, delay_of
from .words import words_of

PAGE, ME, SOURCE, OTHER = Page(7, 1), 1, 7, 9
NEVER = 1 << 60

Step = dict[str, object]


def drawop(seq: int, glyph: str = "*") -> Drawop:
    return Drawop(SOURCE, PAGE, seq, seq, Shape(LINE, 0, 0, 4, 0, ord(glyph)))


def request(seq: int, asker: int = OTHER) -> Request:
    return Request(asker, SOURCE, PAGE, seq)


def message(sender: int, sent: int, echo: tuple[int, int], marks: tuple[Mark, ...] = ()) -> SessionMessage:
    return SessionMessage(sender, sent, PAGE, marks, (Echo(ME, *echo),))


def silent(number: int) -> Member:
    """A member that only its timers make speak, and whose moments are those of its messages."""
    member = Member(number, Random(0), wall=0)
    member.clock, member.report_at, member.ask_at = 0, NEVER, None
    return member


class Life:
    """A member with the random numbers of a seed, and the steps of its life."""

    def __init__(self, seed: int) -> None:
        self.words, self.member, self.now = Words(seed), silent(ME), 0
        self.drawn: list[int] = []
        self.member.chance = lambda most: self.take(self.words.next(), most)
        self.steps: list[Step] = []

    def take(self, word: int, most: int) -> int:
        self.drawn.append(word % (most + 1))
        return self.drawn[-1]

    def comes(self, at: int, datagram: Datagram) -> None:
        """A program takes a word for each request, used or not."""
        self.now = at
        usual = self.member.chance
        if isinstance(datagram, Request):
            word = self.words.next()
            self.member.chance = lambda most: self.take(word, most)
        self.member.come(at, codec.write(datagram))
        self.member.chance = usual
        self.note({"comes": words_of(datagram), "hex": codec.write(datagram).hex()}, [])

    def fires(self) -> None:
        due = self.due()
        assert due is not None
        self.now = due
        self.note({}, [codec.read(data) for data in self.member.tick(due)])

    def due(self) -> Optional[int]:
        return self.member.timer_due()

    def note(self, what: Step, sent: list[Optional[Datagram]]) -> None:
        self.steps.append({"at": self.now, **what, "random": self.drawn, "sends": [words_of(it) for it in sent if it], "due": self.due()})
        self.drawn = []


def lost(life: Life) -> None:
    life.comes(0, drawop(2))
    for _ in range(5):
        life.fires()
    life.comes(life.now + 1, drawop(1))
    life.comes(life.now + 299_999, request(1))
    life.comes(life.now + 1, request(1))
    life.fires()


def backed_off(life: Life) -> None:
    life.comes(0, drawop(2))
    life.comes(1, request(1))
    wait = (life.due() or 0) - life.now
    life.comes(life.now + wait // 2 - 1, request(1))
    life.comes(life.now + 1, request(1))
    life.fires()


def ended(datagram: Datagram) -> Callable[[Life], None]:
    def lives(life: Life) -> None:
        life.comes(0, drawop(1))
        life.comes(5, request(1))
        life.comes(6, request(1, 11))
        life.comes(7, datagram)
        life.comes(300_006, request(1))
        life.comes(300_007, request(1))

    return lives


def far(life: Life) -> None:
    """Delays of 20 ms to the source and of 3 ms to the other."""
    life.comes(50_000, message(SOURCE, 900, (5_000, 5_000)))
    life.comes(50_000, message(OTHER, 900, (40_000, 4_000)))
    life.comes(60_000, drawop(2))
    life.comes(61_000, request(2))
    life.fires()
    life.comes(life.now + 8_999, request(2))
    life.comes(life.now + 1, request(2))
    life.fires()
    life.fires()
    life.comes(life.now + 1, drawop(1))
    life.comes(life.now + 59_999, request(1))
    life.comes(life.now + 1, request(1))


def told(life: Life) -> None:
    life.comes(0, message(OTHER, 77, (0, 0), (Mark(SOURCE, 1),)))
    life.fires()
    life.comes(life.now, message(OTHER, 78, (0, 0), (Mark(SOURCE, 1),)))
    life.comes(life.now + 9, drawop(1))


LIVES: list[tuple[str, int, Callable[[Life], None]]] = [
    ("a lost drawop is requested five times, comes, is held down for three delays to its source, and is then repaired", 42, lost),
    ("a request by another member backs the timer off at once at level 0, and later only once half of its wait is over, rounded down", 44, backed_off),
    ("a copy ends a repair timer, and holds the name down", 44, ended(drawop(1))),
    ("another drawop of the name ends it too", 44, ended(drawop(1, "+"))),
    ("delays: to the source for requests, to the one that asks for repairs and what follows them, to the source once the drawop came", 45, far),
    ("a report tells of a drawop, and again: its timer stays", 46, told),
]

# now, the moment that is echoed, and for how long it was held
ROUND_TRIPS = [(50_000, 5_000, 5_000), (50_001, 5_000, 5_000), (100, 100, 0), (100, 60, 41), (1 << 25, 0, 0), ((1 << 25) - 1, 0, 0), (900, 1_000, 0)]

# what was heard: when, of whom, and the moment that the message named; and when the next session message is sent
HEARD = [(1_000, OTHER, 5), (2_000, SOURCE, 1 << 60), (3_000, OTHER, 6)]
NEXT_MESSAGE = 10_000


def life_of(lives: Callable[[Life], None], seed: int) -> list[Step]:
    life = Life(seed)
    lives(life)
    return life.steps


def next_message() -> Datagram:
    member = silent(ME)
    for at, sender, sent in HEARD:
        member.come(at, codec.write(SessionMessage(sender, sent, PAGE, (), ())))
    return member.report(NEXT_MESSAGE)


def all_vectors() -> dict[str, object]:
    return {
        "what": "The timers of member 1, which holds nothing at first, whose constants are 2, 2, 1 and 1, and whose session messages name its own moments. "
                "At a moment a datagram comes or what is due fires; R gives the numbers of `random`, in this order; then `due` is the next moment at "
                "which a timer fires (docs/PROTOCOL.md). By its seed `wb host` draws the same numbers",
        "timers": [{"shows": shows, "seed": seed, "steps": life_of(lives, seed)} for shows, seed, lives in LIVES],
        "round trips": [{"now": now, "sent": sent, "held": held, "delay": delay_of(now, sent, held)} for now, sent, held in ROUND_TRIPS],
        "echoes": {
            "heard": [{"at": at, "words": words_of(SessionMessage(sender, sent, PAGE, (), ()))} for at, sender, sent in HEARD],
            "at": NEXT_MESSAGE,
            "session message": words_of(next_message()),
        },
    }

