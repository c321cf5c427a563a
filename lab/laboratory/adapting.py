"""Constants that follow the session: by the number of members, or by what each member sees, as the publication adapts its timers.

A driver gives them to its running host by `tuning` lines (driving.py). Bare timers (timers.py) take them from the policy itself. Of either
a line goes by the constants from before what it sends: who asks is backed off by those, and what it learns by asking counts from then on.
"""
from __future__ import annotations

from collections.abc import Callable
from dataclasses import dataclass

from laboratory.reading import Name

Constants = tuple[int, int, int, int]

MOST = 16
UNIT = 20  # constants are kept in twentieths, the least step of the publication, and used as the nearest whole number
FINE = 1_024  # averages are kept in parts of this
MOST_LEAD = 2
HIGH, LOW, FEW = FINE, FINE * 9 // 10, FINE // 4  # duplicates: from one on too many, below 0.9 few, below a quarter very few
SLOW = FINE  # a wait of more than one round trip is long


class Policy:
    """Which constants C1, C2, D1, D2 a member has now, and what it learns of. This one has the same for ever."""

    def __init__(self, constants: Constants) -> None:
        self.constants = constants

    def now(self, moment: int) -> Constants:
        return self.constants

    def begins_to_ask(self, name: Name, moment: int, delay: int) -> None:
        """A request timer is about to be set."""

    def begins_to_answer(self, name: Name, moment: int, delay: int) -> None:
        """An answer timer is about to be set."""

    def sees_request(self, name: Name, moment: int, is_own: bool) -> None:
        """A request is sent, or comes."""

    def sees_repair(self, name: Name, moment: int, is_own: bool) -> None:
        """A repair is sent, or a drawop comes."""


def by_members(members: int) -> Constants:
    """The spreads grow with the group, where all may be at one distance."""
    return 2, min(MOST, 2 + members // 8), 1, min(MOST, 1 + members // 8)


class ByMembers(Policy):
    """`present` tells how many members are there at a moment."""

    def __init__(self, present: Callable[[int], int]) -> None:
        super().__init__((2, 2, 1, 1))
        self.present = present

    def now(self, moment: int) -> Constants:
        return by_members(self.present(moment))


@dataclass
class Round:
    """One name that is asked for or answered: when its timer was set, what was seen of it, and when first."""

    name: Name
    set_at: int
    delay: int
    seen: int = 0
    first: int | None = None

    def sees(self, moment: int) -> None:
        self.seen += 1
        self.first = moment if self.first is None else self.first


@dataclass
class Adjusted:
    """A lead and a spread in twentieths, the averages of duplicates and of waits in round trips, and the round that goes on."""

    lead: int
    spread: int
    duplicates: int = 0
    wait: int = 0
    round: Round | None = None

    def begins(self, name: Name, moment: int, delay: int) -> None:
        """Before a timer is set, the last round goes into the averages, a quarter of each, and these into the constants."""
        last = self.round
        if last is not None and last.seen and last.first is not None:
            self.duplicates += ((last.seen - 1) * FINE - self.duplicates) // 4
            self.wait += ((last.first - last.set_at) * FINE // max(1, 2 * last.delay) - self.wait) // 4
            self.adjust()
        self.round = Round(name, moment, delay)

    def adjust(self) -> None:
        if self.duplicates >= HIGH:
            self.change(2, 10)
        elif self.duplicates >= LOW:
            self.change(1, 0)
        else:
            self.change(-1 if self.duplicates < FEW else 0, -2 if self.wait > SLOW else 0)

    def change(self, lead: int, spread: int) -> None:
        self.lead = min(MOST_LEAD * UNIT, max(UNIT, self.lead + lead))
        self.spread = min(MOST * UNIT, max(UNIT, self.spread + spread))

    def whole(self) -> tuple[int, int]:
        return (self.lead + UNIT // 2) // UNIT, (self.spread + UNIT // 2) // UNIT


class Adapting(Policy):
    """The published adjustment, with each member's own duplicates and waits, in whole numbers. What it leaves out: a member that is
    nearer to the source than those whose duplicates it sees asks sooner there; requests here do not tell how far their sender is."""

    def __init__(self, constants: Constants = (2, 2, 1, 1)) -> None:
        super().__init__(constants)
        self.asking = Adjusted(constants[0] * UNIT, constants[1] * UNIT)
        self.answering = Adjusted(constants[2] * UNIT, constants[3] * UNIT)

    def now(self, moment: int) -> Constants:
        return (*self.asking.whole(), *self.answering.whole())

    def begins_to_ask(self, name: Name, moment: int, delay: int) -> None:
        self.asking.begins(name, moment, delay)

    def begins_to_answer(self, name: Name, moment: int, delay: int) -> None:
        self.answering.begins(name, moment, delay)

    def sees_request(self, name: Name, moment: int, is_own: bool) -> None:
        """Who asks first comes to ask sooner, so that the same members go on to ask."""
        if self.asking.round and self.asking.round.name == name:
            self.asking.round.sees(moment)
        if is_own:
            self.asking.change(-1, 0)

    def sees_repair(self, name: Name, moment: int, is_own: bool) -> None:
        if self.answering.round and self.answering.round.name == name:
            self.answering.round.sees(moment)
        if is_own:
            self.answering.change(-1, 0)
