"""What is lost on the way: each kind says at which links of a way a datagram is lost."""
from __future__ import annotations

import math
import random
from collections.abc import Sequence
from dataclasses import dataclass, field
from typing import Protocol

SECOND = 1_000_000


@dataclass(frozen=True)
class Step:
    """A link on the way from a sender, in an order in which all that lies behind a link follows it, up to place `end`."""

    link: int
    delay: int
    end: int
    member: int | None


@dataclass(frozen=True)
class Sending:
    """A datagram that a member sends. `first` is the number of a drawop that is sent for the first time, else 0."""

    sender: int
    moment: int
    first: int


class Loss(Protocol):
    """Says at which places of a way a datagram is lost, ascending."""

    def places(self, way: list[Step], sending: Sending) -> list[int]: ...


class NoLoss:
    """Nothing is lost."""

    def places(self, way: list[Step], sending: Sending) -> list[int]:
        return []


@dataclass
class OnceEach:
    """Every other drawop is lost once, on its first way: on these links in turn, else on one by chance. Nothing else is lost."""

    chance: random.Random
    links: Sequence[int] = ()

    def places(self, way: list[Step], sending: Sending) -> list[int]:
        if sending.first % 2 == 0 or not way:
            return []
        if not self.links:
            return [self.chance.randrange(len(way))]
        link = self.links[sending.first // 2 % len(self.links)]
        return [at for at, step in enumerate(way) if step.link == link]


@dataclass
class Same:
    """Every other drawop is lost once, on one link for the whole run: one by chance of those on the way from the first who sends to the
    member of the least number beside it."""

    chance: random.Random
    link: int | None = None

    def places(self, way: list[Step], sending: Sending) -> list[int]:
        if sending.first % 2 == 0 or not way:
            return []
        if self.link is None:
            nearest = min((step.member, at) for at, step in enumerate(way) if step.member)[1]
            self.link = self.chance.choice([step.link for at, step in enumerate(way) if at <= nearest < step.end])
        return [at for at, step in enumerate(way) if step.link == self.link]


@dataclass
class Share:
    """Each link loses a share of what crosses it, of drawops that are sent for the first time alone or of everything."""

    chance: random.Random
    share: float
    drawops_alone: bool
    between: tuple[float, float] = (0, math.inf)

    def places(self, way: list[Step], sending: Sending) -> list[int]:
        spared = self.drawops_alone and not sending.first
        if spared or self.share <= 0 or not self.between[0] <= sending.moment < self.between[1]:
            return []
        if self.share >= 1:
            return list(range(len(way)))
        places: list[int] = []
        at = -1
        while True:  # the number of links that are passed over before the next loss
            at += 1 + int(math.log(1 - self.chance.random()) / math.log(1 - self.share))
            if at >= len(way):
                return places
            places.append(at)


@dataclass
class ShareIn:
    """Each member loses a share of everything that comes to it, by itself."""

    chance: random.Random
    share: float

    def places(self, way: list[Step], sending: Sending) -> list[int]:
        return [at for at, step in enumerate(way) if step.member and self.chance.random() < self.share]


@dataclass
class Cut:
    """A link that carries nothing between two moments: the members on its two sides are apart."""

    link: int
    between: tuple[float, float]

    def places(self, way: list[Step], sending: Sending) -> list[int]:
        if not self.between[0] <= sending.moment < self.between[1]:
            return []
        return [at for at, step in enumerate(way) if step.link == self.link]


@dataclass
class Bursts:
    """The model of Gilbert and Elliott: each link is good or bad, by itself, for times that are drawn at random, and loses a share of what
    crosses it while it is bad. `bad` is the share of the time for which it is bad, and `lasts` the microseconds of that in the mean."""

    chance: random.Random
    bad: float
    lasts: float
    share: float
    state: dict[int, tuple[bool, float]] = field(default_factory=dict)  # of a link: whether it is bad, and until when it stays so

    def places(self, way: list[Step], sending: Sending) -> list[int]:
        return [at for at, step in enumerate(way) if self.is_bad(step.link, sending.moment) and self.chance.random() < self.share]

    def is_bad(self, link: int, moment: int) -> bool:
        is_bad, until = self.state.get(link) or (self.chance.random() < self.bad, -1.0)
        if until < 0:
            until = self.stay(is_bad)
        while until <= moment:
            is_bad = not is_bad
            until += self.stay(is_bad)
        self.state[link] = is_bad, until
        return is_bad

    def stay(self, is_bad: bool) -> float:
        return self.chance.expovariate(1 / (self.lasts if is_bad else self.lasts * (1 - self.bad) / self.bad))


@dataclass
class Both:
    """Two kinds at a time."""

    one: Loss
    other: Loss

    def places(self, way: list[Step], sending: Sending) -> list[int]:
        return sorted({*self.one.places(way, sending), *self.other.places(way, sending)})
