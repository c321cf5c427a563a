"""What is counted of a session: for each drawop that a member lacked, for each that joined, and in all."""
from __future__ import annotations

from collections import Counter
from dataclasses import dataclass, field

from laboratory.intervals import quantile
from laboratory.reading import Datagram, Name


@dataclass
class Loss:
    """A drawop that some members did not get when it was first sent.

    A member notices it when it learns of a number of the source that is not below it.
    """

    name: Name
    sent: int
    lost: set[int]
    noticed: dict[int, int] = field(default_factory=dict)
    repaired: dict[int, int] = field(default_factory=dict)
    requests: list[tuple[int, int]] = field(default_factory=list)
    repairs: int = 0


@dataclass
class Book:
    """The losses and counts of one session. `whole` is when each member that lacked something last had all again."""

    losses: dict[Name, Loss] = field(default_factory=dict)
    sent: Counter[str] = field(default_factory=Counter)
    bytes_sent: Counter[str] = field(default_factory=Counter)
    reports: dict[int, list[tuple[int, int]]] = field(default_factory=dict)  # of a member: the moments of its reports, and their bytes
    deliveries: int = 0
    dropped: int = 0
    outstanding: int = 0
    last_sent: int = 0
    whole: dict[int, int] = field(default_factory=dict)
    back: dict[int, int] = field(default_factory=dict)  # members that joined or came again and lack something, and since when
    returns: list[tuple[int, int, int]] = field(default_factory=list)  # the member, when it came, and how long it lacked something
    greatest: dict[tuple[int, int], int] = field(default_factory=dict)
    lacks: dict[tuple[int, int], set[int]] = field(default_factory=dict)
    lacking: Counter[int] = field(default_factory=Counter)

    def sends(self, datagram: Datagram, moment: int, first: bool, lost: list[int]) -> None:
        """A member sends a datagram that these members do not get."""
        self.sent[datagram.kind] += 1
        self.bytes_sent[datagram.kind] += datagram.size
        if datagram.kind == "session":
            self.reports.setdefault(datagram.author, []).append((moment, datagram.size))
        if first and datagram.name:
            self.last_sent = moment
            self.begins(datagram.name, moment, lost)
        elif datagram.name in self.losses:
            loss = self.losses[datagram.name]
            if datagram.kind == "drawop":
                loss.repairs += 1
            else:
                loss.requests.append((moment, datagram.author))

    def begins(self, name: Name, moment: int, lost: list[int]) -> None:
        """A drawop was sent for the first time, and these members lack it. Who knows of a later one notices at once."""
        if lost:
            loss = self.losses.setdefault(name, Loss(name, moment, set()))
            loss.lost.update(lost)
            self.outstanding += len(lost)
            self.lacking.update(lost)
            for member in lost:
                self.lacks.setdefault((member, name[0]), set()).add(name[1])
                if self.greatest.get((member, name[0]), 0) >= name[1]:
                    loss.noticed[member] = moment

    def is_lacking(self, member: int, name: Name) -> bool:
        return name[1] in self.lacks.get((member, name[0]), ())

    def learns(self, member: int, source: int, number: int, moment: int) -> list[Name]:
        """A member learns that the source has drawn up to this number. The drawops of which it learns that it lacks them."""
        known = self.greatest.get((member, source), 0)
        if number <= known:
            return []
        self.greatest[member, source] = number
        lacking = sorted(n for n in self.lacks.get((member, source), ()) if known < n <= number)
        for n in lacking:
            self.losses[source, n].noticed[member] = moment
        return [(source, n) for n in lacking]

    def joins(self, member: int, moment: int) -> None:
        """A member comes, for the first time or again."""
        if self.lacking[member]:
            self.back[member] = moment
        else:
            self.returns.append((member, moment, 0))

    def comes(self, member: int, name: Name, moment: int) -> None:
        """A drawop comes to a member."""
        lacking = self.lacks.get((member, name[0]))
        if lacking and name[1] in lacking:
            lacking.remove(name[1])
            self.losses[name].repaired[member] = moment
            self.losses[name].noticed.setdefault(member, moment)
            self.outstanding -= 1
            self.lacking[member] -= 1
            if not self.lacking[member]:
                self.whole[member] = moment
                if member in self.back:
                    since = self.back.pop(member)
                    self.returns.append((member, since, moment - since))


@dataclass(frozen=True)
class Row:
    """A loss in numbers. Delays are in round trips between the member meant and the source, twice the distance, and in seconds."""

    source: int
    number: int
    lost: int
    requests: int
    repairs: int
    first_request: float | None
    last_repair: float | None
    seconds: float | None


def row_of(loss: Loss, distances: dict[int, int]) -> Row:
    """The numbers of a loss, by the distance of each member from the source.

    The first request counts from the moment at which its asker noticed; the last repair likewise, of whoever is repaired last.
    """
    first = last = seconds = None
    if loss.requests:
        moment, asker = min(loss.requests)
        if asker in loss.noticed:
            first = round((moment - loss.noticed[asker]) / (2 * distances[asker]), 6)
    if loss.repaired:
        moment, member = max((moment, member) for member, moment in loss.repaired.items())
        wait = moment - loss.noticed[member]
        last, seconds = round(wait / (2 * distances[member]), 6), wait / 1_000_000
    return Row(*loss.name, len(loss.lost), len(loss.requests), loss.repairs, first, last, seconds)


def mean(values: list[float]) -> float | None:
    return round(sum(values) / len(values), 6) if values else None


def summary(rows: list[Row]) -> dict[str, float | int | None]:
    """Means and quantiles over losses."""
    trips = [row.last_repair for row in rows if row.last_repair is not None]
    return {
        "losses": len(rows),
        "requests_mean": mean([row.requests for row in rows]),
        "repairs_mean": mean([row.repairs for row in rows]),
        "requests_median": quantile([row.requests for row in rows], 0.5),
        "repairs_median": quantile([row.repairs for row in rows], 0.5),
        "first_request_mean": mean([row.first_request for row in rows if row.first_request is not None]),
        "last_repair_mean": mean(trips),
        "last_repair_median": quantile(trips, 0.5),
        "last_repair_95": quantile(trips, 0.95),
        "seconds_mean": mean([row.seconds for row in rows if row.seconds is not None]),
    }
