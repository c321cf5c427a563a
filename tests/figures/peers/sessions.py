"""What it takes until all members have all drawings, over a network that loses some, and whether they come to have the same if one is killed."""

from __future__ import annotations

import statistics
from collections.abc import Callable, Iterator, Mapping, Sequence
from concurrent.futures import ThreadPoolExecutor
from functools import partial
from typing import NamedTuple, TypeVar

from . import needs
from .group import Ended, Group, Kind, Name, Network
from .measuring import Table, percentile

DELAY = 20.0  # milliseconds one way
LISTENING = 4.0  # seconds before the first drawing, in which members may tell each other what they like
EVERY = 0.02  # seconds from one drawing to the next, of another member each
LIMIT = 60.0  # seconds behind the last drawing after which a session is given up
FEW = 12  # drawings of a session whose last drawer is killed
SENT = 10.0  # seconds within which it has sent that drawing, even on a busy machine
KILLED_AFTER = 0.03  # seconds from then to its end
SETTLED = 12.0  # seconds behind that in which the others may come to have the same


Found = TypeVar("Found")


class Outcome(NamedTuple):
    """Of a session: datagrams and bytes that were sent from the first drawing until all had all, the milliseconds of each drawing until all had it,
    and how many drawings some never had."""

    datagrams: int
    bytes: int
    milliseconds: list[float]
    missed: int


class End(NamedTuple):
    """Of a session whose last drawer was killed: whether all others have what any of them has, and whether any has its last drawing."""

    is_same: bool
    has_last: bool


def draw_all(group: Group, drawings: int) -> Name:
    """All draw in turn. The last drawing."""
    members = len(group.members)
    for place in range(drawings):
        group.draw(place % members)
        group.wait(lambda: False, EVERY)
    return Name(1 + (drawings - 1) % members, 1 + (drawings - 1) // members)


def times(drew: Mapping[Name, int], held: Sequence[Mapping[Name, int]]) -> list[float]:
    """The milliseconds of each drawing that all have, until the last one had it, of when it was drawn and since when each has it."""
    return [(max(has[name] for has in held) - begun) / 1e6 for name, begun in drew.items() if all(name in has for has in held)]


def run(kind: Kind, drawings: int, network: Network) -> Outcome:
    """A session until all have all."""
    with Group(kind, network) as group:
        group.wait(lambda: False, LISTENING)
        group.count()
        draw_all(group, drawings)
        group.wait(lambda: all(len(has) == drawings for has in group.has), LIMIT)
        return Outcome(*group.count(), taken := times(group.drew, group.has), drawings - len(taken))


def run_and_kill(kind: Kind, network: Network) -> End:
    """A session in which the last to draw is killed at once."""
    with Group(kind, network) as group:
        group.wait(lambda: False, LISTENING)
        last = draw_all(group, FEW)
        group.wait(lambda: last in group.drew, SENT)
        group.wait(lambda: False, KILLED_AFTER)
        group.kill(last.source - 1)
        others = [has for at, has in enumerate(group.has) if at != last.source - 1]
        # what one of them has only now may still be on its way to the others, so this waits on where nobody has it yet
        group.wait(lambda: all(len(has) == FEW for has in others), SETTLED)
        return End(all(has.keys() == others[0].keys() for has in others), any(last in has for has in others))


def cells_of(outcomes: Sequence[Outcome]) -> list[str]:
    """The cells of a row: medians over the sessions, and times over the drawings of all."""
    if not outcomes:
        return ["-"] * 6
    taken = [time for outcome in outcomes for time in outcome.milliseconds]
    counts = [f"{statistics.median(outcome.datagrams for outcome in outcomes):,.0f}", f"{statistics.median(outcome.bytes for outcome in outcomes):,.0f}"]
    slow = [f"{statistics.median(taken):,.0f}", f"{percentile(taken, 99):,.0f}", f"{max(taken):,.0f}"] if taken else ["-"] * 3
    return [*counts, *slow, str(sum(outcome.missed for outcome in outcomes))]


def those_there(kinds: Sequence[Kind]) -> list[Kind]:
    """The kinds whose peers are there; of the others a line."""
    found = []
    for kind in kinds:
        try:
            kind.find()
            found.append(kind)
        except needs.Missing as fault:
            print(f"peers: {kind.name} is left out: {fault}")
    return found


class Plan(NamedTuple):
    """What is compared: the sizes of groups, the shares that are lost, and kinds of members."""

    groups: Sequence[int]
    shares: Sequence[float]
    kinds: Sequence[Kind]

    def rows(self) -> Iterator[tuple[Kind, Network]]:
        """A row for each kind in each network; with the seed the losses change, and nothing else."""
        there = those_there(self.kinds)
        for members in self.groups:
            for share in self.shares:
                for kind in there:
                    yield kind, Network(members, share, DELAY, 0)


def place_of(network: Network) -> str:
    return f"{network.members}, {network.lose:.0%}"


def each_seed(runs: int, kind: Kind, network: Network, run: Callable[[Network], Found], side_by_side: int = 1) -> list[Found]:
    """What came of each session. If its processes do not begin, as on a machine that is too busy, it is left out, with a line."""

    def one(seed: int) -> Found | None:
        try:
            return run(network._replace(seed=seed))
        except Ended as fault:
            print(f"peers: {kind.name}, session {seed}, is left out: {fault}")
            return None

    with ThreadPoolExecutor(side_by_side) as threads:
        return [found for found in threads.map(one, range(1, runs + 1)) if found is not None]


def compare(plan: Plan, runs: int, drawings: int) -> None:
    """Prints the table of sessions."""
    title = f"{drawings} drawings, all draw, {DELAY:.0f} ms one way, {runs} sessions each"
    heads = "datagrams", "bytes", "median ms", "99 in 100, ms", "slowest, ms", "not by all"
    table = Table(title, "members, lost", "", *heads)
    for kind, network in plan.rows():
        outcomes = each_seed(runs, kind, network, partial(run, kind, drawings))
        table.row(place_of(network), kind.name, *cells_of(outcomes))


def compare_killed(plan: Plan, runs: int, side_by_side: int) -> None:
    """Prints the table of sessions whose last drawer is killed. They take little but time, so some run side by side."""
    title = f"The last to draw is killed {1000 * KILLED_AFTER:.0f} ms later: of {runs} sessions"
    table = Table(title, "members, lost", "", "all have what anyone has", "nobody has the last drawing")
    for kind, network in plan.rows():
        ends = each_seed(runs, kind, network, partial(run_and_kill, kind), side_by_side)
        cells = sum(end.is_same for end in ends), sum(not end.has_last for end in ends)
        table.row(place_of(network), kind.name, *(f"{cell} of {len(ends)}" for cell in cells))
