"""A run: its settings, the session that they describe, and what it measures."""
from __future__ import annotations

import random
import sys
import tempfile
import time
from collections.abc import Callable
from dataclasses import asdict, dataclass
from pathlib import Path
from typing import Any

from laboratory.adapting import Adapting, ByMembers, Constants, Policy
from laboratory.clocks import Clock
from laboratory.driving import UNKNOWN_DELAY, Tuner
from laboratory.hosts import PATIENCE, BareMember, Fault, KeptMember, Member, allow_many, write_record
from laboratory.losses import Both, Bursts, Cut, Loss, NoLoss, OnceEach, Same, Share, ShareIn
from laboratory.measures import Book, Row, row_of, summary
from laboratory.network import Network
from laboratory.queues import Queues
from laboratory.reading import Read, Reader
from laboratory.session import Plan, Session
from laboratory.shapes import Tree, make_tree
from laboratory.timers import TimerMember, Words
from wbhost import Host

SECOND = 1_000_000
DEFAULT_TUNING = "2,2,1,1"
KEPT_DELAYS = 10_000, SECOND


@dataclass(frozen=True)
class Settings:
    """What a run is of. Delays and times are seconds; `degree` and `nodes` are for trees, and 0 nodes means one a member.

    `who` is what the members are: `hosts`, or `timers` that are reckoned here. Their constants are those of `tuning` and `fixed`, or `adapt`
    from these on: by the number of `members`, or as `published`. `judge` says who judges for hosts: the members themselves (`keep`, whose
    reports have `rate` bytes a second together), or the laboratory as their driver (`looks`). The first drawing is at `start`. `late`
    members come at `join`, or when half is drawn; `leaving` members go then; `coming` members go and come, for `gone` seconds at a time.
    `fast` lets each member's clock gain or lose at most as many microseconds in a million. Links carry `bandwidth` bytes a second, if it
    is not 0, and queue `queue` bytes. The run goes on to `lasts`, also if all is well.
    """

    shape: str = "star"
    members: int = 8
    nodes: int = 0
    degree: int = 4
    delay: tuple[float, float] = (0.01, 0.01)
    seed: int = 1
    loss: str = "each"
    drawers: int = 1
    draws: int = 20
    every: float = 1.0
    start: float = 1.0
    late: int = 0
    join: float = 0.0
    leaving: int = 0
    coming: int = 0
    gone: float = 10.0
    tuning: str = DEFAULT_TUNING
    who: str = "hosts"
    adapt: str = "fixed"
    judge: str = "looks"
    rate: int = 4_000
    session: float = 0.0
    distances: str = "known"
    deaf: int = 0
    fast: int = 0
    bandwidth: int = 0
    queue: int = 20_000
    until: float = 0.0
    lasts: float = 0.0


@dataclass(frozen=True)
class Result:
    """What a run measured."""

    settings: Settings
    rows: list[Row]
    totals: dict[str, Any]

    def as_json(self) -> dict[str, Any]:
        return {"settings": asdict(self.settings), "summary": summary(self.rows), "totals": self.totals, "losses": [asdict(r) for r in self.rows]}


def micros(seconds: float) -> int:
    return round(seconds * SECOND)


def make_loss(words: str, tree: Tree, chance: random.Random) -> Loss:
    """The loss that a word tells, as `lab/wb-lab --help` has them. Two kinds are joined by a plus."""
    if "+" in words:
        one, _, other = words.partition("+")
        return Both(make_loss(one, tree, chance), make_loss(other, tree, chance))
    kind, *rest = words.split(":")
    match kind, rest:
        case "none", []:
            return NoLoss()
        case "each", []:
            return OnceEach(chance)
        case "same", []:
            return Same(chance)
        case "link", [links]:
            return OnceEach(chance, [link_of(tree, ends) for ends in links.split(",")])
        case ("share" | "share-all"), [share]:
            return Share(chance, float(share), kind == "share")
        case "share-in", [share]:
            return ShareIn(chance, float(share))
        case "burst", [between, share]:
            return Share(chance, float(share), False, moments(between))
        case "cut", [ends, between]:
            return Cut(link_of(tree, ends), moments(between))
        case "bursts", [bad, lasts, share]:
            return Bursts(chance, float(bad), float(lasts) * SECOND, float(share))
    raise ValueError(f"no loss is called {words}")


def link_of(tree: Tree, ends: str) -> int:
    wanted = {int(node) for node in ends.split("-")}
    return next(i for i, link in enumerate(tree.links) if {link.one, link.other} == wanted)


def moments(words: str) -> tuple[float, float]:
    start, end = (float(moment) * SECOND for moment in words.split("-"))
    return start, end


def make_plan(settings: Settings) -> Plan:
    """Who draws when. The last members come late; those before them leave for good, and those before these go and come."""
    every, drawers, start = micros(settings.every), settings.drawers, micros(settings.start)
    draws = [(start + n * every + d * every // drawers, d + 1) for n in range(settings.draws) for d in range(drawers)]
    end = start + settings.draws * every
    half = start + settings.draws * every // 2
    until = micros(settings.until or settings.lasts) or end + 3_600 * SECOND
    first_late = settings.members - settings.late + 1
    first_leaving = first_late - settings.leaving
    first_coming = first_leaving - settings.coming
    gone = micros(settings.gone)
    away: dict[int, tuple[tuple[int, int], ...]] = {member: ((0, micros(settings.join) or half),) for member in range(first_late, settings.members + 1)}
    away.update({member: ((half, until + 1),) for member in range(first_leaving, first_late)})
    for place, member in enumerate(range(first_coming, first_leaving)):
        begin = start + place * gone // max(1, settings.coming)
        away[member] = tuple((at, at + gone) for at in range(begin, end, 2 * gone))
    return Plan(draws, micros(settings.session), until, away, settings.judge == "keep", settings.lasts > 0)


def make_network(settings: Settings, chance: random.Random) -> Network:
    low, high = (micros(delay) for delay in settings.delay)
    tree = make_tree(settings.shape, settings.members, settings.nodes or settings.members, settings.degree, (low, high), chance)
    return Network(tree, make_loss(settings.loss, tree, chance), settings.deaf or None)


def board_words(settings: Settings) -> dict[int, int]:
    """The seed of each member's random words: all of them are apart, for every two seeds of a run too."""
    return {member: settings.seed * 100_003 + member for member in range(1, settings.members + 1)}


def start_hosts(path: str, settings: Settings, network: Network, plan: Plan, read: Read, chance: random.Random) -> dict[int, Member]:
    """A host for each member, with an open board."""
    options = () if settings.tuning == DEFAULT_TUNING else ("--tuning", settings.tuning)
    cells = min(65_535, len(plan.draws) + 1)
    hosts = {number: Host(path, *options, patience=PATIENCE) for number in range(1, settings.members + 1)}
    members: dict[int, Member] = {}
    for number, seed in board_words(settings).items():
        opening = f"board {number} {cells} 1 {seed}"
        clock = Clock(chance.randrange(SECOND), chance.randint(-settings.fast, settings.fast)) if settings.fast else Clock()
        tuner = make_tuner(settings, network, plan, read, number)
        if settings.judge == "keep":
            members[number] = KeptMember(number, hosts[number], opening, clock, settings.rate, tuner)
        else:
            far = network.distance if settings.distances == "known" else None
            members[number] = BareMember(number, hosts[number], opening, clock, far, tuner)
    return members


def make_tuner(settings: Settings, network: Network, plan: Plan, read: Read, number: int) -> Tuner | None:
    """The driver of a host whose constants follow the session. A self-managing host counts no delay as less than 10 ms or more than a
    second."""
    if settings.adapt == "fixed":
        return None
    least, most = KEPT_DELAYS if settings.judge == "keep" else (0, SECOND)

    def far(other: int) -> int:
        return UNKNOWN_DELAY if other == number else min(most, max(least, network.distance(number, other)))

    return Tuner(make_policy(settings, present_in(settings, plan)), constants_in(settings.tuning), far, read)


def present_in(settings: Settings, plan: Plan) -> Callable[[int], int]:
    """How many members are there at a moment."""
    return lambda moment: settings.members - sum(start <= moment < end for times in plan.away.values() for start, end in times)


def start_timers(settings: Settings, network: Network, plan: Plan) -> dict[int, Member]:
    """Timers for each member, with the words that its host would have."""
    present, words = present_in(settings, plan), board_words(settings)
    return {number: TimerMember(number, Words(seed), make_policy(settings, present), network.distance) for number, seed in words.items()}


def constants_in(tuning: str) -> Constants:
    c1, c2, d1, d2 = (int(constant) for constant in tuning.split(","))
    return c1, c2, d1, d2


def make_policy(settings: Settings, present: Callable[[int], int]) -> Policy:
    """The constants of one member: fixed, by the number of members that are present, or adapting from these on."""
    constants = constants_in(settings.tuning)
    policies: dict[str, Callable[[], Policy]] = {
        "fixed": lambda: Policy(constants), "members": lambda: ByMembers(present), "published": lambda: Adapting(constants),
    }
    return policies[settings.adapt]()


class Progress:
    """A line on a terminal that says how far a run is."""

    def __init__(self, name: str) -> None:
        self.name, self.shown, self.is_on = name, 0.0, sys.stderr.isatty()

    def show(self, moment: int, book: Book) -> None:
        if self.is_on and time.monotonic() - self.shown > 0.5:
            self.shown = time.monotonic()
            sys.stderr.write(f"\r{self.name}: {moment / SECOND:.1f} s, {len(book.losses)} losses, {book.deliveries} datagrams came\033[K")

    def end(self) -> None:
        if self.is_on:
            sys.stderr.write("\r\033[K")


def totals_of(session: Session) -> dict[str, Any]:
    book = session.book
    last_new = max((getattr(member, "last_new", 0) for member in session.members.values()), default=0)
    return {
        "datagrams": dict(sorted(book.sent.items())),
        "bytes": dict(sorted(book.bytes_sent.items())),
        "came": book.deliveries,
        "dropped": book.dropped,
        "reports": reports_of(session),
        "seconds": session.now / SECOND,
        "seconds_until_all_show_the_same": max(0, max(last_new, *book.whole.values(), 0) - book.last_sent) / SECOND,
        "last_whole": max(book.whole.values(), default=0) / SECOND,
        "seconds_from_coming": [took / SECOND for _, _, took in sorted(book.returns)],
        "all_show_the_same": True,
    }


def reports_of(session: Session) -> dict[str, float]:
    """The session messages of the second half of a run: bytes a second of all of them, the mean of their bytes, and seconds between two of
    a member. A member that sent none in that time counts with the time."""
    half, reports = session.now / 2, session.book.reports
    late = [size for sent in reports.values() for moment, size in sent if moment >= half]
    seconds = (session.now - half) / SECOND
    count = len(late)
    if not count or not seconds:
        return {}
    return {"bytes_a_second": sum(late) / seconds, "bytes": sum(late) / count, "interval": len(session.members) * seconds / count}


def run(settings: Settings, path: str, record: Path | None = None, see: Callable[[Session], None] = lambda session: None) -> Result:
    """Runs a session to its end. One that does not end with equal canvases and reports is a fault, and its record is written."""
    chance = random.Random(settings.seed)
    network, plan = make_network(settings, chance), make_plan(settings)
    allow_many(settings.members)
    progress, reader = Progress(f"{settings.shape} of {settings.members}"), Reader(path)
    if settings.who == "hosts":
        members = start_hosts(path, settings, network, plan, reader.read, chance)
    else:
        members = start_timers(settings, network, plan)
    queues = Queues(network, settings.bandwidth, settings.queue) if settings.bandwidth else None
    session = Session(members, network, plan, chance, reader.read, queues, progress.show)
    try:
        session.run()
        session.compare()
        see(session)
    except Fault as fault:
        kept = record or Path(tempfile.mkdtemp(prefix="wb-lab-"))
        write_record(kept, list(members.values()))
        raise Fault(f"{fault}; the members' lines are in {kept}") from fault
    finally:
        progress.end()
        reader.end()
        for member in members.values():
            member.close()
    if record:
        write_record(record, list(members.values()))
    return Result(settings, rows_of(session), totals_of(session))


def rows_of(session: Session) -> list[Row]:
    losses, distances = session.book.losses, session.network
    rows = []
    for name in sorted(losses):
        distances.way(name[0])
        rows.append(row_of(losses[name], distances.distances[name[0]]))
    return rows
