"""Sessions in virtual time: members as the program has them, without threads, sockets and pages, so that minutes of many members take seconds.
It tells how soon members know each other, what is lost until then, and what strangers come to have.

    python3 -m tests.live.test_virtual [MEMBERS ..]     so many members that join at once"""
from __future__ import annotations

import heapq
import itertools
import os
import random
import sys
import tempfile
from collections import Counter
from concurrent.futures import Future
from pathlib import Path
from typing import Any, Callable, Dict, List, NamedTuple, Optional, Tuple
from unittest import mock

from live.board import LISTENING
from live.carriers.carrier import Origin, owner_number
from live.clock import SECOND
from live.events import Events
from live.heard import PATIENCE
from live.inbox import Arrival
from live.judging import WHYS, Judging
from live.member import Member
from live.options import read_options
from live.record import Record
from live.views import Datagram
from live.words import SharedWords
from ..facts import Facts
from ..judging.reference import LEAST_SHARE, OF_ORIGIN, STRANGE_PAGES, STRANGERS
from .attacks.test_hostile import drawn, session
from .members import program

WALL = 1_764_000_000 * SECOND
PAGE = (1, 1)

# the share of datagrams that are lost, and how many microseconds each takes
LOSS, DELAY = 0.05, 2_000

# drawings of those that join, a few in each second from the first
DRAWINGS, PAUSE = 12, 2 * SECOND

CELLS = 4_096


class Due(NamedTuple):
    """A datagram that comes to a member."""

    at: int
    serial: int
    member: "Virtual"
    origin: Origin
    data: bytes


class Counting(Judging):
    """Counts why datagrams were not handed in, and takes no streams, but says of whom it would have."""

    def __init__(self, member: Member) -> None:
        super().__init__(member)
        self.dropped: "Counter[str]" = Counter()
        self.fetched: List[Origin] = []
        self.joining.fetch = lambda origin, _: self.fetched.append(origin)  # type: ignore[assignment]

    def heed(self, datagram: Datagram, digits: str, origin: Origin, sent: List[str]) -> Optional[str]:
        why = super().heed(datagram, digits, origin, sent)
        self.dropped.update([why] if why else [])
        return why


class Virtual:
    """A member, its clock, and its place in the network. The clock of each start begins somewhere."""

    def __init__(self, world: "World", number: int, record: Optional[str]) -> None:
        self.world, self.number = world, number
        self.origin = Origin("m%d" % number)
        self.sent: "Counter[str]" = Counter()
        options = read_options(["--cells", str(CELLS)])
        self.member = Member(options, os.environ["WB_PROGRAM"], Record(record), self, Events(), number, world.words)
        self.base = self.member.board.moment + world.chance.randrange(2**32) - world.now
        self.member.board.clock = self  # type: ignore[assignment]
        self.judging = Counting(self.member)
        self.member.judge(self.judging)
        self.next_at = 0  # when it has something to do, as it was when it last did something

    # ---- the clock

    def now(self) -> int:
        return self.base + self.world.now

    def look(self) -> None:
        """Looks when the member has something to do, in the time of the session. That changes only when it does something."""
        self.next_at = min((moment for moment, _ in self.judging.plan()), default=2**63) - self.base

    # ---- the carrier

    where = "a network in virtual time"

    def begin(self, inbox: Any) -> None:
        """Nothing arrives by itself."""

    def send(self, data: bytes) -> bool:
        self.sent["draw" if data[3] == 1 else "request" if data[3] == 3 else "other"] += 1
        for other in self.world.members:
            if other is not self and self.world.chance.random() >= self.world.loss:
                self.world.put(self.world.now + self.world.delay, other, self.origin, data)
        return True

    # ---- what is asked of it

    def draw(self, row: int, page: Tuple[int, int] = PAGE) -> "Future[Any]":
        drawing = self.member.people.draw(page, "line 0 %d 9 %d *" % (row, row))
        for call in self.member.inbox.take(0)[0]:
            call()
        self.member.people.draw_all()
        return drawing

    def held(self) -> int:
        return self.member.drawn.total

    def knows(self, other: "Virtual") -> bool:
        return self.judging.heard.is_member(other.origin)

    def end(self) -> None:
        self.member.board.close()


class World:
    """The members, the network between them, and the time."""

    def __init__(self, seed: int) -> None:
        self.now = 0
        self.chance = random.Random(seed)
        self.members: List[Virtual] = []
        self.queue: List[Due] = []
        self.loss, self.delay = LOSS, DELAY
        self.serials = itertools.count()
        self.words = SharedWords(os.environ["WB_PROGRAM"])

    def __enter__(self) -> "World":
        hosts = random.Random(self.chance.random())  # the seed of each board and when it begins, so that a run is the same each time
        self.patch = (
            *(mock.patch.multiple("live." + name, wall=self.wall) for name in ("board", "judging", "people")),
            mock.patch.multiple("live.board.secrets", randbits=hosts.getrandbits, SystemRandom=lambda: hosts),
        )
        for patch in self.patch:
            patch.start()
        return self

    def __exit__(self, *fault: Any) -> None:
        for patch in self.patch:
            patch.stop()
        for member in self.members:
            member.end()
        self.words.child.end()

    def wall(self) -> int:
        return WALL + self.now

    def join(self, number: int, record: Optional[str] = None) -> Virtual:
        self.members.append(Virtual(self, number, record))
        return self.members[-1]

    def put(self, at: int, member: Virtual, origin: Origin, data: bytes) -> None:
        heapq.heappush(self.queue, Due(at, next(self.serials), member, origin, data))

    def run(self, seconds: float) -> None:
        end = self.now + int(seconds * SECOND)
        for member in self.members:
            member.look()
        while True:
            acting = min(self.members, key=lambda member: max(self.now, member.next_at))
            due, comes = max(self.now, acting.next_at), self.queue[0].at if self.queue else end + 1
            self.now = min(due, max(comes, self.now), end)
            if min(due, comes) > end:
                return
            if due <= comes:
                acting.member.pass_time()
            else:
                arrival = heapq.heappop(self.queue)
                acting = arrival.member
                acting.judging.arrive([Arrival(arrival.data, arrival.origin)])
            acting.look()

    def lose_drawing(self, member: "Virtual") -> None:
        """A member draws, and no other gets it."""
        self.loss = 1.0
        member.draw(1)
        self.loss = LOSS

    def run_until(self, is_so: Callable[[], bool], longest: int) -> Optional[int]:
        """After how many seconds something is so; none if it takes longer."""
        for second in range(1, longest + 1):
            self.run(1)
            if is_so():
                return second
        return None

    def pairs(self) -> float:
        """Which part of all pairs know each other, one of the other."""
        known = [one.knows(other) for one in self.members for other in self.members if one is not other]
        return sum(known) / len(known)


# ---- what is measured


class Joined(NamedTuple):
    """The part of pairs that know each other after these seconds; what was sent in the first 30; and when all drawings had come."""

    pairs: Dict[int, float]
    requests: int
    drawops: int
    whole: Optional[int]


def join_at_once(count: int, moments: Tuple[int, ...] = (10, 30, 40, 60, 90), longest: int = 120) -> Joined:
    """So many members begin at once, and one after another draws."""
    with World(count) as world:
        members = [world.join(number) for number in range(1, count + 1)]
        pairs: Dict[int, float] = {}
        whole, sent = None, [0, 0]
        for second in range(1, longest + 1):
            if second % (PAUSE // SECOND) == 1 and second // (PAUSE // SECOND) < DRAWINGS:
                members[second * 7 % count].draw(second)
            world.run(1)
            if second in moments:
                pairs[second] = world.pairs()
            if second == 30:
                sent = [sum(member.sent[kind] for member in members) for kind in ("request", "draw")]
            if whole is None and all(member.held() == DRAWINGS for member in members):
                whole = second
            if whole and second >= max(moments):
                break
        return Joined(pairs, sent[0], sent[1], whole)


def beside_a_stranger(count: int) -> Tuple[List[int], List[int], "Counter[str]"]:
    """Members draw while a stranger draws, reports and speaks under their numbers: what each holds of members, and of the stranger; and why
    what members sent was dropped after a minute."""
    with World(count) as world:
        members = [world.join(number) for number in range(1, count + 1)]
        world.run(60)
        early = [Counter(member.judging.dropped) for member in members]
        eve = Origin("eve")
        for second in range(60):
            for member in members:
                member.draw(second % 90)
                for turn in range(20):
                    world.put(world.now + 50_000 * turn, member, eve, drawn(900, 1 + 20 * second + turn, world.wall(), 99, b"e", (9, 9)))
                world.put(world.now, member, eve, session(members[0].number, 5, (9, 9), {900: 1_200}))
            world.run(1)
        world.run(30)
        held = [sum(drawop.name[0] <= count for drawop in member.member.drawn.all()) for member in members]
        dropped: "Counter[str]" = Counter()
        for member, before in zip(members, early):
            dropped += member.judging.dropped - before
        return held, [member.held() - own for member, own in zip(members, held)], dropped


class AfterForgeries(NamedTuple):
    """After how many seconds a drawing was there that was lost, and how many pages strangers have."""

    there: Optional[int]
    pages: int


def beside_forged_pages(forged: int, longest: int = 240) -> AfterForgeries:
    """Strangers begin pages with two members. Then one of these draws, and the other has to hear of it."""
    with World(forged) as world:
        members = [world.join(1), world.join(2)]
        world.run(20)
        for number in range(forged):
            for member in members:
                world.put(world.now + 2_000 * number, member, Origin("eve%d" % (number % 9)), drawn(900, 1, world.wall(), 99, b"e", (0, number + 1)))
        world.run(10)
        world.lose_drawing(members[0])
        drawn_on = len(members[1].member.drawn.drawn_pages())
        return AfterForgeries(world.run_until(lambda: members[1].member.drawn.holds((1, PAGE, 1)), longest), drawn_on)


def beside_pages_of_a_member(pages: int, longest: int = 240) -> Optional[int]:
    """A member draws on many pages, and all comes. Its last drawing is lost: after how many seconds it is there."""
    with World(pages) as world:
        members = [world.join(1), world.join(2)]
        world.run(20)
        world.loss = 0.0
        for number in range(pages):
            members[0].draw(1, (1, number + 2))
            world.run(0.1)
        while members[1].held() < pages:
            world.run(10)
        world.lose_drawing(members[0])
        return world.run_until(lambda: members[1].member.drawn.holds((1, PAGE, 1)), longest)


class Crowded(NamedTuple):
    """Which part of pairs know each other, and how many forged numbers each member took for one and dropped."""

    pairs: float
    taken: List[int]
    dropped: List[int]


def beside_a_crowd(forged: int, seconds: int = 190) -> Crowded:
    """Somebody speaks under many numbers while a member joins two others."""
    with World(forged) as world:
        members = [world.join(1), world.join(2)]
        world.run(20)
        members.append(world.join(3))
        for number in range(forged):
            for member in members:
                world.put(world.now + 1_000 * number, member, Origin("eve%d" % number), session(10_000 + number, 5, PAGE, {}))
        world.run(seconds)
        taken = [sum(number >= 10_000 for number in member.judging.heard.within(PATIENCE)) for member in members]
        return Crowded(world.pairs(), taken, [member.judging.dropped[WHYS["crowd"]] for member in members])


def beside_a_crowd_for_long(seconds: int, pause: int = SECOND // 10) -> int:
    """Somebody speaks under a number after another for so long: how many of them a member takes for one."""
    with World(seconds) as world:
        member = world.join(1)
        count = seconds * SECOND // pause
        for number in range(count):
            world.put(world.now + number * pause, member, Origin("eve%d" % number), session(10_000 + number, 5, PAGE, {}))
        world.run(seconds)
        return count - member.judging.dropped[WHYS["crowd"]]


def found_in_a_crowd(seed: int, longest: int = 60) -> Optional[int]:
    """Somebody speaks to one of two members, 200 times a second and under another number each time, and a third member joins: after how many
    seconds the one knows it."""
    with World(seed) as world:
        member, _ = world.join(1), world.join(2)
        world.run(20)

        def crowd(seconds: int) -> None:
            for number in range(world.now // 5_000, world.now // 5_000 + 200 * seconds):
                world.put(5_000 * number, member, Origin("eve%d" % number), session(10_000 + number, 5, PAGE, {}))
            world.run(seconds)

        crowd(5)
        late = world.join(3)
        for second in range(1, longest + 1):
            crowd(1)
            if member.knows(late):
                return second
        return None


class Restored(NamedTuple):
    """How many of its three drawings a member holds that lost the last in a crash, whether it takes another for one of its number, and the
    number of its next drawing, or why there is none."""

    held: int
    has_twin: bool
    drawn: str


def after_a_crash(seed: int) -> Restored:
    """A member draws three times, and its record has two. Another member holds all of them, and reports while the first one listens."""
    with tempfile.TemporaryDirectory() as folder, World(seed) as world:
        path = Path(folder) / "a.wb"
        world.loss = 0.0
        first, _ = world.join(1, str(path)), world.join(2)
        world.run(20)
        for row in (1, 2, 3):
            kept = path.read_text()
            first.draw(row)
            world.run(5)
        world.members.remove(first)
        first.end()
        path.write_text(kept)
        again = world.join(1, str(path))
        again.base = again.member.board.moment + 1 - world.now  # it listens from now on
        world.run(LISTENING / SECOND + 61)
        drawing = again.draw(4)
        return Restored(again.held() - (drawing.exception(0) is None), again.judging.has_twin, str(drawing.exception(0) or drawing.result(0)["seq"]))


class Departed(NamedTuple):
    """After how many seconds newcomers had a board whose sources have all left, what each dropped, and how often each would have taken a stream."""

    whole: Optional[int]
    dropped: List[Dict[str, int]]
    fetched: List[int]


def among_departed(drawops: int, newcomers: int, pages: int = 4, longest: int = 120) -> Departed:
    """One member has the record of that board, and others come."""
    with tempfile.TemporaryDirectory() as folder, World(drawops) as world:
        path = Path(folder) / "full.wb"
        digits = [drawn(100 + n % 12, 1 + n // 12, WALL - n, n % 90, b"*", (100 + n % pages, 1)).hex() for n in range(drawops)]
        path.write_text("board 1 %d 1 42\ntick 5\n" % CELLS + "".join("datagram %s\n" % each for each in digits))
        world.join(1, str(path))
        members = [world.join(number) for number in range(2, newcomers + 2)]
        whole = world.run_until(lambda: all(member.held() == drawops for member in members), longest)
        return Departed(whole, [dict(member.judging.dropped) for member in members], [len(member.judging.fetched) for member in members])


def below_a_stranger(number: int) -> int:
    """A stranger sends a drawop of that number, and none before it, to two members: how many requests these send in the minute after."""
    with World(1) as world:
        two = [world.join(each) for each in (1, 2)]
        world.run(30)
        before = sum(member.sent["request"] for member in two)
        for member in two:
            world.put(world.now, member, Origin("stranger"), drawn(900, number, WALL, 9, b"h", PAGE))
        world.run(60)
        return sum(member.sent["request"] for member in two) - before


def asked_ahead(hours: int = 30) -> Tuple[int, "Counter[str]"]:
    """A member holds two drawops of a time so far ahead, which it reports: how often another asks for them in a minute, and why it dropped what came."""
    with tempfile.TemporaryDirectory() as folder, World(hours) as world:
        path = Path(folder) / "ahead.wb"
        digits = [drawn(100, number, WALL + hours * 3_600 * SECOND, number, b"*", PAGE).hex() for number in (1, 2)]
        path.write_text("board 1 %d 1 42\ntick 5\n" % CELLS + "".join("datagram %s\n" % each for each in digits))
        world.join(1, str(path))
        late = world.join(2)
        world.run(60)
        before = late.sent["request"]
        late.judging.dropped.clear()
        world.run(60)
        return late.sent["request"] - before, Counter(late.judging.dropped)


class Owned(NamedTuple):
    """The owners that a record names before a start, after it, and under a new number; whether who answered first under the number of one was taken for it,
    and how often it was dropped; and whether the owner was known again."""

    before: List[str]
    after: List[str]
    renumbered: List[str]
    is_taken: bool
    dropped: int
    is_known: bool


def owners_of(path: Path) -> List[str]:
    return [line for line in path.read_text().split("\n") if line.startswith("owner ")]


def over_a_start(seed: int) -> Owned:
    """At a network that keeps names a member starts again, and somebody answers it under another's number before that one is back. Places have other numbers
    after the start, as in another process. A name that does not last is that of another member of the same program."""
    with tempfile.TemporaryDirectory() as folder, World(seed) as world:
        path, other = Path(folder) / "a.wb", Path(folder) / "b.wb"
        first, bob, guest = world.join(1, str(path)), world.join(2), world.join(3)
        first.origin, bob.origin, guest.origin = Origin("anna", is_kept=True), Origin("bob", is_kept=True), Origin("here/3", is_kept=True, lasts=False)
        world.run(40)
        before = owners_of(path)
        for member in (first, bob, guest):
            world.members.remove(member)
            member.end()
        with mock.patch("live.carriers.carrier.KEY", bytes(16)):
            again, mallory = world.join(1, str(path)), world.join(2)
            again.origin, mallory.origin = first.origin, Origin("mallory", is_kept=True)
            world.run(40)
            is_taken, dropped = again.knows(mallory), again.judging.dropped[WHYS["speaks"]]
            world.members.remove(mallory)
            mallory.end()
            back = world.join(2)
            back.origin = bob.origin
            world.run(40)
            after, is_known = owners_of(path), again.knows(back)
            again.member.board.renumber(4, str(other), [])
        return Owned(before, after, owners_of(other), is_taken, dropped, is_known)


def tell(count: int, joined: Joined) -> None:
    known = ", ".join("%d s: %.0f %%" % (second, 100 * part) for second, part in joined.pairs.items())
    print("%d members join at once: pairs that know each other after %s; in 30 s %d requests and %d drawings and repairs for %d drawings; all came after %s s" % (
        count, known, joined.requests, joined.drawops, DRAWINGS, joined.whole))


# ---- tests


def test_joining(facts: Facts) -> None:
    joined = join_at_once(12)
    tell(12, joined)
    facts("of 12 that join at once all know each other within 30 s", joined.pairs[30], 1.0)
    facts("and all have all drawings", joined.whole is not None, True)


def test_strangers(facts: Facts) -> None:
    most = CELLS // STRANGERS, max(LEAST_SHARE, CELLS // OF_ORIGIN)
    for count in (2, 3):
        held, strange, dropped = beside_a_stranger(count)
        print("%d members beside a stranger: of 1,200 drawops of it they hold %s; of each other's %s; dropped of all %s" % (count, strange, held, dict(dropped)))
        facts("beside a stranger %d members have all of each other's" % count, held, [60 * count] * count)
        facts("and of it at most its share, and what the others repaired", [each <= min(count * most[1], most[0]) for each in strange], [True] * count)


def test_pages(facts: Facts) -> None:
    """A host reports its pages in turn, so beside many pages a loss is reported late: strangers begin few."""
    told = beside_forged_pages(250)
    print("beside 250 pages that strangers begin, of which %d are kept, a lost drawing is there after %s s" % told[::-1])
    facts.holds("strangers have few pages", told.pages <= STRANGE_PAGES, told.pages)
    facts("and a drawing that was lost beside them is told", told.there is not None, True)


def test_pages_of_a_member(facts: Facts) -> None:
    """Of two reports one tells the page that changed last, so a loss there is soon told, however many pages there are."""
    there = beside_pages_of_a_member(1_000)
    print("beside 1,000 pages of a member a last drawing that was lost is there after %s s" % there)
    facts.holds("a last drawing that was lost is there within 30 s", there is not None and there <= 30, there)


def test_crowd(facts: Facts) -> None:
    """Numbers that speak first are few, and who answers finds room beside them."""
    told = beside_a_crowd(400)
    print("beside 400 numbers that are forged, of which each takes %s for members that speak first, all know a newcomer: %.0f %%" % (told.taken, 100 * told.pairs))
    facts("a newcomer and the others come to know each other", told.pairs, 1.0)
    facts("256 numbers that speak first are heard at once", [250 <= each <= 257 for each in told.taken], [True] * 3)
    facts("and the others are dropped", [taken + dropped >= 400 for taken, dropped in zip(told.taken, told.dropped)], [True] * 3)


def test_crowd_for_long(facts: Facts) -> None:
    """A host remembers 65,535 numbers for good, so they are taken slowly."""
    seconds = 180
    taken = beside_a_crowd_for_long(seconds)
    print("of ten forged numbers a second a member took %d for members in %d s" % (taken, seconds))
    facts.holds("256 numbers are taken at once, and then one a second", 256 < taken <= 256 + seconds, taken)


def test_found_in_a_crowd(facts: Facts) -> None:
    """Who answers has room of its own."""
    told = [found_in_a_crowd(seed) for seed in (1, 2, 3)]
    print("beside 200 forged numbers a second a member knows a newcomer after %s s" % told)
    facts.holds("who answers is known, however many others speak", None not in told, told)


def test_crash(facts: Facts) -> None:
    """What a crash lost of ours a member gives back, once we have listened. Nobody has our number then, and it goes on above."""
    for seed in (1, 2, 3):
        facts("what was lost is there again, and the next drawing is the fourth", after_a_crash(seed), Restored(3, False, "4"))


def test_owners(facts: Facts) -> None:
    owned = over_a_start(6)
    facts("who answered under a number is recorded", [(line.split(" ")[1], line.partition("@")[2]) for line in owned.before], [("2", "%d" % owner_number("bob"))])
    facts("once, and also under a new number of ours", (owned.after, owned.renumbered), (owned.before, owned.before))
    facts("whoever answers first under it after a start is dropped", (owned.is_taken, owned.dropped > 3), (False, True))
    facts("and its owner is known again", owned.is_known, True)


def test_departed(facts: Facts) -> None:
    told = among_departed(900, 2)
    print("900 drawops of 12 sources that have left: two newcomers have them after %s s; they dropped %s" % (told.whole, told.dropped))
    facts("newcomers have what was drawn by who has left", told.whole is not None, True)
    told = among_departed(900, 2, pages=1)
    facts("of a page of which they lack 500 they would have taken a stream", [each > 0 for each in told.fetched], [True, True])


def test_ahead(facts: Facts) -> None:
    """What is dropped for its time is asked for again, within the credit of four names a second."""
    requests, dropped = asked_ahead()
    print("two drawops that are 30 hours ahead are asked for %d times in a minute; dropped: %s" % (requests, dict(dropped)))
    facts("they are dropped for that alone", (list(dropped), dropped[WHYS["ahead"]] > 0), ([WHYS["ahead"]], True))
    facts.holds("and asked for, not too often", 0 < requests <= 4 * 60, requests)


def test_left_out(facts: Facts) -> None:
    """Nobody has what a stranger left out."""
    facts("nobody asks for what a stranger left out", [below_a_stranger(number) for number in (2**32 - 1, 1_000, 2)], [0, 0, 0])


def main(words: List[str]) -> None:
    program()
    for count in map(int, words or ["20", "40", "48"]):
        tell(count, join_at_once(count))
    for drawops in (300, 900):
        print("%d drawops of 12 sources that have left: two newcomers have them after %s s; they dropped %s; streams %s" % (drawops, *among_departed(drawops, 2)))
    print("two drawops that are 30 hours ahead are asked for %d times in a minute" % asked_ahead()[0])


if __name__ == "__main__":
    main(sys.argv[1:])
