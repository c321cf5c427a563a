"""What one member can't do to the others, though it has answered them: make them an amplifier by requests, keep a drawing from being repaired by
copies of it, and put a request off by its own. Nor can a stranger. In virtual time.

    python3 -m tests.live.attacks.test_hushed RUNS [MEMBERS ..]     how long that takes in so many runs, with this number of honest members"""
from __future__ import annotations

import statistics
import struct
import sys
import tempfile
from pathlib import Path
from typing import Callable, List, Optional, Sequence, Tuple
from unittest import mock

import pytest

from live.carriers.carrier import Origin
from live.clock import SECOND
from ...facts import Facts
from ...judging.reference import REPAIRS_OF_ONE, REPAIR_PAUSE
from ..members import program
from .test_hostile import drawn, framed
from ..test_virtual import CELLS, PAGE, WALL, Virtual, World

# After each request the attacker sends copies of what it asks for to all that hold it, one in each pause, for longer than an answer takes.
COPIES_FOR, COPIES_PAUSE = SECOND // 10, SECOND // 200

# requests in a second: for what is held, and for what the one lacks that hears them; and a stranger's copies of what is held
FLOOD, PUTTING_OFF, COPYING = 1_000, 400, 250

# the number and the place of somebody who has answered nobody
STRANGER, ELSEWHERE = 900, Origin("stranger")

# Seconds in which a drawing comes all the same, by how many honest members there are. Their turns are at random, but the same in each run.
SOON = {2: 25, 3: 25, 8: 60}


class Eve(Virtual):
    """A member like any other, but all it sends by itself are reports: it repairs nothing and asks for nothing."""

    def send(self, data: bytes) -> bool:
        return data[3] != 2 or super().send(data)


class Watched(World):
    """A session without losses, beside a member that may hush: to each request it sends copies of what was drawn to all that hold it."""

    def __init__(self, seed: int) -> None:
        super().__init__(seed)
        self.loss = 0.0
        self.eve: Optional[Virtual] = None
        self.holders: List[Virtual] = []
        self.drawing = b""

    def __enter__(self) -> "Watched":
        super().__enter__()
        return self

    def meet(self, count: int) -> List[Virtual]:
        """Honest members, of numbers at random, and the other. All come to know each other."""
        honest = [self.join(self.chance.randrange(1, 2**32)) for _ in range(count)]
        self.eve = Eve(self, self.chance.randrange(1, 2**32), None)
        self.members.append(self.eve)
        self.run(60)
        return honest

    def put(self, at: int, member: Virtual, origin: Origin, data: bytes) -> None:
        super().put(at, member, origin, data)
        self.drawing = data if data[3] == 1 else self.drawing
        if self.eve is not None and member is self.eve and data[3] == 3:
            for after in range(0, COPIES_FOR, COPIES_PAUSE):
                for holder in self.holders:
                    super().put(at + after, holder, self.eve.origin, self.drawing)

    def ask(self, member: Virtual, pause: int, names: List[Tuple[int, int]], origin: Optional[Origin] = None) -> None:
        """The attacker asks a member for these numbers of sources in turn, for a second; or a stranger from elsewhere does."""
        assert self.eve is not None
        asker = STRANGER if origin else self.eve.number
        for turn in range(SECOND // pause):
            source, number = names[turn % len(names)]
            self.put(self.now + turn * pause, member, origin or self.eve.origin, framed(3, struct.pack(">5I", asker, source, *PAGE, number)))


# ---- what is measured


def amplified(seconds: int, origin: Optional[Origin] = None, drawops: int = 400) -> int:
    """How many repairs a member sends that another member, or a stranger, asks for each of its drawops in turn, for some seconds."""
    with tempfile.TemporaryDirectory() as folder, Watched(1) as world:
        path = Path(folder) / "full.wb"
        digits = [drawn(100, 1 + n, WALL - n, n % 90, b"*", PAGE).hex() for n in range(drawops)]
        path.write_text("board 1 %d 1 42\ntick 5\n" % CELLS + "".join("datagram %s\n" % each for each in digits))
        holder = world.join(1, str(path))
        world.meet(1)
        before = holder.sent["draw"]
        for _ in range(seconds):
            world.ask(holder, SECOND // FLOOD, [(100, 1 + n) for n in range(drawops)], origin)
            world.run(1)
        return holder.sent["draw"] - before


def hushed(count: int, seed: int, longest: int = 120) -> Optional[int]:
    """One honest member comes late, and all others hold a drawing. After how many seconds it has it, beside the copies."""
    with Watched(seed) as world:
        holders = world.meet(count - 1)
        holders[0].draw(1)
        world.run(10)
        world.holders = holders
        late = world.join(world.chance.randrange(1, 2**32))
        for second in range(1, longest + 1):
            world.run(1)
            if late.held():
                return second
        return None


def put_off(count: int, seed: int, longest: int = 120) -> Optional[int]:
    """One honest member lacks a drawing that all others hold. After how many seconds it has it, beside requests for it that it hears."""
    with Watched(seed) as world:
        first, *others = world.meet(count)
        lacks = others[-1]
        with mock.patch.object(lacks.judging, "arrive"):
            first.draw(1)
            world.run(3)
        for second in range(1, longest + 1):
            world.ask(lacks, SECOND // PUTTING_OFF, [(first.number, 1)])
            world.run(1)
            if lacks.held():
                return second
        return None


def put_off_by_a_stranger(count: int, seed: int, longest: int = 60) -> Optional[int]:
    """The same beside requests of somebody who has answered nobody, and is heard by the one alone that lacks the drawing."""
    with Watched(seed) as world:
        first, *others = [world.join(world.chance.randrange(1, 2**32)) for _ in range(count)]
        world.run(60)
        lacks = others[-1]
        with mock.patch.object(lacks.judging, "arrive"):
            first.draw(1)
            world.run(3)
        asking = framed(3, struct.pack(">5I", STRANGER, first.number, *PAGE, 1))
        for second in range(1, longest + 1):
            for turn in range(PUTTING_OFF):
                world.put(world.now + turn * SECOND // PUTTING_OFF, lacks, ELSEWHERE, asking)
            world.run(1)
            if lacks.held():
                return second
        return None


def hushed_by_a_stranger(count: int, seed: int, longest: int = 60) -> Optional[int]:
    """One honest member comes late, and all others hold a drawing. After how many seconds it has it, beside copies of it that somebody sends to all
    holders who has answered nobody."""
    with Watched(seed) as world:
        holders = [world.join(world.chance.randrange(1, 2**32)) for _ in range(count - 1)]
        world.run(60)
        holders[0].draw(1)
        world.run(10)
        copy = bytes.fromhex(next(iter(holders[0].member.drawn.all())).digits)
        late = world.join(world.chance.randrange(1, 2**32))
        for second in range(1, longest + 1):
            for turn in range(COPYING):
                for holder in holders:
                    world.put(world.now + turn * SECOND // COPYING, holder, Origin("stranger"), copy)
            world.run(1)
            if late.held():
                return second
        return None


def told(second: Optional[int]) -> str:
    return "never" if second is None else "%d" % second


# ---- tests


def test_amplifying(facts: Facts) -> None:
    seconds = 2
    repairs = amplified(seconds)
    print("a member that sends %d requests a second for %d s gets %d repairs" % (FLOOD, seconds, repairs))
    facts.holds("a member that floods requests gets few repairs", 0 < repairs <= REPAIRS_OF_ONE + seconds * SECOND // REPAIR_PAUSE, repairs)


@pytest.mark.parametrize("count", SOON)
def test_hushing(facts: Facts, count: int) -> None:
    second = hushed(count, 1)
    print("beside a member that sends copies, a drawing came to the last of %d after %s s" % (count, told(second)))
    facts.holds("copies of a member keep no drawing from coming", second is not None and second <= SOON[count], second)


@pytest.mark.parametrize("count", (2, 3))
def test_putting_off(facts: Facts, count: int) -> None:
    second = put_off(count, 1)
    print("beside a member that sends requests, a drawing came to the last of %d after %s s" % (count, told(second)))
    facts.holds("requests of a member keep no drawing from coming", second is not None and second <= SOON[count], second)


@pytest.mark.parametrize("count", (2, 3))
def test_putting_off_by_a_stranger(facts: Facts, count: int) -> None:
    second = put_off_by_a_stranger(count, 1)
    print("beside a stranger that sends requests, a drawing came to the last of %d after %s s" % (count, told(second)))
    facts.holds("requests of a stranger keep no drawing from coming", second is not None and second <= 10, second)


@pytest.mark.parametrize("count", (2, 3))
def test_hushing_by_a_stranger(facts: Facts, count: int) -> None:
    second = hushed_by_a_stranger(count, 1)
    print("beside a stranger that sends copies, a drawing came to the last of %d after %s s" % (count, told(second)))
    facts.holds("copies of a stranger keep no drawing from coming", second is not None and second <= 10, second)


def parts(measure: Callable[[int, int], Optional[int]], count: int, runs: int) -> str:
    """The median, the 90th percentile and the most of the seconds that the runs take."""
    seconds: Sequence[float] = sorted(float("inf") if each is None else each for each in (measure(count, seed) for seed in range(1, runs + 1)))
    return "%g, %g, %g" % (statistics.median_low(seconds), seconds[min(runs - 1, 9 * runs // 10)], seconds[-1])


def main(words: List[str]) -> None:
    program()
    runs, *members = map(int, words or ["3"])
    for name, origin in (("a member", None), ("a stranger", ELSEWHERE)):
        print("repairs in 4 s of %d requests a second of %s: %d" % (FLOOD, name, amplified(4, origin)))
    for count in members or [2, 3, 8]:
        for name, measure in (("hushed", hushed), ("put off", put_off), ("hushed by a stranger", hushed_by_a_stranger)):
            print("%d members, %s: after %s s, of %d runs" % (count, name, parts(measure, count, runs), runs), flush=True)


if __name__ == "__main__":
    main(sys.argv[1:])
