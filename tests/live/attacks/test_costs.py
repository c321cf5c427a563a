"""What a host does for one more datagram takes no longer where much stands: many pages with a hole, many sources on a page, many drawings of one source."""
from __future__ import annotations

import os
import struct
import subprocess
from typing import Callable, Dict, List

import pytest

from ...facts import Facts
from .test_hostile import drawn, framed, state

WALL = 1_764_000_000_000_000
ME, MEMBER, ORIGIN = 1, 9, 6
START = ["board %d 65535 1 42" % ME, "judge 5 4000 1 %d - -" % WALL, "tick 2000005"]
AFTER = 2_000_010

# So many datagrams, and eight times as many. These take some eight times as long if each takes as long, and 64 times if each takes as long as those before it are many.
FEW, TIMES, MOST = 2_000, 8, 20


def run(lines: List[str]) -> str:
    given = "".join(line + "\n" for line in lines)
    return subprocess.run([os.environ["WB_PROGRAM"], "host"], input=given, stdout=subprocess.PIPE, text=True, check=True).stdout


def met() -> List[str]:
    """A host, and a member that has echoed the moment of its first report."""
    report = next(line.split()[1] for line in run(START).splitlines() if line.startswith("send 57420102"))
    echo = struct.pack(">HHIQQ", 0, 1, ME, int(report[24:40], 16), 0)
    return [*START, "came %d %d %s" % (AFTER - 1, ORIGIN, framed(2, struct.pack(">IQII", MEMBER, 7, 1, 1) + echo).hex())]


def seconds(lines: List[str], facts: Facts, what: str) -> float:
    """The least of three times of processor that a host takes for these lines. Other work beside it counts little."""
    times: List[float] = []
    for _ in range(3):
        before = os.times()
        said = run(lines)
        times.append(os.times().children_user - before.children_user)
    facts("%s: all are handed in" % what, [word for word in ("dropped", "refused") if word in said], [])
    return min(times)


def came(at: int, data: bytes) -> str:
    return "came %d %d %s" % (AFTER + at, ORIGIN, data.hex())


def with_holes(count: int) -> List[str]:
    """A page each, on which number 1 is missing."""
    return [came(at, drawn(MEMBER, 2, WALL, 1, b"*", (5, 1 + at))) for at in range(count)]


GROWING: Dict[str, Callable[[int], List[str]]] = {
    "page states of a new source each": lambda count: [came(at, state(MEMBER, (1, 1), {1_000 + at: 1})) for at in range(count)],
    "pages with a hole": with_holes,
    "even numbers, a second apart": lambda count: [came(1_000_000 * at, drawn(MEMBER, 2 + 2 * at, WALL, 1, b"*")) for at in range(count // 4)],
    "falling even numbers": lambda count: [came(at, drawn(MEMBER, 2 * (count - at), WALL, 1, b"*")) for at in range(count)],
}


@pytest.mark.parametrize("what", GROWING)
def test_each(facts: Facts, what: str) -> None:
    few, many = (seconds(met() + GROWING[what](count), facts, what) for count in (FEW, TIMES * FEW))
    print("%s: %d take %.2f s, and %d times as many %.2f s" % (what, FEW, few, TIMES, many))
    facts.holds("%s: the last takes as long as the first" % what, many < MOST * max(few, 0.01), (few, many))


def test_holes(facts: Facts) -> None:
    """Beside pages with a hole, moments go by and holes are filled."""
    rows = met() + with_holes(TIMES * FEW)
    after = TIMES * FEW + 1_000_000
    ticks = ["tick %d" % (AFTER + after + 2_000_000 * each) for each in range(100)]
    filled = [came(after + each, drawn(MEMBER, 1, WALL, 1, b"*", (5, 1 + each))) for each in range(100)]
    alone, waiting, filling = (seconds(rows + more, facts, "beside holes") for more in (list[str](), ticks, filled))
    print("%d pages with a hole take %.2f s, with 200 s that go by %.2f s, and with 100 that are filled %.2f s" % (TIMES * FEW, alone, waiting, filling))
    facts.holds("beside them 200 s go by soon", waiting < 5 * alone + 1, (alone, waiting))
    facts.holds("and 100 are filled soon", filling < 5 * alone + 1, (alone, filling))
