"""Bad input: random and mutated datagrams, too many sources, and a flood change nothing that is shown."""
from __future__ import annotations

import random
import socket
import struct
import time
from functools import partial
from typing import Any, Dict, List, Optional, Tuple

from ...facts import Facts
from ..members import SLOW_FROM, Process, milliseconds_a_line

FIRST_PORT = 26_080
PAGE = "1/1"
SPEED = 10

# seconds for which it is watched that nothing happens
WHILE = 2

# bytes that a socket has room for, and what a datagram takes there beside its own
ROOM, BESIDE = 250_000, 800


def draw_datagram(source: int, seq: int, moment: int, glyph: bytes) -> bytes:
    """A line from (0, 1) to (4, 1), by docs/SCRIPTS.md."""
    body = struct.pack(">IIIIQB", source, 1, 1, seq, moment, 1) + struct.pack(">HHHH", 0, 1, 4, 1) + glyph
    return struct.pack(">2sBBI", b"WB", 1, 1, len(body)) + body


def report(sender: int, page: int, sources: range, high: int) -> bytes:
    """A page state with one mark for each source."""
    body = struct.pack(">IIIH", sender, 1, page, len(sources))
    body += b"".join(struct.pack(">II", source, high) for source in sources)
    return struct.pack(">2sBBI", b"WB", 1, 5, len(body)) + body


def framed(kind: int, body: bytes) -> bytes:
    return struct.pack(">2sBBI", b"WB", 1, kind, len(body)) + body


def drawn(source: int, seq: int, moment: int, row: int, glyph: bytes, page: Tuple[int, int] = (1, 1)) -> bytes:
    """A line from the left edge to column 4 of a row."""
    return framed(1, struct.pack(">IIIIQBHHHHc", source, *page, seq, moment, 1, 0, row, 4, row, glyph))


def deleting(source: int, seq: int, moment: int, target: Tuple[int, int], page: Tuple[int, int] = (1, 1)) -> bytes:
    """A delete of a number of a source."""
    return framed(1, struct.pack(">IIIIQBII", source, *page, seq, moment, 4, *target))


def state(sender: int, page: Tuple[int, int], marks: Dict[int, int]) -> bytes:
    """A page state."""
    return framed(5, struct.pack(">IIIH", sender, *page, len(marks)) + b"".join(struct.pack(">II", *mark) for mark in sorted(marks.items())))


def session(sender: int, sent: int, page: Tuple[int, int] = (1, 1), marks: Optional[Dict[int, int]] = None) -> bytes:
    """A session message that echoes nobody."""
    told = sorted((marks or {}).items())
    body = struct.pack(">IQIIH", sender, sent, *page, len(told)) + b"".join(struct.pack(">II", *mark) for mark in told)
    return framed(2, body + struct.pack(">H", 0))


def asking(asker: int) -> bytes:
    """The question for pages."""
    return framed(4, struct.pack(">I", asker))


def mutated(chance: random.Random, data: bytes) -> bytes:
    """The datagram with bytes that are other ones, gone, or added: none is a drawop any more."""
    bad = bytearray(data)
    kind = chance.randrange(3)
    if kind == 0:
        bad[chance.choice([0, 1, 2, 4, 5, 6])] ^= 1 << chance.randrange(1, 7)
    elif kind == 1:
        del bad[chance.randrange(1, len(bad)):]
    else:
        bad += bytes(chance.randrange(256) for _ in range(chance.randrange(1, 40)))
    return bytes(bad)


class Attacker:
    """A socket on this machine that sends to one member."""

    def __init__(self, port: int) -> None:
        self.socket = socket.socket(socket.AF_INET, socket.SOCK_DGRAM)
        self.socket.bind(("127.0.0.1", 0))
        self.target = ("127.0.0.1", port)

    def send(self, *datagrams: bytes) -> None:
        for datagram in datagrams:
            self.socket.sendto(datagram, self.target)

    def reach(self, member: Process, datagrams: List[bytes]) -> bool:
        """Sends datagrams, each time as many as its socket has room for. Whether all came in or were dropped: a few fewer, if the
        member hears others meanwhile."""
        member.wait_for(lambda states: "health" in states)
        count, room = came(member), ROOM

        def have_come(sent: int, _: Dict[str, Any]) -> bool:
            return came(member) >= count + sent

        for number, datagram in enumerate(datagrams):
            room -= len(datagram) + BESIDE
            if room < 0:
                member.wait_for(partial(have_come, number))
                room = ROOM - len(datagram) - BESIDE
            self.send(datagram)
        return member.wait_for(lambda states: came(member) >= count + len(datagrams))


def shows(states: Dict[str, Any], start: str) -> bool:
    """Whether a row begins so."""
    return any(row.startswith(start) for row in states["board"]["rows"])


def came(member: Process) -> int:
    """How many datagrams came in or were dropped."""
    counts = member.counts()
    return counts["in"] + counts["dropped"]


def check_noise(facts: Facts, member: Process, attacker: Attacker) -> None:
    """A thousand datagrams that are none."""
    chance = random.Random(7)
    good = draw_datagram(9, 1, 10, b"*")
    noise = [bytes(chance.randrange(256) for _ in range(chance.randrange(1, 300))) for _ in range(500)]
    noise += [mutated(chance, good) for _ in range(500)]
    wrong = [good[:8 + at] + other + good[8 + at + len(other):] for at, other in ((12, bytes(4)), (24, b"\xff"), (25, b"\xff\xff"), (33, b"\xff"))]
    before, refused = member.rows(PAGE), member.counts()["refused"]
    facts("a thousand bad datagrams come in", attacker.reach(member, noise), True)
    member.wait_for(lambda states: member.counts()["refused"] - refused >= 1000)
    facts("each is refused by name", member.counts()["refused"] - refused, 1000)
    facts("before the host hears of it", [entry for entry in member.entries if entry["refused"]], [])
    facts("what is one but for its fields comes in", attacker.reach(member, wrong), True)
    member.wait_for(lambda states: member.counts()["refused"] - refused >= 1004)
    faults = {entry["refused"] for entry in member.entries if entry["refused"]}
    facts("and is refused with a fault of the host", (faults - {"datagram %d" % number for number in range(1, 10)}, len(faults) > 1), (set(), True))
    facts("bad datagrams change nothing that is shown", member.rows(PAGE), before)


def check_too_many_sources(facts: Facts, member: Process, attacker: Attacker, stars: bytes) -> None:
    """Reports of 72,000 sources of a page: of what they tell some is asked for, and the page is drawn on as before."""
    before, start, began = member.rows(PAGE), len(member.entries), time.monotonic()
    crowd = [report(77, 1, range(first, first + 4000), 3) for first in range(1000, 73_000, 4000)]
    facts("reports of too many sources come in", attacker.reach(member, crowd), True)
    facts("too many sources change nothing that is shown", member.rows(PAGE), before)
    facts("what a stranger tells of is not missing", member.wait_for(lambda states: states["health"]["missing"] > 0, WHILE), False)
    asked = {entry["name"] for entry in list(member.entries)[start:] if entry["way"] == "out" and entry["kind"] == "request"}
    facts.holds("64 names of them are asked for, and then four a second", len(asked) <= 65 + 4 * SPEED * (time.monotonic() - began), len(asked))
    attacker.send(stars)
    facts("beside too many sources a drawop is shown", member.wait_for(lambda states: shows(states, "*****")), True)
    facts("beside too many sources one draws", member.draw(PAGE, "line 0 3 4 3 =")[0], 200)


def check_flood(facts: Facts, member: Process, attacker: Attacker, stars: bytes) -> None:
    """Twenty thousand datagrams at once: some are dropped and counted, and the member still answers."""
    attacker.send(*[stars] * 20_000)
    began = time.monotonic()
    facts("in a flood one draws", member.draw(PAGE, "line 0 4 4 4 ~")[0], 200)
    print("in a flood a drawing took %.2f s" % (time.monotonic() - began))
    facts("in a flood the page is shown", member.wait_for(lambda states: shows(states, "~~~~~")), True)


def test_hostile(facts: Facts) -> None:
    member = Process(["--ports", str(FIRST_PORT), "--speed", str(SPEED)])
    other = Process(["--ports", str(FIRST_PORT), "--speed", str(SPEED)])
    attacker = Attacker(member.udp_port)
    try:
        facts("a first drawing", member.draw(PAGE, "frame 0 0 9 5 #")[0], 200)
        facts("is shown by the other", other.wait_for(lambda states: "##########" in states["board"]["rows"]), True)
        stars = draw_datagram(9, 1, time.time_ns() // 1000, b"*")  # drawn after the frame, so it lies on top
        check_noise(facts, member, attacker)
        if milliseconds_a_line() < SLOW_FROM:
            check_too_many_sources(facts, member, attacker, stars)
        else:
            print("skipped: too many sources, since this program is a slow build")
        check_flood(facts, member, attacker, stars)
        facts("the host was never started again", member.counts()["starts"], 1)
    finally:
        facts("both end with 0", [member.end(), other.end()], [0, 0])
