"""All attacks at once on a few honest members who draw, while a third of what comes to each is lost: all stay whole and equal, and nobody
waits for a drawing. `python3 -m tests.live.attacks.test_attacked` is a minute of it with each of 2, 3 and 8 members."""
from __future__ import annotations

import argparse
import contextlib
import os
import random
import socket
import struct
import sys
import tempfile
import threading
import time
from pathlib import Path
from typing import Dict, List, Optional, Type

from ...facts import Facts
from .test_hostile import drawn, framed, session, state
from ..members import LONGEST, Process, is_refused, program
from ..test_mutants import echoing, mutant, requesting
from ..test_sessions import PAGES, operation
from .test_storms import Storm, wait_until_equal

FIRST_PORT = 27_360

# of the test, and by itself: seconds, members, and how much faster than a person's time goes
SECONDS, MEMBERS, SPEED = 8.0, 3, 10
LONG_SECONDS, ALL_MEMBERS, LONG_SPEED = 60.0, (2, 3, 8), 4

# seconds that a drawing may take on a machine that does nothing else, which WB_MEASURE says
LATEST = 0.5

# Pages that the attackers draw on, and from how many ports: more than strangers have room for, by pages and by drawops.
PAGES_OF_STRANGERS, ORIGINS = 2_000, 9

# seconds between two drawings of one member
PAUSE = 0.25


class Attacks(Storm):
    """What a storm forges, and more: times of tomorrow under members' numbers, streams of a stranger, pages before all others, copies of what
    was drawn, requests, huge drawings, rows with holes, pointers, and datagrams that are nearly right; and, beside it, whoever reaches the ports
    of streams and of the page."""

    def __init__(self, members: List[Process], numbers: List[int]) -> None:
        super().__init__(members, numbers, ORIGINS)
        self.page = 0
        self.hole = 0
        self.silent: List[socket.socket] = []
        self.threads += [threading.Thread(target=work) for work in (self.hold, self.ask)]

    def some(self) -> List[bytes]:
        chance, me, now = self.chance, self.chance.choice(self.numbers), time.time_ns() // 1000
        self.page, self.hole = self.page % PAGES_OF_STRANGERS + 1, self.hole + 1
        forged = super().some() + [
            drawn(me, chance.randrange(1_000, 2_000), now + 86_000 * 10**6, 39, b"t", (9, 9)),
            state(9, (1, 1), {9: 4_096}), state(me, (9, 9), {9: 4_096}),
            drawn(8, 1, now, 0, b"p", (0, self.page)),
            framed(1, struct.pack(">IIIIQBHHHHc", 7, 9, 9, self.hole, now, 2, 0, 0, 4_095, 4_095, b"#")),
            drawn(6, 2, now, 0, b"h", (6, self.hole % PAGES_OF_STRANGERS + 1)),
            *[drawn(chance.randrange(3_000, 2**32), 1, now, 38, b"r") for _ in range(5)],
            session(chance.randrange(1_000, 2**32), now % 2**40, (1, 1), {me: 3}), echoing(chance.randrange(1_000, 2**32), me),
            *[requesting(chance.randrange(1_000, 3_000), me) for _ in range(5)],
            *[drawn(me, number, now, 3, b"c") for number in (2**31, 2**32 - 1)],
            struct.pack(">2sBBIIIHH", b"WP", 1, 0, chance.randrange(2**32), 1, 1, 3, 4),
        ]
        return forged + [mutant(chance, [data for data in forged if data[:4] != b"WB\x01\x01"]) for _ in range(5)]

    def hold(self) -> None:
        """Takes the places of streams, and says nothing."""
        while not self.is_ended:
            for member in self.members:
                with contextlib.suppress(OSError):
                    self.silent.append(socket.create_connection(("127.0.0.1", member.udp_port), timeout=1))
            while len(self.silent) > 40:
                self.silent.pop(0).close()
            time.sleep(0.2)
        for each in self.silent:
            each.close()

    def ask(self) -> None:
        """Requests without the key, or with one that is wrong."""
        while not self.is_ended:
            for member in self.members:
                for path in ("/", "/%s/events?token=x" % ("0" * 32), "/%s/../wb" % ("f" * 32)):
                    with contextlib.suppress(OSError), socket.create_connection(("127.0.0.1", member.port), timeout=2) as link:
                        link.sendall(("GET %s HTTP/1.1\r\nHost: 127.0.0.1:%d\r\nUpgrade: websocket\r\n\r\n" % (path, member.port)).encode())
                        link.recv(64)
            time.sleep(0.05)


class Drawing:
    """What members draw until a moment, how long each drawing took, and what was refused."""

    def __init__(self, end: float) -> None:
        self.end = end
        self.times: List[float] = []
        self.faults: List[str] = []

    def draw(self, member: Process) -> None:
        chance, own = random.Random(member.me), {page: [] for page in PAGES}  # type: random.Random, Dict[str, List[int]]
        for turn in range(10**6):
            began = time.monotonic()
            if began > self.end:
                return
            page = PAGES[turn % len(PAGES)]
            status, told = member.draw(page, operation(chance, own[page], member.me))
            self.times.append(time.monotonic() - began)
            if is_refused(status, told):
                self.faults.append("%d: %s" % (status, told))
            elif status == 200 and told["words"].split(" ")[5] in ("line", "frame", "text"):
                own[page].append(told["seq"])
            time.sleep(PAUSE)

    def run(self, members: List[Process]) -> None:
        threads = [threading.Thread(target=self.draw, args=(member,)) for member in members]
        for thread in threads:
            thread.start()
        for thread in threads:
            thread.join()


def check_attacked(facts: Facts, count: int, seconds: float, speed: int, by: Type[Attacks] = Attacks) -> None:
    """N honest members, attacked for some seconds."""
    numbers = list(range(1, count + 1))
    with tempfile.TemporaryDirectory() as folder:
        records = [str(Path(folder) / ("%d.wb" % number)) for number in numbers]
        words = ["--ports", str(FIRST_PORT), "--lose", "0.3334", "--twice", "0.1", "--mix", "--speed", str(speed), "--me"]
        members = [Process([*words, str(number), "--record", record]) for number, record in zip(numbers, records)]
        try:
            for member in members:
                member.wait_for(lambda states: states["hello"]["ready"] and sum(other["delay"] is not None for other in states["members"]["members"]) >= count - 1)
            with by(members, numbers) as attacks:
                drawing = Drawing(time.monotonic() + seconds)
                drawing.run(members)
                served = [member.get_page()[0] for member in members]
            began, late = time.monotonic(), max(drawing.times)
            facts("%d attacked: the page is served" % count, served, [200] * count)
            facts("%d attacked: nothing that is drawn is refused" % count, drawing.faults[:3], [])
            if os.environ.get("WB_MEASURE"):
                facts.holds("%d attacked: a drawing takes at most %g s: %.2f" % (count, LATEST, late), late < LATEST, late)
            facts("%d attacked: all come to be whole and equal" % count, wait_until_equal(records, set(numbers), LONGEST), True)
            print("%d members, %d datagrams in %d s: %d drawings, each in %.2f s at most; equal %.0f s after it; load %.0f" % (
                count, attacks.sent, seconds, len(drawing.times), late, time.monotonic() - began, os.getloadavg()[0]))
            facts("%d attacked: no host was started again" % count, [member.counts()["starts"] for member in members], [1] * count)
            facts("%d attacked: what was told is what the hosts show" % count, [member.shows_all() for member in members], [True] * count)
        finally:
            for member in members:
                if member.process.poll() is not None:
                    print("member %d ended by itself: %s" % (member.me, member.last_words()))
            facts("%d attacked: all end with 0" % count, [member.end() for member in members], [0] * count)


def test_attacked(facts: Facts) -> None:
    check_attacked(facts, MEMBERS, SECONDS, SPEED)


def main(words: Optional[List[str]] = None) -> int:
    """A minute of all attacks at once with 2, 3 and 8 honest members."""
    made = argparse.ArgumentParser(description=main.__doc__)
    made.add_argument("--seconds", type=float, default=LONG_SECONDS)
    made.add_argument("--members", type=int, nargs="+", default=ALL_MEMBERS)
    made.add_argument("--speed", type=int, default=LONG_SPEED, help="how much faster than a person's time goes")
    options = made.parse_args(words)
    program()
    facts = Facts()
    for count in options.members:
        check_attacked(facts, count, options.seconds, options.speed)
    return facts.status()


if __name__ == "__main__":
    sys.exit(main())
