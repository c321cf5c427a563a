"""A storm: honest members draw among forgeries, floods, slow clients and losses. `python3 -m tests.live.attacks.test_storms` is one of a minute."""
from __future__ import annotations

import argparse
import random
import socket
import sys
import tempfile
import threading
import time
from pathlib import Path
from typing import Any, Dict, List, Optional, Set, Tuple

from ...facts import Facts
from .test_hostile import asking, deleting, drawn, framed, session, state
from ..members import LONGEST, SLOW_FROM, Process, answers, is_refused, milliseconds_a_line, program
from ..test_sessions import PAGES, operation

FIRST_PORT = 26_640
SECONDS, LONG_SECONDS = 20.0, 60.0

# rows of a page that are compared: forged drawops are below
ROWS = 38

# sources that forge
FORGED = range(900, 910)


class Storm:
    """Threads that send all kinds of forgeries to these members, at a bounded pace, until it is ended. What it sends to one of
    the members it sends to all."""

    def __init__(self, members: List[Process], numbers: List[int], origins: int = 1) -> None:
        self.members = members
        self.numbers = numbers
        self.chance = random.Random(11)
        self.sockets = [socket.socket(socket.AF_INET, socket.SOCK_DGRAM) for _ in range(origins)]
        for each in self.sockets:
            each.bind(("127.0.0.1", 0))
        self.is_ended = False
        self.sent = 0
        self.last: Dict[int, int] = dict.fromkeys(FORGED, 0)
        self.slow: List[socket.socket] = []
        self.threads = [threading.Thread(target=work) for work in (self.forge, self.crawl)]

    def __enter__(self) -> Storm:
        for thread in self.threads:
            thread.start()
        return self

    def __exit__(self, *fault: Any) -> None:
        self.is_ended = True
        for thread in self.threads:
            thread.join()
        for each in self.sockets + self.slow:
            each.close()

    def forge(self) -> None:
        while not self.is_ended:
            origin = self.chance.choice(self.sockets)
            for datagram in self.some():
                for member in self.members:
                    origin.sendto(datagram, ("127.0.0.1", member.udp_port))
                    self.sent += 1
            time.sleep(0.04)

    def some(self) -> List[bytes]:
        """One of each kind: noise, marks, pages, members, times, questions, requests, and drawops under forged numbers."""
        chance, me = self.chance, self.chance.choice(self.numbers)
        source, stranger = chance.choice(FORGED), chance.randrange(1000, 3000)
        self.last[source] += 1
        now = time.time_ns() // 1000
        page = (1, 1) if chance.random() < 0.9 else (me, chance.choice([1, 2**32 - 1]))
        return [
            bytes(chance.randrange(256) for _ in range(chance.randrange(1, 400))),
            state(stranger, page, {me: 2**32 - 1, source: chance.randrange(1, 2**32)}),
            session(stranger, chance.randrange(2**40), (1, 1), {number: chance.randrange(1, 2**32) for number in self.numbers}),
            session(chance.randrange(1000, 2**32), 1),
            asking(stranger),
            framed(3, b"".join(number.to_bytes(4, "big") for number in (stranger, me, 1, 1, chance.randrange(1, 50)))),
            drawn(source, self.last[source], now, 39, b"~"),
            drawn(stranger, chance.randrange(1000, 2**32), now + 10**9 * chance.randrange(1, 10**6), 38, b"^"),
            deleting(stranger, 1, 2**64 - 1, (me, chance.randrange(1, 30))),
        ]

    def crawl(self) -> None:
        """Slow clients: a byte of a request now and then."""
        while not self.is_ended:
            for member in self.members:
                try:
                    self.slow.append(socket.create_connection(("127.0.0.1", member.port), timeout=1))
                except OSError:
                    pass
            for each in self.slow:
                try:
                    each.sendall(b"G")
                except OSError:
                    pass
            while len(self.slow) > 300:
                self.slow.pop(0).close()
            time.sleep(0.1)


def draw_while(member: Process, end: float, faults: List[str], pause: float) -> None:
    """A member draws on both pages until a moment."""
    chance = random.Random(member.me)
    own: Dict[str, List[int]] = {page: [] for page in PAGES}
    turn = 0
    while time.monotonic() < end:
        page = PAGES[turn % len(PAGES)]
        status, answer = member.draw(page, operation(chance, own[page], member.me))
        if is_refused(status, answer):
            faults.append("%d: %s" % (status, answer))
        elif status == 200 and answer["words"].split(" ")[5] in ("line", "frame", "text"):
            own[page].append(answer["seq"])
        turn += 1
        time.sleep(pause)


def told_by(record: str, honest: Set[int]) -> Tuple[List[str], List[str], List[str]]:
    """Of a record: the rows of its pages, above those that are forged; what is held of honest members; and what is missing of theirs."""
    shows = ["show %s 100 %d" % (page.replace("/", " "), ROWS) for page in PAGES]
    others = ["%s %s" % (word, page.replace("/", " ")) for page in PAGES for word in ("report", "gaps")]
    lines = answers(record, [*shows, *others]).split("\n")
    rows, rest = lines[:len(PAGES) * (ROWS + 1)], lines[len(PAGES) * (ROWS + 1):]
    own = [line for line in rest if line[:1].isdigit() and int(line.split()[0]) in honest]
    return [row for row in rows if not row.startswith("ok ")], [line for line in own if len(line.split()) == 2], [line for line in own if len(line.split()) == 3]


def are_equal(records: List[str], honest: Set[int]) -> bool:
    """Whether all records show the same, have the same of the honest members, and lack nothing of theirs."""
    told = [told_by(record, honest) for record in records]
    return all(each == told[0] for each in told) and not told[0][2]


def wait_until_equal(records: List[str], honest: Set[int], seconds: float) -> bool:
    """Whether they come to be so; else it prints in what they differ."""
    end = time.monotonic() + seconds
    while time.monotonic() < end:
        if are_equal(records, honest):
            return True
        time.sleep(1)
    told = [told_by(record, honest) for record in records]
    for number, (rows, reports, gaps) in enumerate(told, 1):
        others = sum(row != first for row, first in zip(rows, told[0][0]))
        print("record %d: %d rows differ from the first; %d reports differ; missing: %s" % (number, others, len(set(reports) ^ set(told[0][1])), gaps[:5]))
    return False


def check_storm(facts: Facts, seconds: float = SECONDS) -> None:
    """Four members draw, a third of what comes to each is lost, and everything is forged."""
    with tempfile.TemporaryDirectory() as folder:
        records = [str(Path(folder) / ("%d.wb" % number)) for number in range(1, 5)]
        words = ["--ports", str(FIRST_PORT), "--lose", "0.3334", "--twice", "0.1", "--mix", "--speed", "10", "--me"]
        members = [Process([*words, str(number), "--record", record]) for number, record in enumerate(records, 1)]
        faults: List[str] = []
        try:
            with Storm(members, [1, 2, 3, 4]) as storm:
                end = time.monotonic() + seconds
                threads = [threading.Thread(target=draw_while, args=(member, end, faults, 0.2)) for member in members]
                for thread in threads:
                    thread.start()
                for thread in threads:
                    thread.join()
                facts("in a storm the page is served", [member.get_page()[0] for member in members], [200] * 4)
            began = time.monotonic()
            facts("in a storm nothing that is drawn is refused", faults[:3], [])
            facts("after it all boards are equal, and whole but for what was forged", wait_until_equal(records, {1, 2, 3, 4}, LONGEST), True)
            print("a storm of %d datagrams in %d s: equal %.0f s after it" % (storm.sent, seconds, time.monotonic() - began))
            facts("no host was started again", [member.counts()["starts"] for member in members], [1] * 4)
            facts("what was told is what the hosts show", [member.shows_all() for member in members], [True] * 4)
        finally:
            facts("after a storm all end with 0", [member.end() for member in members], [0] * 4)


def test_storm(facts: Facts) -> None:
    if milliseconds_a_line() >= SLOW_FROM:
        print("a slow build: the storm may take long")
    check_storm(facts)


def main(words: Optional[List[str]] = None) -> int:
    """A storm of a minute."""
    made = argparse.ArgumentParser(description=main.__doc__)
    made.add_argument("--seconds", type=float, default=LONG_SECONDS)
    options = made.parse_args(words)
    program()
    facts = Facts()
    check_storm(facts, options.seconds)
    return facts.status()


if __name__ == "__main__":
    sys.exit(main())
