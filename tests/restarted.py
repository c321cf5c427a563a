"""Members of an example over UDP at 127.0.0.1 that lose a third of what comes in. One is killed, and started anew."""
from __future__ import annotations

import hashlib
import os
import random
import select
import socket
import subprocess
import threading
import time
from concurrent.futures import ThreadPoolExecutor
from pathlib import Path
from typing import Callable, Dict, List, Sequence, Tuple

# seconds until they show one page, also on a machine that is busy
LONGEST = 120.0

# seconds for which a member listens that may have drawn, and some in which it starts
LISTENING = 6.0 + 4.0

ROWS = 12


def bound() -> socket.socket:
    made = socket.socket(socket.AF_INET, socket.SOCK_DGRAM)
    made.bind(("127.0.0.1", 0))
    return made


def free_port() -> int:
    with bound() as found:
        return int(found.getsockname()[1])


class Losing:
    """A way from each member to each other one, on which a third is lost. A member sends to ports of this, and hears each other one from one place."""

    def __init__(self, ports: Sequence[int]) -> None:
        self.ways = {(one, other): bound() for one in range(len(ports)) for other in range(len(ports)) if one != other}
        self.ports = {way: ports[other] for (_, other), way in self.ways.items()}
        self.is_over = False
        self.whole_until = 0.0  # a moment of `time.monotonic` until which nothing is lost
        self.thread = threading.Thread(target=self.carry, daemon=True)
        self.thread.start()

    def entries(self, member: int) -> List[str]:
        """The ports to which a member sends for all others."""
        return [str(way.getsockname()[1]) for (one, _), way in self.ways.items() if one == member]

    def carry(self) -> None:
        chance = random.Random(7)
        while not self.is_over:
            for way in select.select(list(self.ports), [], [], 0.1)[0]:
                datagram = way.recv(65_535)
                if chance.random() >= 1 / 3 or time.monotonic() < self.whole_until:
                    way.sendto(datagram, ("127.0.0.1", self.ports[way]))

    def end(self) -> None:
        self.is_over = True
        self.thread.join()
        for way in self.ports:
            way.close()


class Shown:
    """A member that draws what it is given, and the rows that it showed last, but for empty ones at the end."""

    def __init__(self, words: Sequence[str], more: Dict[str, str]) -> None:
        self.rows: List[str] = []
        self.process = subprocess.Popen(list(words), env={**os.environ, **more}, stdin=subprocess.PIPE, stdout=subprocess.PIPE, text=True)
        threading.Thread(target=self.read, daemon=True).start()

    def read(self) -> None:
        rows: List[str] = []
        for line in self.process.stdout or []:
            rows.append(line.rstrip())
            if len(rows) == ROWS:
                self.rows, rows = without_empty(rows), []

    def draw(self, drawing: str) -> None:
        print(drawing, file=self.process.stdin, flush=True)

    def end(self) -> None:
        self.process.kill()
        self.process.communicate()


def without_empty(rows: Sequence[str]) -> List[str]:
    """Rows without the empty ones at the end."""
    last = max((at for at, row in enumerate(rows) if row), default=-1)
    return list(rows[:last + 1])


def come_to(members: Sequence[Shown], rows: List[str]) -> List[List[str]]:
    """What members show, once all show these rows, or after the longest time."""
    end = time.monotonic() + LONGEST
    while time.monotonic() < end and any(member.rows != rows for member in members):
        time.sleep(0.05)
    return [member.rows for member in members]


def rows_of_two(words: Sequence[str], records: Sequence[str], more: Dict[str, str]) -> List[List[str]]:
    """What two members show, one of which was killed after both had drawn, and drew once more when it was started anew."""
    ports = [free_port(), free_port()]
    way = Losing(ports)

    def member(at: int) -> Shown:
        return Shown([*words, str(at + 1), str(ports[at]), records[at], *way.entries(at)], more)

    one, two = member(0), member(1)
    try:
        one.draw('text 0 0 "one"')
        two.draw('text 0 1 "two"')
        come_to([one, two], ["one", "two"])
        one.end()
        if "-" in records:  # who has no record, and hears no report while it listens, draws under an old number again
            way.whole_until = time.monotonic() + LISTENING
        one = member(0)
        one.draw('text 0 2 "one anew"')
        return come_to([one, two], ["one", "two", "one anew"])
    finally:
        one.end()
        two.end()
        way.end()


def rows_by_record(words: Sequence[str], folder: Path, more: Dict[str, str]) -> List[List[List[str]]]:
    """The same without records and with them."""
    with ThreadPoolExecutor() as pool:
        kinds = [["-", "-"], [str(folder / "one.record"), str(folder / "two.record")]]
        return list(pool.map(lambda records: rows_of_two(words, records, more), kinds))


# ---- a session of three, by any program

# what each of three says and draws, and the rows in which all is seen
SAID: List[Tuple[int, str, int, str]] = [(0, 'text 0 0 "one: hello"', 0, "one: hello"), (1, 'text 0 1 "two: hello"', 1, "two: hello"),
                                         (2, 'text 0 2 "three: \\"hello\\""', 2, 'three: "hello"'), (0, "line 0 3 9 3 *", 3, "**********"),
                                         (1, "line 0 4 9 4 +", 4, "++++++++++"), (2, "line 0 5 9 5 #", 5, "##########")]
AWAY = [(1, 'text 0 6 "two: where is one?"', 6, "two: where is one?"), (2, 'text 0 7 "three: away"', 7, "three: away")]
ANEW = [(0, 'text 0 8 "one: here again"', 8, "one: here again"), (0, "delete 1 1", 0, ""), (2, "line 0 9 9 9 o", 9, "oooooooooo")]


def session_of_three(member: Callable[[int], Shown]) -> List[str]:
    """The digests of what three members show in the end: SHA-256 of the rows, of which no two differ. `member` starts one of 0 to 2, also anew. The
    first is killed after all have drawn, misses what the others say, and draws again. An empty digest is that of one that shows something else."""
    members = [member(at) for at in range(3)]
    rows = [""] * ROWS

    def say(said: Sequence[Tuple[int, str, int, str]], whole: Sequence[Shown]) -> List[List[str]]:
        for who, drawing, row, text in said:
            members[who].draw(drawing)
            rows[row] = text
        return come_to(whole, without_empty(rows))

    try:
        say(SAID, members)
        members[0].end()
        say(AWAY, members[1:])
        members[0] = member(0)
        shown = say(ANEW, members)
    finally:
        for each in members:
            each.end()
    return [hashlib.sha256("\n".join(each).encode()).hexdigest() if each == without_empty(rows) else "" for each in shown]


def session_of_programs(words: Sequence[str], folder: Path, more: Dict[str, str]) -> List[str]:
    """The same of a program that takes ME PORT RECORD OTHER .., over ways that lose a third."""
    ports = [free_port() for _ in range(3)]
    way = Losing(ports)
    try:
        return session_of_three(lambda at: Shown([*words, str(at + 1), str(ports[at]), str(folder / ("%d.record" % at)), *way.entries(at)], more))
    finally:
        way.end()
