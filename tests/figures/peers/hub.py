"""The network of a session, as a process: what a member sends to its place of the hub goes to all others, later, or is lost.

    python3 -m tests.figures.peers.hub MEMBERS LOSE DELAY SEED

LOSE is the share that is lost on the way to each, DELAY the milliseconds one way. It prints `ports` and the port of each member's place.
Its input says `hears MEMBER PORT`, where a member hears; `count`, for which it prints `count DATAGRAMS BYTES`, what members have sent since
the last time; and ends it. Which datagrams of a link are lost is the seed's alone: the first, the second and so on, whatever other links have.
"""

from __future__ import annotations

import heapq
import itertools
import os
import random
import selectors
import socket
import sys
import time
from typing import NamedTuple

LOOPBACK = "127.0.0.1"
ROOM = 1 << 21  # bytes that a socket may keep for us
LONGEST = 65_535


class Link:
    """The way from one member to another, which loses a share of what it is given."""

    def __init__(self, seed: int, source: int, target: int, share: float) -> None:
        self.numbers = random.Random(f"{seed} {source} {target}")
        self.share = share

    def loses(self) -> bool:
        """Whether the next datagram is lost."""
        return self.numbers.random() < self.share


class Way(NamedTuple):
    """A datagram on its way: when it is there, which of all it is, for whom, and its bytes."""

    due: float
    number: int
    target: int
    data: bytes


def place_of_hub() -> socket.socket:
    made = socket.socket(socket.AF_INET, socket.SOCK_DGRAM)
    made.setsockopt(socket.SOL_SOCKET, socket.SO_RCVBUF, ROOM)
    made.bind((LOOPBACK, 0))
    made.setblocking(False)
    return made


class Hub:
    def __init__(self, members: int, share: float, delay: float, seed: int) -> None:
        self.delay = delay
        self.places = [place_of_hub() for _ in range(members)]
        self.links = {(one, other): Link(seed, one, other, share) for one in range(members) for other in range(members) if one != other}
        self.hears: dict[int, int] = {}
        self.underway: list[Way] = []
        self.numbers = itertools.count()
        self.datagrams = self.bytes = 0

    def ports(self) -> list[int]:
        return [place.getsockname()[1] for place in self.places]

    def take(self, source: int) -> None:
        """Takes in all that a member has sent."""
        while True:
            try:
                data = self.places[source].recv(LONGEST)
            except BlockingIOError:
                return
            except ConnectionRefusedError:
                continue  # a member that was sent to has ended
            self.datagrams, self.bytes = self.datagrams + 1, self.bytes + len(data)
            due = time.monotonic() + self.delay
            for target in self.hears:
                if target != source and not self.links[source, target].loses():
                    heapq.heappush(self.underway, Way(due, next(self.numbers), target, data))

    def deliver(self) -> None:
        """Hands on what is there by now."""
        now = time.monotonic()
        while self.underway and self.underway[0].due <= now:
            way = heapq.heappop(self.underway)
            try:
                self.places[way.target].sendto(way.data, (LOOPBACK, self.hears[way.target]))
            except (BlockingIOError, ConnectionRefusedError):
                pass  # the member has ended

    def wait(self) -> float | None:
        """Seconds until something is there."""
        return max(0.0, self.underway[0].due - time.monotonic()) if self.underway else None

    def told(self, line: str) -> None:
        word, *numbers = line.split()
        if word == "hears":
            member, port = map(int, numbers)
            self.hears[member] = port
        elif word == "count":
            print("count", self.datagrams, self.bytes, flush=True)
            self.datagrams = self.bytes = 0

    def run(self) -> None:
        """Until the input ends."""
        partial = b""
        with selectors.DefaultSelector() as ready:
            ready.register(sys.stdin.fileno(), selectors.EVENT_READ)
            for member, place in enumerate(self.places):
                ready.register(place, selectors.EVENT_READ, member)
            while True:
                for key, _ in ready.select(self.wait()):
                    if key.data is not None:
                        self.take(key.data)
                        continue
                    data = os.read(sys.stdin.fileno(), LONGEST)
                    if not data:
                        return
                    *lines, partial = (partial + data).split(b"\n")
                    for line in lines:
                        self.told(line.decode())
                self.deliver()


def main(members: str, share: str, delay: str, seed: str) -> None:
    hub = Hub(int(members), float(share), float(delay) / 1000, int(seed))
    print("ports", *hub.ports(), flush=True)
    hub.run()


if __name__ == "__main__":
    main(*sys.argv[1:])
