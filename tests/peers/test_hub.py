"""The hub: what a link loses is its seed's alone, and all else comes, in its order and not before its time."""

from __future__ import annotations

import socket
import time
from collections.abc import Iterator

import pytest

from ..figures.peers.group import Process, python
from ..figures.peers.hub import LOOPBACK, Link

PATIENCE = 60.0
PIECES, PIECE = 5, 40  # a piece is small enough for the buffer of any socket
SHARE = 0.3


class Ends:
    """A hub, and the sockets of members that a test has."""

    def __init__(self, members: int, share: float, delay: float, seed: int) -> None:
        self.hub = Process([*python("hub"), *map(str, (members, share, delay, seed))])
        self.sockets = [socket.socket(socket.AF_INET, socket.SOCK_DGRAM) for _ in range(members)]
        self.ports = self.answer()
        for at, each in enumerate(self.sockets):
            each.bind((LOOPBACK, 0))
            each.settimeout(PATIENCE)
            self.hub.tell(f"hears {at} {each.getsockname()[1]}")

    def answer(self) -> list[int]:
        while not (lines := self.hub.lines()) and not self.hub.is_over:
            pass
        return list(map(int, lines[0][1:]))

    def count(self) -> list[int]:
        self.hub.tell("count")
        return self.answer()

    def send(self, at: int, texts: list[str]) -> None:
        """Sends from a member, and waits until the hub has all."""
        for text in texts:
            self.sockets[at].sendto(text.encode(), (LOOPBACK, self.ports[at]))
        taken = 0
        while taken < len(texts):
            taken += self.count()[0]

    def hear(self, at: int) -> str:
        return self.sockets[at].recv(100).decode()

    def end(self) -> None:
        self.hub.end()
        for each in self.sockets:
            each.close()


@pytest.fixture
def lossy() -> Iterator[Ends]:
    ends = Ends(3, SHARE, 0, 7)
    yield ends
    ends.end()


def test_hub_loses_what_the_seed_says(lossy: Ends) -> None:
    lossy.count()
    links = {(one, other): Link(7, one, other, SHARE) for one in range(3) for other in range(3) if one != other}
    lost = 0
    for piece in range(PIECES):
        for source in range(3):
            texts = [f"{source} {piece * PIECE + at}" for at in range(PIECE)]
            lossy.send(source, texts)
            for target in {0, 1, 2} - {source}:
                wanted = [text for text in texts if not links[source, target].loses()]
                lost += PIECE - len(wanted)
                assert [lossy.hear(target) for _ in wanted] == wanted
    sent = 3 * 2 * PIECES * PIECE
    assert 0.25 * sent < lost < 0.35 * sent
    for each in lossy.sockets:
        each.setblocking(False)
        with pytest.raises(BlockingIOError):
            each.recv(100)


def test_links_lose_apart() -> None:
    """Each link has losses of its own, the same for the same seed, and as many as its share says."""
    verdicts = {key: [link.loses() for _ in range(20_000)] for key in ((1, 0, 1), (1, 1, 0), (1, 0, 2), (2, 0, 1)) for link in [Link(*key, 0.2)]}
    assert len({tuple(each) for each in verdicts.values()}) == 4
    assert verdicts[1, 0, 1] == [link.loses() for link in [Link(1, 0, 1, 0.2)] for _ in range(20_000)]
    assert all(3_800 < sum(each) < 4_200 for each in verdicts.values())
    assert not any(Link(1, 0, 1, 0.0).loses() for _ in range(1_000))


def test_hub_counts_and_delays() -> None:
    ends = Ends(2, 0.0, 50, 1)
    try:
        assert ends.count() == [0, 0]
        sent = time.monotonic()
        ends.sockets[0].sendto(b"four", (LOOPBACK, ends.ports[0]))
        ends.sockets[0].sendto(b"sixsix", (LOOPBACK, ends.ports[0]))
        assert [ends.hear(1), ends.hear(1)] == ["four", "sixsix"]
        assert time.monotonic() - sent >= 0.05
        assert ends.count() == [2, 10] and ends.count() == [0, 0]
    finally:
        ends.end()
    assert ends.hub.child.returncode == 0


def test_hub_outlives_a_member() -> None:
    ends = Ends(3, 0.0, 0, 1)
    try:
        ends.count()
        ends.sockets[1].close()
        for text in ("one", "two", "three"):
            ends.send(0, [text])
            assert ends.hear(2) == text
    finally:
        ends.end()
    assert ends.hub.child.returncode == 0
