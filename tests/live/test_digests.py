"""What members tell of the pages that they hold, and what is concluded: the bytes, the judgement, and members of which one is lied to."""
from __future__ import annotations

import hashlib
import json
import random
import time
from pathlib import Path
from types import SimpleNamespace
from typing import Any, Dict, Iterator, List, Optional

import pytest

from live.carriers.carrier import Origin
from live.digests import ANOTHER, MOST_SEEN, MOST_WAITING, NOT_YET, SAME, Digests, Seen, Told, in_short, judged, read, write
from ..facts import Facts
from ..protocol.carrying import Station
from ..protocol.member import Member as Written
from .attacks.test_forgeries import now
from .attacks.test_hostile import drawn
from .members import LONGEST, TOP, Process

FIRST_PORT = 29_100
PAGE, SPEED = "1/1", 10
FORGER = 4_000_000_003
TOLD = Told(7, (1, 2), 0, in_short([(7, 3), (2, 1)]), bytes(range(32)))
LOSES = ["--lose", "0.33"]


def test_bytes(facts: Facts) -> None:
    data = write(TOLD)
    marks = "%016x" % TOLD.marks
    facts("the bytes", data.hex(), "57440100" + "00000007" + "00000001" + "00000002" + "00000000" + marks + TOLD.digest.hex())
    facts("they are read as they were written", read(data), TOLD)
    facts("more are missing than can be said", read(write(TOLD._replace(missing=2**33))), TOLD._replace(missing=2**32 - 1))
    facts("what is none", [read(each) for each in (b"", data[:-1], data + b"\0", b"WP" + data[2:], data[:2] + b"\2" + data[3:])], [None] * 5)
    facts("no marks and one mark in short (FNV-1a)", (in_short([]), in_short([(0, 0x61)])), (0xCBF29CE484222325, fnv(b"\0" * 7 + b"a")))
    facts("whatever their order", in_short([(7, 3), (2, 1)]), in_short([(2, 1), (7, 3)]))


@pytest.mark.parametrize("vector", [pytest.param(it, id=it["shows"]) for it in json.loads((TOP / "docs/vectors/pages.json").read_text())["pages"]])
def test_vector(vector: Dict[str, Any]) -> None:
    marks = [tuple(map(int, mark.split())) for mark in vector["marks"]]
    told = Told(9, (7, 1), len(vector["missing"]), in_short(marks), bytes.fromhex(vector["digest"]))  # type: ignore[arg-type]
    assert (write(told).hex(), read(bytes.fromhex(vector["told"]))) == (vector["told"], told)


def fnv(data: bytes) -> int:
    short = 14695981039346656037
    for byte in data:
        short = ((short ^ byte) * 1099511628211) % 2**64
    return short


def test_judgement(facts: Facts) -> None:
    """Only if marks are equal, nothing is missing, and it was so before, a page is another."""
    other = TOLD._replace(digest=bytes(32))
    facts("an equal digest, whatever else", judged(TOLD, TOLD._replace(marks=1, missing=5), 9), Seen(SAME, 0))
    facts("another for the first time", judged(TOLD, other, 0), Seen(NOT_YET, 1))
    facts("and for the second", judged(TOLD, other, 1), Seen(ANOTHER, 2))
    unlike = [(TOLD, other._replace(marks=1)), (TOLD, other._replace(missing=1)), (TOLD._replace(missing=1), other)]
    facts("other marks, or something is missing", [judged(ours, told, 5) for ours, told in unlike], [Seen(NOT_YET, 0)] * 3)


class Standing:
    """In the place of a member that holds one page."""

    def __init__(self, *members: int) -> None:
        self.me, self.page, self.asked = 1, (1, 1), 0
        self.sent: List[bytes] = []
        self.calls: List[Any] = []
        self.sheet = SimpleNamespace(drawops={1: 1}, tops={1: 1})
        self.drawn = SimpleNamespace(sheet=lambda page: self.sheet)
        self.telling = SimpleNamespace(reported=SimpleNamespace(missing=lambda page, drawn: 0))
        self.board = SimpleNamespace(host=1, digest=self.digest)
        self.network, self.inbox = SimpleNamespace(send=self.sent.append), SimpleNamespace(call=self.calls.append)
        others: Dict[int, Any] = {number: SimpleNamespace(answered=1, origin=Origin("at %d" % number).word) for number in members}
        self.judging = SimpleNamespace(heard=SimpleNamespace(get=others.get))

    def digest(self, page: Any) -> bytes:
        self.asked += 1
        return hashlib.sha256(b"%d" % len(self.sheet.drawops)).digest()


def state(digests: Digests, told: Told, at: str) -> Optional[str]:
    digests.hear(write(told), Origin(at))
    digests.take()
    return digests.of(told.member, told.page)


def test_heeding(facts: Facts) -> None:
    member = Standing(2, 3)
    digests = Digests(member)  # type: ignore[arg-type]
    ours = digests.told((1, 1))
    facts("a member's", state(digests, ours._replace(member=2), "at 2"), SAME)
    facts("under the number of another", state(digests, ours._replace(member=3), "at 2"), None)
    facts("a stranger's, and our own", [state(digests, ours._replace(member=number), "at %d" % number) for number in (9, 1)], [None, None])
    facts("the host is asked once for as many drawops", member.asked, 1)
    member.sheet.drawops[2] = 2
    digests.tell((1, 1))
    facts("and anew for more", (member.asked, read(member.sent[-1]) == digests.told((1, 1)), member.asked), (2, True, 2))
    for number in range(MOST_SEEN + 9):
        digests.notice(ours._replace(member=2, page=(5, number)))
    for number in range(MOST_WAITING + 9):
        digests.hear(write(ours._replace(member=number + 2)), Origin("at 2"))
    facts("what is remembered has a bound", (len(digests.seen), len(digests.waiting)), (MOST_SEEN, MOST_WAITING))


@pytest.fixture
def two(facts: Facts) -> Iterator[List[Process]]:
    """Two members that lose a third, each of which has answered the other."""
    made = [Process(["--ports", str(FIRST_PORT), "--speed", str(SPEED), *LOSES]) for _ in range(2)]
    for each in made:
        each.wait_for(lambda states: states["members"]["members"][0]["delay"] is not None)
    yield made
    facts("they end with 0", [each.end() for each in made], [0] * 2)


def holds(member: Process, other: Process, what: str) -> bool:
    """Whether a member comes to tell people that another holds what it says."""
    return member.wait_for(lambda states: [each["holds"] for each in states["members"]["members"] if each["member"] == other.me] == [what], LONGEST)


def test_members(two: List[Process], facts: Facts) -> None:
    """Each tells its people that the other holds the same; and once one got another drawing under the other's name, that it does not."""
    for number in range(40):
        two[number % 2].draw(PAGE, "line 0 %d 9 %d *" % (number, number))
    facts("both hold the same, though a third is lost", [holds(two[at], two[1 - at], SAME) for at in range(2)], [True, True])
    forger = Station(Written(FORGER, random.Random(7), now()), FIRST_PORT, random.Random(7), speed=SPEED)
    try:
        for each in two:
            each.wait_for(lambda states: any(other["member"] == FORGER and other["delay"] is not None for other in states["members"]["members"]), LONGEST)
        # one that arrives: a third is lost
        for _ in range(9):
            forger.socket.sendto(drawn(two[0].me, 21, now(), 90, b"f"), ("127.0.0.1", two[1].udp_port))
        time.sleep(0.02)
        two[0].draw(PAGE, "line 0 91 9 91 *")
        facts("then each is told that the other's page is another", [holds(two[at], two[1 - at], ANOTHER) for at in range(2)], [True, True])
    finally:
        forger.end()


def cut(path: Path, start: str) -> None:
    """Takes the last line that begins so from a file, and all behind it."""
    lines = path.read_text().splitlines(keepends=True)
    path.write_text("".join(lines[:max(at for at, line in enumerate(lines) if line.startswith(start))]))


def test_lost_end(facts: Facts, tmp_path: Path) -> None:
    """A disk lost the last drawing, of the record and of what the page asked. Its member draws another one before it hears of that; then both say so."""
    records = [tmp_path / ("%d.record" % number) for number in (1, 2)]

    def start(number: int) -> Process:
        return Process(["--ports", str(FIRST_PORT + 100), "--speed", str(SPEED), "--me", str(number), "--record", str(records[number - 1])])

    one, other = start(1), start(2)
    for row in range(3):
        one.draw(PAGE, "line 0 %d 9 %d *" % (row, row))
    facts("both hold the same", [holds(one, other, SAME), holds(other, one, SAME)], [True, True])
    facts("they end with 0", [one.end(), other.end()], [0, 0])
    cut(records[0], "say draw 1 ")
    cut(tmp_path / "1.record.page", "asked ")
    one = start(1)
    facts("it draws under a number that it drew under", one.draw(PAGE, "line 9 0 9 9 o")[1]["seq"], 3)
    other = start(2)
    facts("each is told that the other's page is another", [holds(one, other, ANOTHER), holds(other, one, ANOTHER)], [True, True])
    facts("and they end with 0", [one.end(), other.end()], [0, 0])
