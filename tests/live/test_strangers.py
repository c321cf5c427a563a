"""What a stranger and a forger can't do to members: each test fails on a member that goes by what anybody says. docs/SECURITY.md says what holds.
Copies and requests that keep a drawing from coming are in test_hushed."""
from __future__ import annotations

import importlib.util
import select
import socket
import struct
import tempfile
import threading
import time
from pathlib import Path
from typing import Any, List, Tuple

import pytest

from live.member import MOST_PARTINGS
from ..facts import Facts
from ..judging.reference import STRANGE_PAGES
from .attacks.test_forgeries import now
from .attacks.test_hostile import Attacker, drawn, framed, session, state
from .members import Process, comes

FIRST_PORT = 26_760
PORTS = 32
PAGE, HOME = "1/1", (1, 1)
FORGED_PAGE = "9/9"
FORGED = (9, 9)

# seconds in which something comes, in which a new number is taken, and for which it is watched that nothing happens
SOON, TAKEN, WHILE = 20, 8, 4

# how far ahead a forger tells the time, in microseconds
AHEAD = 86_000 * 1_000_000


class Ear(Attacker):
    """A stranger at a port of the session: it hears what members send, and may give a stream beside it."""

    def __init__(self, port: int, first: int = FIRST_PORT) -> None:
        super().__init__(port)
        self.socket.close()
        self.socket = socket.socket(socket.AF_INET, socket.SOCK_DGRAM)
        self.socket.bind(("127.0.0.1", first + PORTS - 1))
        self.heard: List[Tuple[bytes, int]] = []
        self.is_done = threading.Event()
        self.thread = threading.Thread(target=self.listen, daemon=True)
        self.thread.start()

    def listen(self) -> None:
        while not self.is_done.is_set():
            if select.select([self.socket], [], [], 0.1)[0]:
                data, address = self.socket.recvfrom(65_535)
                self.heard.append((data, address[1]))

    def end(self) -> None:
        """Gives the port back: it stays taken while a thread waits at it."""
        self.is_done.set()
        self.thread.join()
        self.socket.close()


def members(*words: str) -> List[Process]:
    """Members of these words, each of which has answered each other."""
    made = [Process(["--ports", str(FIRST_PORT), *each.split()]) for each in words]
    for each in made:
        each.wait_for(lambda states: sum(other["delay"] is not None for other in states["members"]["members"]) >= len(made) - 1)
    return made


def count(states: Any, page: str) -> int:
    return sum(each["drawn"] for each in states["pages"]["pages"] if each["page"] == page)


def draws(member: Process, page: str = PAGE) -> Tuple[int, int]:
    """The status of a drawing, and by how many seconds it is ahead of the time of day."""
    before = now()
    status, answer = member.draw(page, "line 0 0 4 0 d")
    return status, (int(answer["words"].split(" ")[4]) - before) // 1_000_000 if status == 200 else 0


def is_near(told: Tuple[int, int]) -> Tuple[int, bool]:
    return told[0], told[1] < 60


def is_twin(member: Process, seconds: float = WHILE) -> bool:
    return member.wait_for(lambda states: states["hello"]["twin"], seconds)


# ---- time, and drawings under numbers of others


def test_time(facts: Facts) -> None:
    """Drawops of two members with a time of tomorrow, to one of three alone."""
    three = members(*["--speed 10"] * 3)
    attacker = Attacker(three[0].udp_port)
    try:
        attacker.send(*[drawn(each.me, 9, now() + AHEAD, 9, b"t", FORGED) for each in three[1:]])
        time.sleep(1)
        facts("beside forged times one draws by the time of day", is_near(draws(three[0])), (200, True))
        facts("and so do the others", [is_near(draws(each)) for each in three[1:]], [(200, True)] * 2)
        newcomer = Process(["--ports", str(FIRST_PORT), "--speed", "10"])
        facts("a newcomer gets what was drawn", newcomer.wait_for(lambda states: count(states, PAGE) >= 3), True)
        facts("and who comes later", is_near(draws(newcomer)), (200, True))
        newcomer.end()
    finally:
        facts("they end with 0", [each.end() for each in three], [0] * 3)


def test_forged_drawops(facts: Facts) -> None:
    """Drawops under a member's own number, to it and to another."""
    two = members(*["--speed 10"] * 2)
    attackers = [Attacker(each.udp_port) for each in two]
    try:
        for attacker in attackers:
            attacker.send(*[drawn(two[1].me, number, now(), 9, b"t") for number in (1, 2, 70_000, 2**31, 2**32 - 1)])
        time.sleep(1)
        status, answer = two[1].draw(PAGE, "line 0 0 4 0 d")
        facts("beside drawops under its number a member draws, by its own next number", (status, answer.get("seq"), is_twin(two[1])), (200, 1, False))
        facts("and the other shows it, and nothing else", two[0].wait_for(lambda states: states["board"]["rows"] == ["ddddd"]), True)
    finally:
        facts("they end with 0", [each.end() for each in two], [0] * 2)


# ---- room


def test_two(facts: Facts) -> None:
    """Two members alone keep all that each draws."""
    two = members(*["--speed 10 --cells 512"] * 2)
    try:
        facts("one draws 100 lines", {two[1].draw(PAGE, "line %d 0 9 9 *" % number)[0] for number in range(100)}, {200})
        facts("the other holds them", two[0].wait_for(lambda states: count(states, PAGE) == 100, SOON), True)
    finally:
        facts("they end with 0", [each.end() for each in two], [0] * 2)


def test_vouching(facts: Facts) -> None:
    """A stranger's drawop is held by two members and reported by both: its others are taken no more than before."""
    two = members(*["--speed 10 --cells 1024"] * 2)
    attackers = [Attacker(each.udp_port) for each in two]
    try:
        for attacker in attackers:
            attacker.send(drawn(900, 1, now(), 9, b"v", FORGED))
        for each in two:
            each.turn(FORGED_PAGE)
        time.sleep(1)  # ten seconds of the session, in which both report
        for attacker, each in zip(attackers, two):
            attacker.reach(each, [drawn(900, number, now(), 9, b"v", FORGED) for number in range(2, 400)])
        time.sleep(1)
        facts("a stranger has its share, and no more", [count(each.states, FORGED_PAGE) <= 2 * 64 for each in two], [True] * 2)
        facts("beside it both draw", [each.draw(PAGE, "line 0 0 4 0 d")[0] for each in two], [200] * 2)
    finally:
        facts("they end with 0", [each.end() for each in two], [0] * 2)


def test_holes(facts: Facts) -> None:
    """A stranger draws by great numbers, and leaves some out: that is dropped, so nobody asks or waits for those below."""
    two = members(*["--speed 10"] * 2)
    attackers = [Attacker(each.udp_port) for each in two]
    try:
        told: List[int] = []
        for attacker in attackers:
            attacker.send(*[drawn(900, number, now(), 9, b"h") for number in (2**32 - 1, 1_000, 1, 3)])
        facts("both hold the first that he drew", comes(lambda: [count(each.states, PAGE) for each in two] == [1, 1], SOON), True)
        end = time.monotonic() + WHILE
        while time.monotonic() < end:
            told += [each.states["health"]["missing"] for each in two]
            time.sleep(0.1)
        facts("nobody waits for more", set(told), {0})
        asked = [entry["name"] for each in two for entry in each.entries if entry["way"] == "out" and entry["kind"] == "request"]
        facts("nor asks for any", asked, [])
        facts("both draw", [each.draw(PAGE, "line 0 0 4 0 d")[0] for each in two], [200, 200])
        facts("and the other holds it", comes(lambda: [count(each.states, PAGE) for each in two] == [3, 3], SOON), True)
    finally:
        facts("they end with 0", [each.end() for each in two], [0] * 2)


class Giver:
    """Gives whoever comes a stream of forged drawops, beside a port of the session."""

    def __init__(self) -> None:
        self.listening = socket.create_server(("127.0.0.1", FIRST_PORT + PORTS - 1))
        self.asked = 0
        threading.Thread(target=self.give, daemon=True).start()

    def give(self) -> None:
        try:
            while True:
                stream, _ = self.listening.accept()
                self.asked += 1
                with stream:
                    stream.recv(100)
                    stream.sendall(b"".join(drawn(9, number, now(), 9, b"s", FORGED) for number in range(1, 601)))
        except OSError:
            pass


def test_streams(facts: Facts) -> None:
    """Reports of a stranger tell of much that is missing, under its own number and under a member's."""
    giver = Giver()
    for name, count_of_members in (("alone", 1), ("with another", 2)):
        some = members(*["--speed 10 --cells 4096"] * count_of_members)
        ear = Ear(some[0].udp_port)
        try:
            ear.send(session(some[-1].me if count_of_members > 1 else 900, 5, FORGED, {9: 4096}), state(900, FORGED, {9: 4096}))
            taken = some[0].wait_for(lambda states: count(states, FORGED_PAGE) > 100, WHILE)
            facts("%s, a member takes no stream of a stranger" % name, (taken, giver.asked), (False, 0))
        finally:
            ear.end()
            facts("%s, all end with 0" % name, [each.end() for each in some], [0] * count_of_members)
    giver.listening.close()


def test_pages(facts: Facts) -> None:
    """Strangers begin many pages."""
    two = members(*["--speed 10"] * 2)
    attackers = [Attacker(two[0].udp_port) for _ in range(3)]
    try:
        pages = ["%d/1" % each.me for each in two]
        for each, page in zip(two, pages):
            each.draw(page, "line 0 0 4 0 p")
        two[0].wait_for(lambda states: min(count(states, page) for page in pages) == 1)
        for start, attacker in zip((1, 401, 801), attackers):
            attacker.reach(two[0], [drawn(900, 1, now(), 9, b"p", (0, number)) for number in range(start, start + 400)])
        facts("of 1,200 pages of strangers few come to be", two[0].wait_for(lambda states: len(states["pages"]["pages"]) >= STRANGE_PAGES + len(pages)), True)
        told = [each["page"] for each in two[0].states["pages"]["pages"]]
        facts("so many", sum(page.startswith("0/") for page in told), STRANGE_PAGES)
        facts("ours and a member's stand before them", set(pages) <= set(told[:3]), True)
    finally:
        facts("they end with 0", [each.end() for each in two], [0] * 2)


def test_recorded_pages(facts: Facts) -> None:
    """A record has more pages of strangers than are listed."""
    with tempfile.TemporaryDirectory() as folder:
        record = Path(folder) / "a.wb"
        record.write_text("board 7 65535 1 42\ntick 5\n" + "".join("draw 900 0/%d 1 5 line 0 0 4 0 p\n" % number for number in range(1, 1_201)))
        member = Process(["--ports", str(FIRST_PORT), "--record", str(record)])
        try:
            member.draw("7/1", "line 0 0 4 0 p")
            facts("1,000 pages are told, and ours before those of strangers", member.wait_for(
                lambda states: len(states["pages"]["pages"]) == 1_000 and "7/1" in [each["page"] for each in states["pages"]["pages"][:2]]), True)
        finally:
            facts("it ends with 0", member.end(), 0)


# ---- replays


def test_replay(facts: Facts) -> None:
    """All that a member sent before it started again is sent to it once more, and what it sends then too."""
    with tempfile.TemporaryDirectory() as folder:
        words = "--speed 10 --record %s" % (Path(folder) / "a.wb")
        first, other = members(words, "--speed 10")
        ear = Ear(first.udp_port)
        first.draw(PAGE, "line 0 0 4 0 d")
        report, me = b"WB\x01\x02", first.me.to_bytes(4, "big")
        facts("a member's reports were heard", comes(lambda: any(data[:4] == report and data[8:12] == me for data, _ in list(ear.heard))), True)
        first.end()
        again = Process(["--ports", str(FIRST_PORT), *words.split()])
        time.sleep(1)
        try:
            ear.target = ("127.0.0.1", again.udp_port)
            ear.send(*[data for data, _ in list(ear.heard)])
            facts("a replay is no twin", is_twin(again), False)
            facts("and the member draws", again.draw(PAGE, "line 0 1 4 1 d")[0], 200)
        finally:
            ear.end()
            facts("they end with 0", [again.end(), other.end()], [0] * 2)


def test_forged_twin(facts: Facts) -> None:
    """Somebody who hears us speaks under our number, and echoes us. We draw on by a new number, with all that is held; after eight times in an hour, nothing
    is drawn until people want a new one."""
    member = Process(["--ports", str(FIRST_PORT), "--speed", "10"])
    ear = Ear(member.udp_port)
    try:
        facts("one draws", member.draw(PAGE, "line 0 0 4 0 a")[0], 200)
        numbers = [member.me]
        for row in range(1, MOST_PARTINGS + 1):
            speak_for(ear, numbers[-1])
            takes = member.wait_for(lambda states: states["hello"]["me"] != numbers[-1], TAKEN)
            facts("it takes a new number by itself", takes, True)
            if not takes:
                return  # nothing below can be so
            numbers.append(member.states["hello"]["me"])
            facts("and draws on", (member.draw(PAGE, "line 0 %d 4 %d a" % (row, row))[0], member.states["hello"]["twin"]), (200, False))
        told = "somebody else spoke under our number %d: we draw on as member %d" % (numbers[0], numbers[1])
        facts("it says so", (len(set(numbers)), member.wait_for(lambda states: told in states["health"]["warnings"])), (MOST_PARTINGS + 1, True))
        newcomer = Process(["--ports", str(FIRST_PORT), "--speed", "10"])
        facts("all that it drew is shown, and repaired", [each.wait_for(lambda states: states["board"]["rows"] == ["aaaaa"] * len(numbers)) for each in (member, newcomer)], [True, True])
        newcomer.end()
        speak_for(ear, numbers[-1])
        facts("once more it is stopped", (is_twin(member, SOON), member.draw(PAGE, "line 0 20 4 20 a")[0], member.states["hello"]["me"]), (True, 422, numbers[-1]))
        facts("until people want a new number", (member.post("/number", {"new": True})[0], member.draw(PAGE, "line 0 20 4 20 a")[0]), (200, 200))
    finally:
        ear.end()
        facts("it ends with 0", member.end(), 0)


def speak_for(ear: Ear, me: int) -> None:
    """Sends a session message of a number from elsewhere, with an echo of the last that the number sent."""
    ear.heard.clear()
    own = b"WB\x01\x02", me.to_bytes(4, "big")
    comes(lambda: any((data[:4], data[8:12]) == own for data, _ in list(ear.heard)), SOON)
    sent, port = next((data[12:20], port) for data, port in list(ear.heard)[::-1] if (data[:4], data[8:12]) == own)
    ear.target = ("127.0.0.1", port)
    ear.send(framed(2, own[1] + struct.pack(">QIIHH", 9, 1, 1, 0, 1) + own[1] + sent + struct.pack(">Q", 1)))


def test_sealed_replay(facts: Facts) -> None:
    """Under a key: what was sent before is sent to a new board by somebody without the key."""
    if not importlib.util.find_spec("cryptography"):
        pytest.skip("there is no cryptography for this Python: apt-get install python3-cryptography")
    from live.keys import write_key

    with tempfile.TemporaryDirectory() as folder:
        key = str(Path(folder) / "a.key")
        write_key(key)
        words = "--speed 10 --key %s --session replay" % key
        two = members(words, words)
        ear = Ear(0)
        two[0].draw(PAGE, 'text 0 0 "forget me"')
        facts("a drawing is with both", two[1].wait_for(lambda states: states["board"]["rows"] == ["forget me"]), True)
        facts("there is something to replay", comes(lambda: len(ear.heard) > 3), True)
        for each in two:
            each.end()
        fresh = members(words, words)
        try:
            for each in [*fresh, *fresh]:  # so what was sent on the old board comes after the answers of the new one, too
                ear.target = ("127.0.0.1", each.udp_port)
                ear.send(*[data for data, _ in list(ear.heard)])
            shown = fresh[0].wait_for(lambda states: states["board"]["rows"] == ["forget me"], WHILE)
            facts("a new board shows nothing of an old one", (len(ear.heard) > 3, shown), (True, False))
            facts("no replay is a twin", [is_twin(each, 0.5) for each in fresh], [False] * 2)
            fresh[0].draw(PAGE, 'text 0 1 "fresh"')
            facts("and members draw", fresh[1].wait_for(lambda states: states["board"]["rows"] == ["", "fresh"]), True)
        finally:
            ear.end()
            facts("they end with 0", [each.end() for each in fresh], [0] * 2)


# ---- floods


def test_amplifying(facts: Facts) -> None:
    """Many forged requests for what a member holds."""
    member = Process(["--ports", str(FIRST_PORT)])
    attacker = Attacker(member.udp_port)
    try:
        for number in range(100):
            member.draw(PAGE, "line 0 0 4 0 d")
        start, began = len(member.entries), time.monotonic()
        asked = [framed(3, b"".join(each.to_bytes(4, "big") for each in (40 + n % 7, member.me, 1, 1, 1 + n % 100))) for n in range(1_000)]
        for n in range(0, 5_000, 1_000):
            attacker.reach(member, asked)
        time.sleep(2)
        sent = sum(entry["way"] == "out" and entry["kind"] == "draw" for entry in list(member.entries)[start:])
        print("5,000 forged requests in %.1f s had %d repairs" % (time.monotonic() - began, sent))
        facts.holds("64 forged requests are answered, and then sixteen a second", sent <= 64 + 16 * (time.monotonic() - began), sent)
    finally:
        facts("it ends with 0", member.end(), 0)
