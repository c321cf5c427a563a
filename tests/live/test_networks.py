"""Whom members find: by ports, by peers, and by a group on the loopback interface."""
from __future__ import annotations

import os
import signal
import socket
import tempfile
import time
from contextlib import ExitStack, suppress
from pathlib import Path
from functools import partial
from typing import Any, Dict, List

import pytest

from ..facts import Facts
from .attacks.test_hostile import Attacker, draw_datagram
from .members import PATIENCE, Process, answers

FIRST_PORT = 26_160


def free_ports(count: int) -> List[int]:
    """Ports that nobody has, of UDP or of TCP: a member takes both, and connections that other tests ended keep some of TCP for a minute."""
    ports: List[int] = []
    with ExitStack() as held:
        while len(ports) < count:
            udp, tcp = (held.enter_context(socket.socket(socket.AF_INET, kind)) for kind in (socket.SOCK_DGRAM, socket.SOCK_STREAM))
            udp.bind(("127.0.0.1", 0))
            with suppress(OSError):
                tcp.bind(udp.getsockname())
                ports.append(udp.getsockname()[1])
    return ports


def check_pair(facts: Facts, name: str, words: List[List[str]]) -> None:
    """Two members find one another: what one draws the other shows, and each hears how far away the other is."""
    pair = [Process(each + ["--speed", "10"]) for each in words]
    try:
        facts(name + ": one draws", pair[0].draw("1/1", "line 0 0 3 0 a")[0], 200)
        facts(name + ": the other shows it", pair[1].wait_for(lambda states: states["board"]["rows"] == ["aaaa"]), True)
        for each in pair:
            told = each.wait_for(lambda states: any(m["delay"] is not None for m in states["members"]["members"]))
            facts(name + ": a delay is measured", told, True)
            own = [entry for entry in each.entries if entry["way"] == "in" and entry["kind"] == "session-message" and entry["member"] == each.me]
            facts(name + ": nobody takes in his own reports", own, [])
    finally:
        facts(name + ": both end with 0", [each.end() for each in pair], [0, 0])


def test_peers(facts: Facts) -> None:
    one, two, stranger = ["127.0.0.1:%d" % port for port in free_ports(3)]
    check_pair(facts, "peers", [["--listen", one, "--peer", two], ["--listen", two, "--peer", one, "--peer", stranger]])


def test_strangers(facts: Facts) -> None:
    """Where peers are named, nobody else is heard."""
    one, two = free_ports(2)
    member = Process(["--listen", "127.0.0.1:%d" % one, "--peer", "127.0.0.1:%d" % two, "--speed", "10"])
    try:
        Attacker(one).send(draw_datagram(9, 1, 10, b"*"))
        facts("beside a stranger one draws", member.draw("1/1", "line 0 0 3 0 a")[0], 200)
        facts("a stranger is not heard", (member.wait_for(lambda states: states["health"]["counts"]["in"] > 0, 2), member.rows("1/1")), (False, ["aaaa"]))
    finally:
        facts("a member with a stranger ends with 0", member.end(), 0)


def test_listening(facts: Facts) -> None:
    """A member whose number may have drawn before listens for 3 s, and what is drawn waits."""
    began = time.monotonic()
    member = Process(["--ports", str(FIRST_PORT), "--me", "7"])
    try:
        facts("a drawing is not refused at the start", member.draw("1/1", "line 0 0 3 0 a")[0], 200)
        facts("it waits", time.monotonic() - began >= 3, True)
    finally:
        facts("the member ends with 0", member.end(), 0)


def last_tick(record: str) -> int:
    """The latest moment of a record."""
    return max(int(line.split()[1]) for line in Path(record).read_text().split("\n") if line.startswith("tick "))


def can_join(group: str) -> bool:
    """Whether a datagram to a group comes back on the loopback interface here."""
    receiver = socket.socket(socket.AF_INET, socket.SOCK_DGRAM)
    sender = socket.socket(socket.AF_INET, socket.SOCK_DGRAM)
    try:
        receiver.bind((group, 0))
        receiver.settimeout(1)
        local = socket.inet_aton("127.0.0.1")
        receiver.setsockopt(socket.IPPROTO_IP, socket.IP_ADD_MEMBERSHIP, socket.inet_aton(group) + local)
        sender.setsockopt(socket.IPPROTO_IP, socket.IP_MULTICAST_IF, local)
        sender.sendto(b"", (group, receiver.getsockname()[1]))
        receiver.recv(1)
        return True
    except OSError:
        return False
    finally:
        receiver.close()
        sender.close()


def test_group(facts: Facts) -> None:
    group = "239.255.42.99"
    if not can_join(group):
        pytest.skip("the loopback interface here carries no multicast group")
    words = ["--lan", "%s:%d" % (group, free_ports(1)[0]), "--interface", "127.0.0.1"]
    check_pair(facts, "group", [words, words])


def test_numbers(facts: Facts) -> None:
    """A record keeps its number, and two members never have one record."""
    with tempfile.TemporaryDirectory() as folder:
        record = str(Path(folder) / "a.wb")
        words = ["--ports", str(FIRST_PORT), "--speed", "10"]
        first = Process(words)
        second = Process(words + ["--record", record])
        facts("the first two ports", [first.udp_port, second.udp_port], [FIRST_PORT, FIRST_PORT + 1])
        facts("numbers are at random", min(first.me, second.me) >= 1_000_000 and first.me != second.me, True)
        names = [second.draw("2/1", "line 0 %d 3 %d b" % (y, y))[1]["seq"] for y in range(3)]
        facts("numbers ascend", names, [1, 2, 3])
        third = Process(words + ["--record", record], web=False)
        facts("a record in use", third.process.wait(PATIENCE), 1)
        facts("is told", "in use" in (third.process.stderr.read() if third.process.stderr else ""), True)
        third.close()
        me = second.me
        facts("they end with 0", [first.end(), second.end()], [0, 0])
        moment = last_tick(record)
        with open(record, "a") as torn:
            torn.write("say draw %d 2/1 4 10 line 0 0" % me)
        again = Process(words + ["--record", record])
        facts("a record keeps its number", again.me, me)
        facts("and its page", again.rows("2/1"), ["bbbb", "bbbb", "bbbb"])
        facts("a number is never used twice", again.draw("2/1", "line 0 3 3 3 b")[1]["seq"], 4)
        facts("its moments come after", last_tick(record) > moment, True)
        facts("it ends with 0", again.end(), 0)
        facts("the record says the same", "bbbb\nbbbb\nbbbb\nbbbb\n" in answers(record, ["show 2 1 4 4"]), True)
        replay(facts, record)


def has_rows(count: int, states: Dict[str, Any]) -> bool:
    return len(states["board"]["rows"]) == len(states["board"]["drawops"]) == count


def replay(facts: Facts, record: str) -> None:
    shown = Process(["--replay", record, "--speed", "20"])
    facts("a replay shows the page in the end", shown.wait_for(lambda states: len(states["board"]["rows"]) == 4), True)
    for at, rows in ((0, 1), (shown.states["scenes"]["last"], 4)):
        shown.post("/film", {"at": at, "stopped": True})
        facts("a jump to %d ms" % at, shown.wait_for(partial(has_rows, rows)), True)
        facts("with what the record has", shown.states["board"]["rows"], ["bbbb"] * rows)
    facts("a replay draws nothing", shown.draw("2/1", "line 0 0 3 0 c"), (422, {"ok": False, "fault": "a replay draws nothing"}))
    facts("a replay ends with 0", shown.end(), 0)


def test_restart(facts: Facts) -> None:
    """A host that ends is started again, from what it was given."""
    member = Process(["--ports", str(FIRST_PORT), "--speed", "10"])
    try:
        member.draw("1/1", "line 0 0 3 0 d")
        for host in hosts_of(member.process.pid):
            os.kill(host, signal.SIGKILL)
        facts("a host that ended", member.wait_for(lambda states: states["health"]["counts"]["starts"] == 2), True)
        facts("draws on", member.draw("1/1", "line 0 1 3 1 d")[1].get("seq"), 2)
        facts("and shows what it had", member.wait_for(lambda states: states["board"]["rows"] == ["dddd", "dddd"]), True)
    finally:
        facts("after that it ends with 0", member.end(), 0)


def hosts_of(number: int) -> List[int]:
    """The child processes of a member that run `wb host`."""
    found: List[int] = []
    for folder in Path("/proc").glob("[0-9]*"):
        try:
            parent = int((folder / "stat").read_text().rpartition(")")[2].split()[1])
            words = (folder / "cmdline").read_bytes().split(b"\0")
        except (OSError, ValueError):
            continue
        if parent == number and b"host" in words:
            found.append(int(folder.name))
    return found
