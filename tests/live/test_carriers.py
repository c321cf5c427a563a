"""Carriers by themselves, without the program: what makes them worse, what seals them, what joins many; keys, invitations, and who speaks."""
from __future__ import annotations

import contextlib
import importlib.util
import io
import os
import pty
import random
import shutil
import socket
import stat
import subprocess
import sys
import tempfile
import threading
import time
from pathlib import Path
from types import SimpleNamespace
from typing import Any, Dict, List, Optional, Tuple

import pytest

from live.carriers.carrier import MOST_BYTES, SEALED, NetworkFault, Origin
from live.carriers.hub import Hub
from live.carriers.mqtt import GONE, MOST_WAITING, Broker, Login, MqttCarrier
from live.carriers.udp import Group, Peers, Ports
from live.carriers.worse import Worse
from live.inbox import Inbox
from live.invitation import InvitationFault, read_broker, read_invitation, write_invitation
from live.keys import KeyFault, key_bytes, new_key, read_key, write_key
from live.options import read_options
from live.packages import advice
from live.state import lock, session_name
from ..facts import Facts
from .members import PATIENCE, TOP
from .test_networks import free_ports

HOME = Origin("127.0.0.1:1")
KEY = "A" * 42 + "E"
VECTOR = "000102030405060708090a0b4503f55ea26c69d66241978bb1e9786d8681c535f47b5f7c3c67e5851a0be7b9d168c3a731cd36a6a32d3a0b81"
HAS_SEALS = importlib.util.find_spec("cryptography") is not None
needs_seals = pytest.mark.skipif(not HAS_SEALS, reason="there is no cryptography for this Python (apt-get install python3-cryptography)")
NODE = shutil.which("node") or shutil.which("nodejs")


class Wire:
    """A carrier whose other end is the test."""

    where = "a wire"

    def __init__(self) -> None:
        self.sent: List[bytes] = []
        self.inbox: Any = None

    def begin(self, inbox: Any) -> None:
        self.inbox = inbox

    def send(self, data: bytes) -> bool:
        self.sent.append(data)
        return True

    def end(self) -> None:
        self.inbox = None


class Kept:
    """An inbox that keeps all."""

    def __init__(self) -> None:
        self.came: List[Tuple[bytes, Origin]] = []
        self.missed = 0
        self.trouble: Optional[str] = None
        self.troubles: List[str] = []

    def arrive(self, data: bytes, origin: Origin) -> None:
        self.came.append((data, origin))

    def miss(self) -> None:
        self.missed += 1

    def tell(self, trouble: str) -> None:
        self.trouble = trouble
        self.troubles.append(trouble)

    def wait_for(self, data: bytes, seconds: float = PATIENCE) -> Optional[Origin]:
        """The origin of a datagram, once it has come."""
        end = time.monotonic() + seconds
        while time.monotonic() < end:
            for each, origin in list(self.came):
                if each == data:
                    return origin
            time.sleep(0.01)
        return None


# ---- what wraps a carrier


# a datagram, as far as a carrier looks
A = b"WB\1\4\0\0\0\0"


def test_worse(facts: Facts) -> None:
    """Any carrier can be made worse, and better again while it runs."""
    def arrived(words: str, data: bytes = A) -> List[Any]:
        wire, inbox = Wire(), Inbox()
        Worse(wire, read_options(words.split())).begin(inbox)
        wire.inbox.arrive(data, HOME)
        inbox.budget = 1.0  # the pace lets both come at once
        return inbox.take(0)[1]

    facts("a carrier that is not made worse", [(each.is_lost, each.is_second, each.origin) for each in arrived("")], [(False, False, HOME)])
    facts("what is lost on purpose is told", [each.is_lost for each in arrived("--lose 1")], [True])
    facts("what comes twice", [each.is_second for each in arrived("--twice 1")], [False, True])
    facts("what is late is not there yet", arrived("--delay 500"), [])
    words = read_options(["--lose", "1"])
    wire, inbox = Wire(), Inbox()
    worse = Worse(wire, words)
    worse.begin(inbox)
    words.lose = 0.0
    wire.inbox.arrive(A, HOME)
    facts("the words may change", [each.is_lost for each in inbox.take(1)[1]], [False])
    seen: List[bytes] = []
    inbox.aside = lambda data, origin: seen.append(data)
    wire.inbox.arrive(b"WP..", HOME)
    words.lose = 1.0
    wire.inbox.arrive(b"WP!!", HOME)
    facts("what is for drivers alone goes aside, or is lost", (seen, inbox.take(0)[1]), ([b"WP.."], []))
    worse.send(b"c")
    facts("what goes out is left alone", wire.sent, [b"c"])


def test_hub(facts: Facts) -> None:
    """Many members have one carrier: each hears the others and the network, and nobody himself."""
    wire = Wire()
    hub = Hub(wire)
    places, kept = [hub.place() for _ in range(3)], [Kept() for _ in range(3)]
    for place, inbox in zip(places, kept):
        place.begin(inbox)
    places[0].send(b"one")
    facts("the network has what a member sends", wire.sent, [b"one"])
    facts("and all others, from him", [[data for data, _ in inbox.came] for inbox in kept], [[], [b"one"], [b"one"]])
    facts("each has an origin of his own that is kept", len({place.origin for place in places}) == 3 and all(place.origin.is_kept for place in places), True)
    wire.inbox.arrive(b"two", HOME)
    facts("what the network brings goes to all", [inbox.came[-1] for inbox in kept], [(b"two", HOME)] * 3)
    wire.inbox.miss()
    wire.inbox.tell("gone")
    facts("and what is the matter with it", [(inbox.missed, inbox.trouble) for inbox in kept], [(1, "gone")] * 3)
    late = Kept()
    hub.place().begin(late)
    facts("which a member that comes later is told, too", (late.missed, late.trouble), (0, "gone"))
    places[2].end()
    facts("who goes is told of to the others", kept[0].came[-1], (GONE + places[2].origin.text.encode(), places[2].origin))
    wire.inbox.arrive(b"three", HOME)
    facts("and hears no more", [inbox.came[-1][0] == b"three" for inbox in kept], [True, True, False])


# ---- keys


def test_keys(facts: Facts) -> None:
    with tempfile.TemporaryDirectory() as folder:
        path = str(Path(folder) / "a.key")
        write_key(path)
        facts("a new key is read again, by its owner alone", (len(key_bytes(read_key(path))), stat.S_IMODE(os.stat(path).st_mode)), (32, 0o600))
        facts("a file that is there stays as it is", fault_of(lambda: write_key(path)).endswith("can't be made: File exists"), True)
        for mode in (0o644, 0o640, 0o620, 0o601):
            os.chmod(path, mode)
            facts("a key whose file has %o" % mode, fault_of(lambda: read_key(path)), "%s can be read by others: chmod 600 %s" % (path, path))
        short = Path(folder) / "short"
        short.touch(0o600)
        short.write_text("AAAA\n")
        facts("what is no key", fault_of(lambda: read_key(str(short))).startswith("a key has 32 bytes"), True)
    facts("two keys", new_key() != new_key(), True)


def fault_of(what: Any) -> str:
    try:
        what()
    except (KeyFault, InvitationFault, NetworkFault) as fault:
        return str(fault)
    return ""


@needs_seals
def test_seal(facts: Facts) -> None:
    """What is sealed opens by the same key for the same session, and by nothing else."""
    from live.carriers.sealed import Letter, Seal

    seal, data = Seal(KEY, "class-7"), b"WB" + os.urandom(100)
    sent = seal.send(data)
    facts("sealed bytes are 45 longer, and others each time", (len(sent) - len(data), SEALED, sent != seal.send(data)), (45, 45, True))
    facts("they open, and tell the sender and a counter", [seal.read(each) for each in (sent, seal.send(data))], [Letter(seal.sender, n, data) for n in (1, 3)])
    facts("not for another session, nor by another key", [Seal(KEY, "class-8").read(sent), Seal(new_key(), "class-7").read(sent)], [None, None])
    for each in wrong_bytes(sent) + [data]:
        facts("nor if a byte is another one", seal.read(each), None)
    facts("nor what a member of an earlier version sealed", seal.read(seal.close(data)), None)
    facts("a sender is not one that a network keeps", {Seal(KEY, "x").sender[0] >> 7 for _ in range(50)}, {0})
    vector = Seal("AAECAwQFBgcICQoLDA0ODxAREhMUFRYXGBkaGxwdHh8", "board").read(bytes.fromhex(VECTOR))
    facts("the bytes are those of docs/PROTOCOL.md", vector, Letter(bytes.fromhex("0123456789abcdef"), 5, bytes.fromhex("574201040000000400000007")))


def wrong_bytes(sealed: bytes) -> List[bytes]:
    """Parts of sealed bytes, and sealed bytes with one that is another."""
    return [sealed[:n] for n in (0, 11, 12, 27, len(sealed) - 1)] + [bytes([sealed[0] ^ 1]) + sealed[1:], sealed[:-1] + bytes([sealed[-1] ^ 1]), sealed + b"x"]


@needs_seals
def test_sealed(facts: Facts) -> None:
    """Under a key each datagram comes once, from the tag of who sent it, wherever it comes from."""
    from live.carriers.sealed import Letter, Seal, Sealed

    wire, inbox, ours, other = Wire(), Kept(), Seal(KEY, "class-7"), Seal(KEY, "class-7")
    sealed, anna = Sealed(wire, ours), Origin("anna", True)
    sealed.begin(inbox)
    sent, tag = [other.send(b"WB%d" % number) for number in range(4)], Origin(other.sender.hex(), tag=other.sender.hex())
    for each in (sent[0], sent[2], sent[0], sent[1], sent[2], *wrong_bytes(sent[3]), ours.close(b"WB")):
        wire.inbox.arrive(each, HOME)
    facts("each comes once, from its sender", inbox.came, [(b"WB0", tag), (b"WB2", tag), (b"WB1", tag)])
    facts("what does not open is counted", inbox.missed, len(wrong_bytes(sent[3])) + 1)
    wire.inbox.arrive(sent[3], Origin("127.0.0.1:666"))
    facts("another address changes nothing", inbox.came[-1], (b"WB3", tag))
    wire.inbox.arrive(other.send(b"WBn"), anna)
    facts("a name that the network keeps stays", inbox.came[-1], (b"WBn", Origin("anna", True, tag=other.sender.hex())))
    before = len(inbox.came)
    wire.inbox.arrive(ours.send(b"WB"), HOME)
    wire.inbox.arrive(other.will(), HOME)
    facts("what is ours does not come, and a last will tells who is gone", inbox.came[before:], [(GONE + other.sender.hex().encode(), tag)])
    wire.inbox.arrive(other.write(Letter(other.sender, 80, b"WB80")), HOME)
    wire.inbox.arrive(other.write(Letter(other.sender, 15, b"WB15")), HOME)
    wire.inbox.arrive(other.write(Letter(other.sender, 16, b"WB16")), HOME)
    facts("64 behind the greatest it is taken, and 65 not", [data for data, _ in inbox.came[-2:]], [b"WB80", b"WB16"])
    sealed.send(b"WBc")
    facts("what goes out is sealed", (b"WBc" in wire.sent[0], ours.read(wire.sent[0])), (False, Letter(ours.sender, 2, b"WBc")))


@needs_seals
def test_senders(facts: Facts) -> None:
    """Of too many senders the one that was heard least lately is forgotten."""
    from live.carriers.sealed import MOST_SENDERS, Counters

    counters = Counters()
    facts("each is new once", [counters.is_new(b"%d" % sender, 7) for sender in range(MOST_SENDERS)], [True] * MOST_SENDERS)
    facts("and not twice", [counters.is_new(b"%d" % sender, 7) for sender in (0, 1)], [False, False])
    counters.is_new(b"more", 7)
    facts("the one heard least lately is forgotten", [counters.is_new(b"%d" % sender, 7) for sender in (0, 1, 2)], [False, False, True])


# ---- words


def test_invitations(facts: Facts) -> None:
    def line(words: str) -> str:
        options = read_options(words.split())
        lock(options)
        return write_invitation(options)

    with tempfile.TemporaryDirectory() as folder:
        path = str(Path(folder) / "a.key")
        write_key(path)
        key = read_key(path)
        login = Path(folder) / "me"
        login.touch(0o600)
        login.write_text("anna:se:cret\n")
        sealed = line("--broker mqtts://broker.example:8884/class-7 --key %s --password-file %s" % (path, login))
        facts("an invitation", sealed, "wb:#session=class-7&broker=mqtts%3A%2F%2Fbroker.example%3A8884&key=" + key)
        joined = read_options([sealed, "--password-file", str(login)])
        facts("is joined", (joined.broker, joined.session, joined.key, joined.login),
              (Broker("mqtts", "broker.example", 8884, ""), "class-7", key, Login("anna", "se:cret")))
        facts("one for browsers too", line("--broker wss://broker.example/mqtt --session class-7 --page https://page.example/board/ --key " + path),
              "https://page.example/board/#session=class-7&broker=wss%3A%2F%2Fbroker.example%2Fmqtt&key=" + key)
        facts("other sessions have other records", len({session_name(read_options(words.split())) for words in (
            "", "--session b", "--key " + path, "--broker mqtts://h/s", "--broker mqtts://h/t", "--broker mqtts://h:1/s", "--lan", "--ports 25000", "--web h:1", "--web h:2")}), 10)
    group, ports = read_options([line("--lan 239.1.2.3:5000 --session b --open")]), read_options([line("--ports 25000 --open")])
    facts("of an open group, and of ports", (group.lan, group.is_open, ports.ports, ports.is_open), (("239.1.2.3", 5000), True, 25_000, True))
    facts("of peers there is none", fault_of(lambda: line("--listen 127.0.0.1:1 --peer 127.0.0.1:2 --open")).startswith("peers are named one by one"), True)
    facts("nor of a class of its own", fault_of(lambda: line("--web h:1")).startswith("others join a class by the address of its page"), True)
    browser = read_options(["https://page.example/#session=x&broker=wss%3A%2F%2Fanna%3Ase%2540cret%40h%2Fmqtt&lose=0.3"])
    facts("a browser's line may have a login", (browser.broker, browser.login, browser.lose), (Broker("wss", "h", 443, "/mqtt"), Login("anna", "se@cret"), 0.0))
    broker, _, given = read_broker("wss://a%20b:p%40%3A%2Fx@h/mqtt")
    facts("with any letters", (broker, given), (Broker("wss", "h", 443, "/mqtt"), Login("a b", "p@:/x")))
    for wrong in ("wb:", "wb:#", "wb:#session=a+b&ports=25000", "wb:#session=x", "wb:#broker=wss://h&key=short", "wb:#broker=http://h", "wb:#lan=x", "wb:#ports=0", "wb:#lan=239.1.2.3:44\u00b3",
                  "wb:#lan=239.1.2.3:1&ports=25000"):
        facts("no invitation: " + wrong, status_of([wrong]), 2)


def test_code(facts: Facts) -> None:
    """In a terminal the line is followed by a picture of it, where the program is there that makes one."""
    if not shutil.which("qrencode"):
        pytest.skip("there is no qrencode: apt-get install qrencode")
    terminal, inner = pty.openpty()
    command = [sys.executable, str(TOP / "wb-live"), "--invite", "--ports", "25000", "--open"]
    ran = subprocess.Popen(command, stdin=inner, stdout=inner, stderr=subprocess.PIPE)
    os.close(inner)
    told = b""
    try:
        while True:
            told += os.read(terminal, 65_536)
    except OSError:  # the other end is closed
        pass
    lines = told.decode("utf-8").replace("\r", "").split("\n")
    facts("an invitation in a terminal", (ran.wait(PATIENCE), lines[0]), (0, "wb:#session=board&ports=25000&open=yes"))
    facts("has a picture below", len(lines) > 15 and all(set(line) <= set(" \u2580\u2584\u2588") for line in lines[1:]), True)
    facts("and a word on what is open", b"is open" in (ran.stderr.read() if ran.stderr else b""), True)
    if ran.stderr:
        ran.stderr.close()
    os.close(terminal)
    alone = subprocess.run(command, stdin=subprocess.DEVNULL, capture_output=True, text=True, check=True)
    facts("elsewhere it is one line", alone.stdout, lines[0] + "\n")


def status_of(words: List[str]) -> int:
    """The status with which words end; -1 where they are right."""
    with contextlib.redirect_stderr(io.StringIO()):
        try:
            read_options(words)
            return -1
        except SystemExit as end:
            return int(end.code or 0)


def test_options(facts: Facts) -> None:
    for words in ("--broker mqtts://h", "--broker http://h/s", "--broker mqtts://h/a/b", "--broker mqtts://h/a+b", "--broker mqtts://h/s --lan",
                  "--broker mqtt://anna:x@h/s", "--broker mqtts://a%2Fb:x@h/s", "--password-file /nowhere", "--ca x", "--key /nowhere", "--session a/b",
                  "--replay a --broker mqtts://h/s", "--guests 0", "--guests 65", "--page x"):
        facts("words that are wrong: " + words, status_of(words.split()), 2)
    for words in ("--broker mqtt://h/s", "--broker mqtt://anna:x@127.0.0.1/s", "--broker mqtts://anna:x@h/s", "--broker wss://h/mqtt --session s"):
        facts("words that are right: " + words, status_of(words.split()), -1)
    served = {words: read_options(words.split()).guests for words in ("", "--web 8050", "--web 127.0.0.1:8050", "--web 0.0.0.0:8050 --guests 5", "--no-web", "--web a:1 --replay x")}
    facts("who has a member of his own", list(served.values()), [0, 0, 64, 5, 0, 0])
    told = advice("wb_there_is_none", "python3-none", "--broker")
    facts("a package that is nowhere", told, "--broker takes a package that is not here: apt-get install python3-none")


# ---- by UDP


def test_delay(facts: Facts, monkeypatch: pytest.MonkeyPatch) -> None:
    """The greatest delay in seconds: what the words say, and as much again where datagrams are mixed, 20 ms at least; all of it faster by the speed."""
    monkeypatch.setattr(random, "uniform", lambda low, high: high)
    for words, wanted in (("", 0), ("--delay 500", 0.5), ("--delay 500 --mix", 1.0), ("--mix", 0.02), ("--delay 5 --mix", 0.025), ("--delay 500 --mix --speed 10", 0.1)):
        facts("of " + words, round(Worse(Wire(), read_options(words.split())).delay(), 9), wanted)


def test_group(facts: Facts) -> None:
    """What a group brings back is ours if our own port sent it: a member that repairs a drawing of ours sends the same bytes."""
    group = Group.__new__(Group)
    group.recent, group.own_port, group.hosts = {b"x": None}, 5, {}
    facts("what we sent, from our port, and from another; and what we did not", [group.takes(data, ("127.0.0.1", port)) for data, port in ((b"x", 5), (b"x", 6), (b"y", 5))], [False, True, True])


def test_source(facts: Facts) -> None:
    """A stream is asked for from the address where others hear us."""
    with socket.create_server(("127.0.0.1", 0)) as listening:
        carrier = Peers(("127.0.0.2", 0), [listening.getsockname()])
        with carrier.stream_to(listening.getsockname(), PATIENCE) as stream:
            facts("the address", stream.getsockname()[0], "127.0.0.2")
        carrier.end()


def test_waiting(facts: Facts) -> None:
    """At a broker that takes nothing a bounded number waits, and the rest is lost. What is too long, or under a name that nobody can be shown, does not come in."""
    carrier, inbox, published = MqttCarrier.__new__(MqttCarrier), Kept(), []  # type: MqttCarrier, Kept, List[bytes]
    carrier.counting, carrier.waiting, carrier.trouble, carrier.topic, carrier.inbox = threading.Lock(), 0, "", "wb/a/7", inbox
    carrier.at = SimpleNamespace(login=None)  # type: ignore[assignment]

    def publish(topic: str, data: bytes) -> Any:
        published.append(data)
        return SimpleNamespace(rc=0)

    carrier.client = SimpleNamespace(publish=publish)
    sent = [carrier.send(b"x") for _ in range(MOST_WAITING + 2)]
    facts("so many wait", (sum(sent), sent[-2:], len(published)), (MOST_WAITING, [False, False], MOST_WAITING))
    carrier.published(None, None, 0)
    facts("if one has gone, another may", [carrier.send(b"x"), carrier.send(b"x")], [True, False])
    carrier.trouble = "does not answer"
    carrier.published(None, None, 0)
    facts("without a broker none", carrier.send(b"x"), False)
    for name, size in (("bob", MOST_BYTES + SEALED), ("bob", MOST_BYTES + SEALED + 1), ("b\x1bob", 1), ("", 1)):
        carrier.heard(None, None, SimpleNamespace(topic="wb/a/" + name, payload=b"x" * size))
    facts("one came in, and three were none", ([origin.text for _, origin in inbox.came], inbox.missed), (["bob"], 3))


def test_udp(facts: Facts) -> None:
    """Two of a kind hear one another and not themselves, and tell where they are."""
    one, two, three = free_ports(3)
    pairs: Dict[str, Tuple[Any, Any]] = {
        "ports": (Ports(25_900), Ports(25_900)),
        "peers": (Peers(("127.0.0.1", one), [("127.0.0.1", two)]), Peers(("127.0.0.1", two), [("127.0.0.1", one)])),
    }
    try:
        pairs["group"] = Group(("239.255.42.98", three), "127.0.0.1"), Group(("239.255.42.98", three), "127.0.0.1")
    except NetworkFault as fault:
        print("skipped: a multicast group as a carrier, since %s" % fault)
    for name, (here, there) in pairs.items():
        ours, theirs = Kept(), Kept()
        here.begin(ours)
        there.begin(theirs)
        facts("%s: what is sent" % name, here.send(b"hello"), True)
        origin = theirs.wait_for(b"hello", 3 if name == "group" else PATIENCE)
        if name == "group" and origin is None:
            print("skipped: a multicast group as a carrier, since the loopback interface here carries none")
        else:
            facts("%s: comes from where it was sent" % name, origin and origin.address, here.place())
            facts("%s: and a stream may be asked for there" % name, (there.is_there(here.place()), there.may_ask(here.place())), (True, True))
        facts("%s: nobody hears himself" % name, ours.came, [])
        here.end()
        there.end()


# ---- as a browser has it


AGREEMENT = """
import { Seal, newKey } from '%(web)s/seal.js';
import { readInvitation, writeInvitation } from '%(web)s/invitation.js';
const hex = (bytes) => Buffer.from(bytes).toString('hex'), unhex = (digits) => new Uint8Array(Buffer.from(digits, 'hex'));
const { key, session, closed, line } = JSON.parse(process.argv[1]);
const seal = await Seal.of(key, session), opened = await seal.open(unhex(closed)), made = newKey();
const read = readInvitation(new URL(line).hash), written = 'https://page.example/' + writeInvitation(read);
console.log(JSON.stringify({ opened: opened && hex(opened.plain), closed: hex(await seal.close(unhex('00ff5742'))), made, read, written }));
"""


@needs_seals
@pytest.mark.skipif(not NODE, reason="there is no node (apt-get install nodejs)")
def test_browsers(facts: Facts) -> None:
    """A browser seals, tags, opens and invites as we do."""
    for key in (KEY, "tag." + KEY):
        check_browser(facts, key)


def check_browser(facts: Facts, key: str) -> None:
    import json

    from live.carriers.sealed import Seal

    seal = Seal(key, "class-7")
    line = "https://page.example/#session=class-7&broker=wss%3A%2F%2Fbroker.example%2Fmqtt&key=" + key
    asked = json.dumps({"key": key, "session": "class-7", "closed": seal.close(b"\x03\xffWB").hex(), "line": line})
    program = AGREEMENT % {"web": TOP / "web" / "member"}
    ran = subprocess.run([str(NODE), "--input-type=module", "-e", program, asked], stdout=subprocess.PIPE, stderr=subprocess.PIPE, text=True, timeout=60, check=False)
    told = json.loads(ran.stdout) if ran.returncode == 0 else {"fault": ran.stderr}
    facts("a browser opens what we seal", told.get("opened"), b"\x03\xffWB".hex())
    facts("and we what it seals", seal.open(bytes.fromhex(told.get("closed", ""))), b"\x00\xffWB")
    facts("its keys are ours", len(key_bytes(told.get("made", ""))), 32)
    facts("it reads our invitation", told.get("read"), {"session": "class-7", "broker": "wss://broker.example/mqtt", "key": key, "isOpen": False, "more": {}})
    facts("and we its own", read_invitation(told.get("written", "#")), {"session": "class-7", "broker": "wss://broker.example/mqtt", "key": key})
    facts("which is the same line", told.get("written"), line)
