"""Streams beside a member's UDP port: whole over links that pass them in pieces, given to members alone, and no fault of ours is hidden."""
from __future__ import annotations

import contextlib
import errno
import os
import socket
import tempfile
import threading
import time
from pathlib import Path
from types import SimpleNamespace
from typing import Any, Iterator, List, Optional, Tuple

import pytest

from live.carriers.carrier import NetworkFault, Origin
from live.carriers.udp import MOST_HOSTS, Group, Peers, Ports, UdpCarrier
from live.joining import FRESH, MANY, MOST_GIVEN, MOST_PIECE, PAUSE as PAUSE_OF_REQUESTS, QUESTION, QUESTION_TIME, Joining, Offer, Streams, Talk, datagrams_of
from live.keys import new_key, write_key
from live.people import Refused
from ..facts import Facts
from .test_carriers import HAS_SEALS, KEY
from .inside import run_inside, way_inside
from .test_joins import PAGE, holds, write_board
from .members import PATIENCE, Process, comes
from .test_networks import free_ports

FIRST_PORT = 27_000
DRAWINGS = 3_000

# drawops that a newcomer gets over a shaped link, by any build
JOINED = 1_200

# a link of so much: by it a stream comes in many parts
LINK = "100mbit"
SHAPED = "ip link set lo mtu 1500 && tc qdisc add dev lo root tbf rate %s burst 16kb latency 400ms" % LINK

# marks for which a stream is taken
MARKS = {(9, (1, 1), 7): 600}

# bytes that a slow relay passes at a time, and the seconds between
PIECE, PAUSE = 1_100, 0.0005


# the drawing that is held by who gives a stream
HELD = bytes.fromhex("57420101000000220000000800000001000000010000000100000000000003e70100000000000200006f")


def test_other_questions(facts: Facts) -> None:
    """Under a key a stream is given for the question alone, and not for whatever was sealed by that key."""
    for name, seal in seals():
        for said, wanted in ((QUESTION, True), (b"", False), (QUESTION[:-1] + b"x", False)):
            here, there = socket.socketpair()
            with here, there:
                asked: List[bool] = []
                giver = threading.Thread(target=lambda: asked.append(Talk(here, seal).is_asked(soon())))
                giver.start()
                talk = Talk(there, seal)
                if seal:
                    talk.fresh = there.recv(FRESH, socket.MSG_WAITALL)
                    talk.write(os.urandom(FRESH) + said)
                else:
                    there.sendall(said)
                there.shutdown(socket.SHUT_WR)
                giver.join()
                facts("%s: asked by %r" % (name, said[-2:]), asked, [wanted])


def soon() -> float:
    """The moment at which something that has not come has failed."""
    return time.monotonic() + PATIENCE


def drawings() -> List[bytes]:
    return [b"WB\x01\x01" + (40).to_bytes(4, "big") + os.urandom(40) for _ in range(DRAWINGS)]


def seals() -> List[Tuple[str, Any]]:
    if not HAS_SEALS:
        print("skipped: sealed streams, since there is no cryptography for this Python: apt-get install python3-cryptography")
        return [("plain", None)]
    from live.carriers.sealed import Seal

    return [("plain", None), ("sealed", Seal(KEY, "class-7"))]


@contextlib.contextmanager
def linked(relay: bool) -> Iterator[Tuple[socket.socket, socket.socket]]:
    """Both ends of a TCP connection, with a slow relay between them or none."""
    with socket.create_server(("127.0.0.1", 0)) as far:
        target = far.getsockname()
        between = socket.create_server(("127.0.0.1", 0)) if relay else None
        if between:
            threading.Thread(target=pass_on, args=(between, target), daemon=True).start()
        with socket.create_connection(between.getsockname() if between else target, timeout=PATIENCE) as near, far.accept()[0] as other:
            yield near, other
        if between:
            between.close()


def pass_on(listening: socket.socket, target: Tuple[str, int]) -> None:
    """Passes a connection's bytes on in both directions, in pieces."""
    with contextlib.suppress(OSError):
        ends = listening.accept()[0], socket.create_connection(target)
        ends[1].setsockopt(socket.IPPROTO_TCP, socket.TCP_NODELAY, 1)
        for source, sink in (ends, ends[::-1]):
            threading.Thread(target=pass_pieces, args=(source, sink), daemon=True).start()


def pass_pieces(source: socket.socket, sink: socket.socket) -> None:
    with contextlib.suppress(OSError):
        while True:
            data = source.recv(PIECE)
            if not data:
                sink.shutdown(socket.SHUT_WR)
                return
            sink.sendall(data)
            time.sleep(PAUSE)


def check_whole(facts: Facts, how: str, relay: bool) -> None:
    """What one end gives is what the other has, in pieces as a network cuts them."""
    for name, seal in seals():
        given = drawings()

        def give(stream: socket.socket, seal: Any = seal, given: List[bytes] = given) -> None:
            talk = Talk(stream, seal)
            asked.append(talk.is_asked(soon()))
            for start in range(0, len(given), 500):
                talk.write(b"".join(given[start:start + 500]))
            stream.shutdown(socket.SHUT_WR)

        asked: List[bool] = []
        with linked(relay) as (near, other):
            threading.Thread(target=give, args=(other,), daemon=True).start()
            talk = Talk(near, seal)
            talk.ask(soon())
            taken = list(datagrams_of(talk, soon()))
        facts("a %s stream is asked for %s" % (name, how), asked, [True])
        facts("%d of %d of a %s stream come %s" % (len(taken), len(given), name, how), taken == given, True)


def test_strangers(facts: Facts) -> None:
    """A member without the key gets no stream."""
    if not HAS_SEALS:
        return
    from live.carriers.sealed import Seal

    sealed, other = Seal(KEY, "class-7"), Seal(new_key(), "class-7").close(QUESTION)
    for name, wrong in (("no key", QUESTION * 5), ("another key", len(other).to_bytes(4, "big") + other), ("too long a piece", (MOST_PIECE * 4).to_bytes(4, "big"))):
        with linked(False) as (near, giver):
            near.sendall(wrong)
            near.shutdown(socket.SHUT_WR)
            facts("who has %s gets no stream" % name, Talk(giver, sealed).is_asked(soon()), False)


class Tape:
    """A stream of which all is kept that goes by."""

    def __init__(self, stream: socket.socket) -> None:
        self.stream = stream
        self.heard = b""
        self.said = b""
        self.settimeout = stream.settimeout

    def recv(self, most: int) -> bytes:
        data = self.stream.recv(most)
        self.heard += data
        return data

    def sendall(self, data: bytes) -> None:
        self.said += data
        self.stream.sendall(data)


def test_replays(facts: Facts) -> None:
    """What was said on one sealed stream counts on no other, of either side."""
    if not HAS_SEALS:
        return
    from live.carriers.sealed import Seal

    seal, given = Seal(KEY, "class-7"), drawings()[:500]
    with linked(False) as (near, other):
        giving, tape = Talk(other, seal), Tape(near)

        def give() -> None:
            if giving.is_asked(soon()):
                giving.write(b"".join(given))

        thread = threading.Thread(target=give, daemon=True)
        thread.start()
        asking = Talk(tape, seal)  # type: ignore[arg-type]
        asking.ask(soon())
        first = next(datagrams_of(asking, soon()))
        thread.join()
    facts("a stream is given", first, given[0])
    with linked(False) as (near, other):
        near.sendall(tape.said)
        facts("the same question again gets none", Talk(other, seal).is_asked(soon()), False)
    with linked(False) as (near, other):
        other.sendall(tape.heard)
        other.shutdown(socket.SHUT_WR)
        asking = Talk(near, seal)
        asking.ask(soon())
        facts("the same stream again brings nothing", (len(tape.heard) > FRESH, list(datagrams_of(asking, soon()))), (True, []))


# ---- to whom a stream is given


class Keeper:
    """What an offer needs of a member that holds one drawing."""

    def __init__(self) -> None:
        self.people = SimpleNamespace(call=lambda what: SimpleNamespace(result=lambda seconds: what()))
        self.drawn = SimpleNamespace(all=lambda: [SimpleNamespace(name=(7, (1, 1), 1), digits=HELD.hex())])


def offered(udp: UdpCarrier) -> Offer:
    made = Offer(Keeper(), Streams(udp, None))  # type: ignore[arg-type]
    made.begin()
    return made


def ask(place: Tuple[str, int], source: str = "127.0.0.1") -> bytes:
    """What a connection from there gets that asks for a stream: what is held, or nothing."""
    got = b""
    with contextlib.suppress(ConnectionError), socket.create_connection(place, timeout=PATIENCE, source_address=(source, 0)) as stream:
        stream.sendall(QUESTION)
        while part := stream.recv(1 << 16):
            got += part
    return got


def test_order(facts: Facts) -> None:
    """All that is held comes by page, source and number, in whatever order it was drawn: so nothing seems to be missing on the way."""
    names = [(7, (1, 1), 10), (9, (1, 2), 1), (7, (1, 1), 2), (8, (1, 1), 1), (7, (1, 2), 3), (6, (0, 5), 4)]
    member: Any = Keeper()
    member.drawn = SimpleNamespace(all=lambda: [SimpleNamespace(name=name, digits="%02x" % at) for at, name in enumerate(names)])
    written: List[bytes] = []
    Offer(member, Streams(None, None)).send_all(SimpleNamespace(write=written.append))  # type: ignore[arg-type]
    facts("the order", list(b"".join(written)), [5, 2, 0, 3, 4, 1])


def test_silent(facts: Facts, monkeypatch: pytest.MonkeyPatch) -> None:
    """Nobody is kept out by connections of another host that ask for nothing."""
    monkeypatch.setattr("live.joining.QUESTION_TIME", PATIENCE)
    one, two = free_ports(2)
    udp = Peers(("127.0.0.1", one), [("127.0.0.1", two), ("127.0.0.2", two)])
    offer, place = offered(udp), ("127.0.0.1", one)
    held = [socket.create_connection(place, timeout=PATIENCE) for _ in range(MOST_GIVEN)]
    facts("one that asks gets what is held", ask(place, "127.0.0.2"), HELD)
    facts("of one host one has a place", comes(lambda: sum(offer.given.values()) == 1) and ask(place), b"")
    facts("beside it another host is served", ask(place, "127.0.0.2"), HELD)
    for each in held:
        each.close()
    facts("then that host is served too", comes(lambda: not offer.given) and ask(place), HELD)
    offer.end()
    udp.end()
    ports = Ports(FIRST_PORT + 40)
    offer = offered(ports)
    held = [socket.create_connection(ports.place(), timeout=PATIENCE) for _ in range(MOST_GIVEN + 1)]
    facts("of this machine each member may have one", comes(lambda: sum(offer.given.values()) == MOST_GIVEN) and ask(ports.place()), b"")
    for each in held:
        each.close()
    offer.end()
    ports.end()


def test_slow_question(facts: Facts) -> None:
    """A question has a second. Letters that come one by one do not make it longer: there is an end before the last of them."""
    facts("the time of a question", QUESTION_TIME, 1.0)
    ports, began, letters = Ports(FIRST_PORT + 60), time.monotonic(), 0
    offer = offered(ports)
    with contextlib.suppress(ConnectionError), socket.create_connection(ports.place(), timeout=PATIENCE) as slow:
        facts("who is slow has a place", comes(lambda: any(offer.given.values())), True)
        while any(offer.given.values()) and letters < len(QUESTION):
            slow.sendall(QUESTION[letters:letters + 1])
            letters += 1
            time.sleep(0.5)
    facts("and loses it in mid-question, after a second", (letters < len(QUESTION), time.monotonic() - began >= QUESTION_TIME), (True, True))
    offer.end()
    ports.end()


def test_group(facts: Facts) -> None:
    """In a group a stream goes one hop, and to hosts that were heard."""
    try:
        group = Group(("239.255.42.97", free_ports(1)[0]), "127.0.0.1")
    except NetworkFault as fault:
        pytest.skip("no streams in a group, since %s" % fault)
    offer, place = offered(group), group.place()
    assert offer.socket
    facts("what listens speaks one hop far", offer.socket.getsockopt(socket.IPPROTO_IP, socket.IP_TTL), 1)
    facts("a host that was never heard gets nothing", ask(place, "127.77.0.9"), b"")
    group.takes(b"x", ("127.77.0.9", 5))
    facts("and what is held when it was", ask(place, "127.77.0.9"), HELD)
    facts("as no other is", (group.may_ask(("127.77.0.9", 7)), group.may_ask(("127.77.0.8", 7))), (True, False))
    with group.stream_to(place, PATIENCE) as stream:
        facts("who asks speaks as far, from where it is heard", (stream.getsockopt(socket.IPPROTO_IP, socket.IP_TTL), stream.getsockname()[0]), (1, place[0]))
    for number in range(MOST_HOSTS):
        group.takes(b"x", ("10.0.%d.%d" % divmod(number, 256), 5))
    facts("so many hosts are remembered", (len(group.hosts), group.may_ask(("127.77.0.9", 7))), (MOST_HOSTS, False))
    offer.end()
    group.end()


class Failing:
    """Listens, and has no file left at first."""

    def __init__(self, listening: socket.socket) -> None:
        self.listening = listening
        self.faults = [OSError(errno.EMFILE, "too many open files"), OSError(errno.ECONNABORTED, "gone")]

    def accept(self) -> Any:
        if self.faults:
            raise self.faults.pop()
        return self.listening.accept()


def test_accepting(facts: Facts) -> None:
    """An offer goes on when there was no file for a stream, and ends when it is ended."""
    ports = Ports(FIRST_PORT + 80)
    offer = Offer(Keeper(), Streams(ports, None))  # type: ignore[arg-type]
    listening = ports.listen_beside(MOST_GIVEN)
    offer.socket = listening
    thread = threading.Thread(target=offer.accept, args=(Failing(listening),), daemon=True)
    thread.start()
    facts("after a fault of the machine a stream is given", ask(ports.place()), HELD)
    offer.end()
    thread.join(PATIENCE)
    facts("an offer that is ended has no thread", thread.is_alive(), False)
    ports.end()


# ---- faults that are not the network's


def joining(outcome: Optional[BaseException]) -> Tuple[Joining, List[Any]]:
    """A stream that is handed in and has this outcome; and the faults that nobody caught."""
    def result(_seconds: float) -> None:
        if outcome:
            raise outcome

    member = SimpleNamespace(people=SimpleNamespace(call=lambda *_: SimpleNamespace(result=result)), judging=SimpleNamespace(take_stream=None),
                             inbox=SimpleNamespace(call=lambda call: call()))
    found: List[Any] = []
    made = Joining(member)  # type: ignore[arg-type]
    near, other = socket.socketpair()
    other.sendall(drawings()[0])
    other.shutdown(socket.SHUT_WR)
    udp = SimpleNamespace(stream_to=lambda *_: near)
    before, threading.excepthook = threading.excepthook, lambda told: found.append(told.exc_value)
    try:
        made.is_busy = True
        thread = threading.Thread(target=made.join, args=(Streams(udp, None), Origin("9"), ("127.0.0.1", 1), MARKS))  # type: ignore[arg-type]
        thread.start()
        thread.join(PATIENCE)
    finally:
        threading.excepthook = before
        other.close()
    return made, found


def waiting(*_: Any) -> socket.socket:
    """A stream from which nothing comes for a while."""
    time.sleep(0.5)
    raise ConnectionResetError


def test_coming(facts: Facts) -> None:
    """While a stream brings much, nothing is asked for by name."""
    made, _ = joining(ConnectionResetError())
    facts("no stream comes", made.is_coming(), False)
    made.member = SimpleNamespace(streams=Streams(SimpleNamespace(is_there=lambda _: True, stream_to=waiting), None))  # type: ignore[arg-type, assignment]
    made.fetch(Origin("9", address=("127.0.0.1", 1)), MARKS)
    facts("one that has begun, and has brought nothing, holds no request back", (made.is_busy, made.is_coming()), (True, False))
    told = []
    for new in (MANY - 1, MANY):
        made.took(new)
        told.append(made.is_coming())
    facts("one that brings much comes, and another does not", told, [False, True])
    made.coming_until -= PAUSE_OF_REQUESTS
    facts("and for so long", made.is_coming(), False)
    made.took(MANY)
    made.is_busy = False
    facts("and none once it is at its end", made.is_coming(), False)


def test_faults(facts: Facts) -> None:
    """A stream that breaks off is nobody's fault; a fault of this program is reported. After either the next stream can be asked for."""
    for name, outcome, wanted in (("a busy member", Refused("busy"), 0), ("a network", ConnectionResetError(), 0), ("this program", ZeroDivisionError("ours"), 1)):
        made, found = joining(outcome)
        facts("of %s so many faults are told" % name, len(found), wanted)
        facts("after a fault of %s another stream may be taken, for the same" % name, (made.is_busy, made.tried), (False, {}))
    made, found = joining(None)
    facts("one that comes to its end, and brings nothing, was taken in vain", (found, made.is_busy, made.tried), ([], False, MARKS))


@pytest.mark.inside
def test_join(facts: Facts) -> None:
    """Two members under a key: the newcomer has all, by one stream."""
    with tempfile.TemporaryDirectory() as folder:
        words = ["--ports", str(FIRST_PORT), *key_words(Path(folder))]
        record = Path(folder) / "full.wb"
        write_board(record, 7, JOINED)
        full = Process([*words, "--record", str(record)])
        newcomer = None
        try:
            facts("a record of %d drawops is there" % JOINED, full.wait_for(lambda states: holds(states, JOINED), 120), True)
            newcomer = Process(words)
            facts("a newcomer has them over a link of %s" % LINK, newcomer.wait_for(lambda states: holds(states, JOINED), 120), True)
            asked = sum(entry["kind"] == "request" for entry in newcomer.entries if entry["way"] == "out")
            facts.holds("and has asked for few by name: %d" % asked, asked < JOINED / 4, asked)
            facts("it shows the same", newcomer.wait_for(lambda states: states["board"]["rows"] == full.states["board"]["rows"] and states["board"]["page"] == PAGE), True)
        finally:
            facts("both end with 0", [each.end() for each in (full, newcomer) if each], [0, 0])


def key_words(folder: Path) -> List[str]:
    if not HAS_SEALS:
        return []
    write_key(str(folder / "a.key"))
    return ["--key", str(folder / "a.key")]


def test_whole(facts: Facts) -> None:
    check_whole(facts, "by a slow relay", True)


@pytest.mark.inside
def test_whole_by_a_link(facts: Facts) -> None:
    check_whole(facts, "over a link of %s" % LINK, False)


def test_inside() -> None:
    """Over a link that is shaped."""
    way = way_inside("sh", "-c", SHAPED)
    if not way:
        pytest.skip("no network of its own with tc can be had here (apt-get install iproute2)")
    run_inside(__file__, [*way, "sh", "-c", SHAPED + ' && exec "$@"', "sh"])
