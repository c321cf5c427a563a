"""A session of eight members by a broker that is gone for a while, a third of all datagrams lost; beside them somebody who speaks for
another, and strangers without the key."""
from __future__ import annotations

import struct
import tempfile
import time
from concurrent.futures import ThreadPoolExecutor
from typing import Any, Dict, List, Set, Union

from live.carriers.mqtt import Broker, BrokerSession, Login, MqttCarrier
from live.carriers.sealed import Seal, Sealed
from live.keys import new_key, read_key, write_key
from ..facts import Facts
from .test_carriers import Kept
from .attacks.test_hostile import asking, drawn, framed, session, state
from .members import PATIENCE, Process
from .mosquitto import BrokerFiles
from .test_sessions import PAGES, Session, draw_together
from .test_strangers import AHEAD, FORGED, draws, is_near

MEMBERS = 8
DRAWOPS = 8
OUTAGE = 10.0
NAME = "class-7"

# for whom somebody speaks, for whom he draws, and the number of nobody
VICTIM, VICTIMS, NOBODY = 3, (2, 3), 999

# a page that nobody draws on but in this test
BESIDE = "5/1"


class Carried(Session):
    """Members of a session at a broker, each under a name of its own."""

    def __init__(self, room: BrokerFiles, folder: str) -> None:
        super().__init__(0, folder)
        self.room = room
        self.key = str(room.path / "session.key")
        write_key(self.key)

    def start(self, count: int) -> List[Process]:
        """All at the same time, in the order of their numbers."""
        with ThreadPoolExecutor(count) as pool:
            self.members = list(pool.map(self.start_one, range(1, count + 1)))
        return self.members

    def end(self) -> List[int]:
        """All at the same time too."""
        with ThreadPoolExecutor(len(self.members) or 1) as pool:
            return list(pool.map(Process.end, self.members))

    def start_one(self, me: int) -> Process:
        words = ["--broker", "mqtts://127.0.0.1/" + NAME, "--password-file", str(self.room.path / ("m%d.login" % me)), "--ca", str(self.room.path / "own.pem")]
        words += ["--key", self.key, "--me", str(me), "--record", str(self.folder / ("%d.wb" % me))]
        return Process(words + ["--lose", "0.3334", "--speed", "10", "--cells", "4096"])


def carrier_of(room: BrokerFiles, name: str) -> MqttCarrier:
    login = Login(*(room.path / ("%s.login" % name)).read_text().strip().split(":"))
    return MqttCarrier(BrokerSession(Broker("mqtts", "127.0.0.1", 8883, ""), NAME, name, login, str(room.path / "own.pem")), b"x")


def all_heard(members: List[Process]) -> bool:
    return all(member.wait_for(lambda states: len(states["members"]["members"]) == MEMBERS - 1, PATIENCE) for member in members)


def check_impostor(facts: Facts, held: Carried) -> None:
    """Somebody with a name and the key speaks for a member."""
    mallory = Sealed(carrier_of(held.room, "mallory"), Seal(read_key(held.key), NAME))
    mallory.begin(Kept())
    forged = {
        "session-message": session(VICTIM, 1 << 40, marks={VICTIM: 4_000_000_000}), "page-state": state(VICTIM, (1, 1), {VICTIM: 4_000_000_000}),
        "ask-pages": asking(VICTIM), "request": framed(3, struct.pack(">IIIII", VICTIM, 1, 1, 1, 1)),
    }
    for _ in range(20):
        for datagram in forged.values():
            mallory.send(datagram)
        time.sleep(0.02)
    for member in held.members:
        told = member.wait_for(lambda states: any("speaks for member %d" % VICTIM in text for text in states["health"]["warnings"]))
        facts("who speaks for another is told by member %d" % member.me, told, True)
        # the warning may come with the first of them
        member.wait_for(lambda _: {it["kind"] for it in list(member.entries) if it["from"] == "mallory" and not it["lost"]} >= set(forged))
        came: Dict[str, List[Any]] = {kind: [] for kind in forged}
        for entry in list(member.entries):
            if entry["from"] == "mallory" and not entry["lost"]:
                came[entry["kind"]].append(entry["refused"])
        facts("and each kind of it is dropped by member %d" % member.me, {kind: set(faults) for kind, faults in came.items()}, {kind: {"speaks for another"} for kind in forged})
    facts("nobody takes him for a twin", [member.states["hello"]["twin"] for member in held.members], [False] * MEMBERS)
    check_forger(facts, held, mallory)
    mallory.end()


def why_dropped(member: Process) -> Set[Any]:
    """Why what mallory drew was dropped."""
    return {entry["refused"] for entry in list(member.entries) if entry["from"] == "mallory" and entry["kind"] == "draw" and not entry["lost"]}


def check_forger(facts: Facts, held: Carried, mallory: Sealed) -> None:
    """He draws under the numbers of two members, tomorrow."""
    for number in range(1_000, 1_020):
        for victim in VICTIMS:
            mallory.send(drawn(victim, number, time.time_ns() // 1000 + AHEAD, 9, b"t", FORGED))
        time.sleep(0.02)
    for member in held.members:
        wanted = {"ahead of the clock", "our own number"} if member.me in VICTIMS else {"ahead of the clock"}
        member.wait_for(lambda _: why_dropped(member) >= wanted)
        facts("what somebody draws for others is dropped by member %d" % member.me, why_dropped(member), wanted)
    facts("and all draw by the time of day", [is_near(draws(member, BESIDE)) for member in held.members], [(200, True)] * MEMBERS)


def check_strangers(facts: Facts, held: Carried) -> None:
    """Somebody with a name and no key, or another."""
    plain, kept = carrier_of(held.room, "stranger"), Kept()
    plain.begin(kept)
    other = Sealed(plain, Seal(new_key(), NAME))
    now = time.time_ns() // 1000
    for seq in range(1, 11):
        senders: List[Union[MqttCarrier, Sealed]] = [plain, other]
        for sender in senders:
            sender.send(drawn(NOBODY, seq, now, 30, b"$"))
            sender.send(drawn(1, 1000 + seq, now, 31, b"$"))
        time.sleep(0.02)
    counted = [member.wait_for(lambda states: states["health"]["counts"]["foreign"] >= 40) for member in held.members]
    facts("what does not open is dropped and counted", counted, [True] * MEMBERS)
    facts("a stranger hears nothing that is open", (len(kept.came) > 0, [data for data, _ in kept.came if data[:2] in (b"WB", b"WP")]), (True, []))
    plain.end()


def check_outage(facts: Facts, held: Carried) -> None:
    """All draw on while the broker is gone."""
    broker = held.room.brokers[0]
    broker.stop()
    began = time.monotonic()
    told = [member.wait_for(lambda states: any("does not answer" in text for text in states["health"]["warnings"])) for member in held.members]
    facts("a broker that is gone is told by all", told, [True] * MEMBERS)
    facts("meanwhile all draw on", draw_together(held.members, DRAWOPS // 2), [])
    time.sleep(max(0.0, OUTAGE - (time.monotonic() - began)))
    broker.start()


def check_session(facts: Facts, room: BrokerFiles) -> None:
    with tempfile.TemporaryDirectory() as folder:
        held = Carried(room, folder)
        try:
            members = held.start(MEMBERS)
            facts("eight members hear one another by a broker", all_heard(members), True)
            facts("all draw", draw_together(members, DRAWOPS // 2), [])
            check_impostor(facts, held)
            check_strangers(facts, held)
            check_outage(facts, held)
            began = time.monotonic()
            # the clock goes ten times as fast here, so a busy machine makes delays, and with them the timers, ten times as long
            facts("all hold all drawops", held.wait_until_whole(MEMBERS * DRAWOPS, 3 * PATIENCE), True)
            print("eight members by a broker that was gone for %.0f s, a third lost: all whole %.1f s after it was back" % (OUTAGE, time.monotonic() - began))
            rows = [[member.rows(page) for page in PAGES] for member in members]
            facts("all show the same pages", all(each == rows[0] for each in rows), True)
            facts("and nothing of a stranger's", [row for each in rows[0] for row in each if "$" in row], [])
        finally:
            facts("they end with 0", held.end(), [0] * len(held.members))
        answers = held.answers()
        facts("the hosts of the records answer alike", all(each == answers[0] for each in answers), True)
        facts("no gaps are left", answers[0].count("\ngaps 0\n"), len(PAGES))
        facts("eight sources are reported, and no stranger", answers[0].count("\nreport %d\n" % MEMBERS), len(PAGES))
