"""Somebody on the wire who lacks the key does all that needs none, at once, to members who draw while a third of what comes to each is lost. He changes
nothing: no drawing is later than without him, nothing of his is held, and he costs no more than hearing him. `python3 -m
tests.live.attacks.test_outside` is a minute of it with each of 2, 3 and 8 members, and then of the same at an open board; with `--times` it judges
times too."""
from __future__ import annotations

import argparse
import contextlib
import os
import socket
import struct
import subprocess
import sys
import tempfile
import threading
import time
from pathlib import Path
from types import SimpleNamespace
from typing import Any, Dict, Iterator, List, Optional, Sequence, Tuple

from live.carriers.sealed import HEAD, TAG, TAGGED_KIND, Seal
from live.joining import QUESTION
from live.keys import new_key
from live.presence import Pointed, write
from ...facts import Facts
from .test_attacked import ALL_MEMBERS, LONG_SECONDS, LONG_SPEED, Attacks, check_attacked
from .test_hostile import asking, drawn, framed
from ..browser import Browser, find_chromium
from ..members import TOP, Process, comes, program
from ..test_strangers import Ear

FIRST_PORT = 27_680

# of the test: members, how many seconds of each phase, and how much faster than a person's time goes
MEMBERS, SECONDS, SPEED = 3, 10.0, 10

# seconds between two drawings of a member; and by how many a drawing may be later than without him, and its answer take, on a machine that does
# nothing else; milliseconds of a frame there; and the part of a processor that he may cost beside what it takes to hear him
PAUSE, LATER, FRAME, COST = 0.25, 0.3, 100, 0.1

# of all times from a drawing to another member, those that are compared
PARTS = (0.5, 0.9, 0.99)

# what a socket of his own costs that hears all that is sent to one member
HEARER = "import socket; s = socket.socket(socket.AF_INET, socket.SOCK_DGRAM); s.bind(('127.0.0.1', 0)); print(s.getsockname()[1], flush=True)\nwhile True: s.recvfrom(65_535)"

# has the page keep the milliseconds of its longest frame
FRAMES = "(() => { let before = performance.now(); const next = (now) => { window.longest = Math.max(window.longest, now - before); before = now; requestAnimationFrame(next); }; next(before); })()"


def text(source: int, seq: int, words: bytes, page: Tuple[int, int] = (1, 1)) -> bytes:
    """A text in a row of ink; it may be of 40 letters."""
    return framed(1, struct.pack(">IIIIQBHHB", source, *page, seq, time.time_ns() // 1000, 3, 0, 4_000, len(words)) + words)


class Outside(Attacks):
    """All that is tried at an open board, and what a key has besides: what was heard once more, cut and changed, taken out of its envelope, and put in
    others."""

    def __init__(self, members: List[Process], numbers: List[int], ear: Optional[Ear] = None, hearer: Optional[int] = None) -> None:
        super().__init__(members, numbers)
        self.ear = ear
        self.ports = [member.udp_port for member in members] + ([hearer] if hearer else [])
        self.seals = [Seal(new_key(tags=True), "board")]
        self.turn = 0
        self.threads.append(threading.Thread(target=self.take_streams))

    def forge(self) -> None:
        while not self.is_ended:
            origin = self.chance.choice(self.sockets)
            for datagram in self.some():
                for port in self.ports:
                    with contextlib.suppress(OSError):
                        origin.sendto(datagram, ("127.0.0.1", port))
                        self.sent += 1
            time.sleep(0.04)

    def some(self) -> List[bytes]:
        chance, me = self.chance, self.chance.choice(self.numbers)
        self.turn += 1
        stranger, now = 5_000 + self.turn % 250, time.time_ns() // 1000
        begun = ['text 0 4000 "~o!4%s"' % ("!" * 6 + "5V!5V!")] * 20
        forged = super().some() + [
            *[asking(stranger)] * 10, *[os.urandom(8) for _ in range(10)], *[b"WG\x01\x00127.0.0.1:%d" % port for port in self.ports],
            *[drawn(me, 65_536 * (1 + self.turn % 512), now, 5, b"o"), drawn(stranger, 2**32 - 1, now, 6, b"l"), drawn(stranger, 1_000, now, 7, b"k")],
            *[write(Pointed(stranger + n, (1, 1), (3, 4), begun)) for n in range(3)],
            text(7_000, self.turn, b"~o!4" + b"!" * 6 + b"5V!5V!"), text(7_001, 60_000 - self.turn, b"~sHb!->!XBYYYE"), text(7_002, self.turn, b"name %d" % self.turn, (0, 0)),
        ]
        heard = [chance.choice(self.ear.heard)[0] for _ in range(8)] if self.ear and self.ear.heard else []
        plain = [data[HEAD:-TAG] for data in heard if data[:1] == bytes([TAGGED_KIND])]
        forged += heard + plain + [data[:chance.randrange(len(data))] for data in heard] + [bytes([data[0] ^ 1]) + data[1:] for data in heard]
        forged += [echoing(me, data) for data in plain if data[:4] == b"WB\1\2"]
        return forged + [seal.send(data) for seal in self.seals for data in [*plain, *forged[:10]]]

    def take_streams(self) -> None:
        """Asks for streams without the key, and with what somebody else's stream began with."""
        while not self.is_ended:
            for member in self.members:
                with contextlib.suppress(OSError), socket.create_connection(("127.0.0.1", member.udp_port), timeout=0.2) as link:
                    link.sendall(QUESTION + os.urandom(40))
                    link.recv(64)
            time.sleep(0.2)


def attack(places: List[Tuple[int, int]], numbers: List[int], hearer_port: int) -> None:
    """Does so to the members at these ports, and those of their pages, until its input ends; prints how many datagrams it sent."""
    ear = Ear(0, FIRST_PORT)
    members: List[Any] = [SimpleNamespace(udp_port=udp_port, port=port) for udp_port, port in places]
    with Outside(members, numbers, ear, hearer_port) as made:
        print("begun", flush=True)
        sys.stdin.read()
    ear.end()
    print(made.sent)


@contextlib.contextmanager
def outside(members: Sequence[Process], hearer_port: int) -> Iterator[List[str]]:
    """The same in a process of its own, which takes nothing of the time of who watches; what it prints comes into the list at its end."""
    words = [(member.udp_port, member.port) for member in members], [member.me for member in members], hearer_port
    code, printed = "from tests.live.attacks.test_outside import attack; attack(*%r)" % (words,), []  # type: str, List[str]
    with subprocess.Popen([sys.executable, "-c", code], cwd=TOP, stdin=subprocess.PIPE, stdout=subprocess.PIPE, text=True) as process:
        assert process.stdout
        process.stdout.readline()
        try:
            yield printed
        finally:
            printed += process.communicate("")[0].split()


def echoing(me: int, report: bytes) -> bytes:
    """A report under a member's own number that echoes the last moment of a report."""
    sender, moment = struct.unpack(">IQ", report[8:20])
    return framed(2, struct.pack(">IQIIHHIQQ", me, time.time_ns() // 1000, 1, 1, 0, 1, sender, moment, 1_000))


class Timed(Process):
    """A member that notes when it showed each drawing first."""

    def __init__(self, words: List[str], home: str) -> None:
        self.seen: Dict[Tuple[int, int], float] = {}
        super().__init__(words, environment={"XDG_STATE_HOME": home}, closed=True)

    def learn(self, name: str, value: Dict[str, Any]) -> None:
        super().learn(name, value)
        now = time.monotonic()
        for each in value["drawops"] if name == "board" else [it for _, it in value["added"]] if name == "change" else []:
            self.seen.setdefault((each["source"], each["seq"]), now)


class Phase:
    """Members draw for some seconds: what was refused, how long each answer took, when each drawing began, and what each member cost of a processor."""

    def __init__(self, members: List[Timed], seconds: float, others: List[int]) -> None:
        self.faults: List[str] = []
        self.answers: List[float] = []
        self.began: Dict[Tuple[int, int], float] = {}
        busy, start = [busy_of(number) for number in [member.process.pid for member in members] + others], time.monotonic()
        threads = [threading.Thread(target=self.draw, args=(member, start + seconds)) for member in members]
        for each in threads:
            each.start()
        for each in threads:
            each.join()
        after, passed = [busy_of(number) for number in [member.process.pid for member in members] + others], time.monotonic() - start
        self.costs = [(last - first) / passed for first, last in zip(busy, after)]

    def draw(self, member: Timed, end: float) -> None:
        while time.monotonic() < end:
            began = time.monotonic()
            status, told = member.draw("1/1", "line %d %d %d %d d" % (len(self.began) % 90, member.me % 30, len(self.began) % 90, member.me % 30))
            self.answers.append(time.monotonic() - began)
            if status == 200:
                self.began[told["source"], told["seq"]] = began
            else:
                self.faults.append("%d: %s" % (status, told))
            time.sleep(PAUSE)

    def have_come(self, members: List[Timed]) -> bool:
        return comes(lambda: all(self.began.keys() <= member.seen.keys() for member in members))

    def times(self, members: List[Timed]) -> List[float]:
        """From each drawing to each other member, the shortest first."""
        return sorted(member.seen[name] - began for name, began in self.began.items() for member in members if member.me != name[0])


def busy_of(number: int) -> float:
    """The seconds of a processor that a process and its children have taken."""
    ticks = 0
    for folder in Path("/proc").glob("[0-9]*"):
        with contextlib.suppress(OSError, ValueError, IndexError):
            fields = (folder / "stat").read_text().rpartition(")")[2].split()
            if number in (int(folder.name), int(fields[1])):
                ticks += int(fields[11]) + int(fields[12])
    return ticks / os.sysconf("SC_CLK_TCK")


def part_of(times: List[float], part: float) -> float:
    return times[int(part * (len(times) - 1))]


@contextlib.contextmanager
def hearer() -> Iterator[Tuple[int, int]]:
    """The number and the port of a process that hears, and does nothing."""
    with subprocess.Popen([sys.executable, "-c", HEARER], stdout=subprocess.PIPE, text=True) as process:
        assert process.stdout
        try:
            yield process.pid, int(process.stdout.readline())
        finally:
            process.kill()


@contextlib.contextmanager
def watched(member: Process) -> Iterator[Any]:
    """A window at a member, if times are judged and there is a browser."""
    found = find_chromium() if os.environ.get("WB_MEASURE") else None
    with contextlib.ExitStack() as opened:
        yield opened.enter_context(Browser(found)).open("http://127.0.0.1:%d/%s/" % (member.port, member.token)) if found else None


def longest_frame(page: Any) -> Any:
    """The milliseconds of the longest frame since this was asked last."""
    if not page:
        return 0
    found = page.value("window.longest ?? -1")
    page.value("window.longest = 0; %s; 0" % (FRAMES if found < 0 else ""))
    return found


def check_outside(facts: Facts, count: int, seconds: float, speed: int) -> None:
    """N members for some seconds without him, and then as long beside him, while another one joins them. What he cost, half of that time after him tells:
    then all are there who were beside him."""
    with tempfile.TemporaryDirectory(prefix="wb-state-") as home, hearer() as (listener, port), contextlib.ExitStack() as ended:
        words = ["--ports", str(FIRST_PORT), "--lose", "0.3334", "--twice", "0.1", "--mix", "--speed", str(speed)]
        members = [Timed(words, home) for _ in range(count)]
        ended.callback(lambda: facts("%d: all end with 0" % count, [member.end() for member in members], [0] * len(members)))
        numbers = [member.me for member in members]
        facts("%d find one another" % count, all(comes(lambda: heard(member) == set(numbers) - {member.me}) for member in members), True)
        page = ended.enter_context(watched(members[0]))
        longest_frame(page)
        quiet = Phase(members, seconds, [listener])
        frames = [longest_frame(page)]
        with outside(members, port) as sent:
            late = Timed(words, home)
            members.append(late)
            numbers.append(late.me)
            beside = Phase(members[:count], seconds, [listener])
            facts("%d: who comes beside him is found" % count, all(comes(lambda: heard(member) >= set(numbers) - {member.me}) for member in members), True)
            facts("%d: and draws" % count, late.draw("1/1", "line 0 31 4 31 n")[0], 200)
            frames.append(longest_frame(page))
        after = Phase(members[:count], seconds / 2, [listener])
        check_unchanged(facts, members, numbers, [quiet, beside, after])
        tell_times(facts, members[:count], quiet, beside, frames)
        tell_costs(facts, count, beside, after)
        print("%d members beside %s datagrams of somebody without the key, load %.1f" % (count, " ".join(sent), os.getloadavg()[0]))


def heard(member: Process) -> Any:
    return {it["member"] for it in member.states.get("members", {"members": []})["members"]}


def pointing(member: Process) -> Any:
    """Who points at something, or has it in view."""
    return {it["member"] for it in member.states.get("presence", {"others": []})["others"]}


def check_unchanged(facts: Facts, members: List[Timed], numbers: List[int], phases: List[Phase]) -> None:
    """Nothing of his is held or shown, and nobody minds him."""
    total, count = sum(len(phase.began) for phase in phases) + 1, len(members) - 1
    facts("%d: nothing is refused" % count, [fault for phase in phases for fault in phase.faults], [])
    facts("%d: all that was drawn is everywhere" % count, [phase.have_come(members) for phase in phases], [True] * len(phases))
    facts("%d: and nothing else" % count, comes(lambda: [member.states["health"]["taken"] for member in members] == [total] * len(members)), True)
    facts("%d: on one page" % count, [[it["page"] for it in member.states["pages"]["pages"] if it["drawn"]] for member in members], [["1/1"]] * len(members))
    facts("%d: nobody else is there, or points" % count, [(heard(member) | pointing(member)) - set(numbers) for member in members], [set()] * len(members))
    facts("%d: all have their numbers" % count, [(member.states["hello"]["me"], member.states["hello"]["twin"], member.counts()["starts"]) for member in members], [(number, False, 1) for number in numbers])
    facts("%d: nobody is warned" % count, [member.states["health"]["warnings"] for member in members], [[]] * len(members))
    facts.holds("%d: what he sent was heard" % count, min(member.counts()["foreign"] for member in members[:count]) > 1_000, members[0].counts())


def tell_times(facts: Facts, members: List[Timed], quiet: Phase, beside: Phase, frames: List[float]) -> None:
    """Times are judged where that was asked for."""
    before, after, count = quiet.times(members), beside.times(members), len(members)
    for name, phase, times, frame in (("without him", quiet, before, frames[0]), ("beside him", beside, after, frames[1])):
        parts = ", ".join("%.0f in 100 %.3f" % (100 * part, part_of(times, part)) for part in PARTS)
        print("%d members %s: %d drawings, answers in %.3f s at most; to the others %s, all %.3f s; a frame of a window %.0f ms at most" % (
            count, name, len(phase.began), max(phase.answers), parts, times[-1], frame))
    if not os.environ.get("WB_MEASURE"):
        print("skipped: whether drawings are as early as without him, which is judged where WB_MEASURE is set")
        return
    facts.holds("%d: an answer takes at most %g s" % (count, LATER), max(beside.answers) < LATER, max(beside.answers))
    for part in PARTS[:2]:
        facts.holds("%d: %.0f in 100 drawings are not later" % (count, 100 * part), part_of(after, part) < part_of(before, part) + LATER, (part_of(before, part), part_of(after, part)))
    facts.holds("%d: no frame over %d ms" % (count, FRAME), frames[1] < FRAME, frames)


def tell_costs(facts: Facts, count: int, beside: Phase, after: Phase) -> None:
    """What he cost each of them of a processor; judged where times are."""
    *costs, hearing = [first - last for first, last in zip(beside.costs, after.costs)]
    print("he cost each of them %s of a processor, and a socket that hears as much %.3f" % (" ".join("%.3f" % cost for cost in costs), hearing))
    if os.environ.get("WB_MEASURE"):
        facts.holds("%d: he costs less than %g of a processor beside what hearing costs" % (count, COST), max(costs) < hearing + COST, costs)


def test_outside(facts: Facts) -> None:
    check_outside(facts, MEMBERS, SECONDS, SPEED)


def test_opened(facts: Facts) -> None:
    """The same at an open board: one draws, and all that was drawn comes."""
    check_attacked(facts, MEMBERS, SECONDS, SPEED, Outside)


def main(words: Optional[List[str]] = None) -> int:
    """A minute without him and one beside him with 2, 3 and 8 members; and then a minute of the same at an open board."""
    made = argparse.ArgumentParser(description=main.__doc__)
    made.add_argument("--seconds", type=float, default=LONG_SECONDS)
    made.add_argument("--members", type=int, nargs="+", default=ALL_MEMBERS)
    made.add_argument("--speed", type=int, default=1, help="how much faster than a person's time goes")
    made.add_argument("--times", action="store_true", help="judge times, frames and costs too, on a machine that does nothing else")
    made.add_argument("--closed", action="store_true", help="without the open board")
    options = made.parse_args(words)
    program()
    os.environ.update({"WB_MEASURE": "1"} if options.times else {})
    facts = Facts()
    for count in options.members:
        check_outside(facts, count, options.seconds, options.speed)
        if not options.closed:
            check_attacked(facts, count, options.seconds, LONG_SPEED, Outside)
    return facts.status()


if __name__ == "__main__":
    sys.exit(main())
