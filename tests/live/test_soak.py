"""A soak: eight members draw, a third of what comes to each is lost, and they and their hosts are killed and started again; beside them browsers
with a member each draw ink, leave, and come back. `python3 -m tests.live.test_soak` is one of ten minutes."""
from __future__ import annotations

import argparse
import http.client
import json
import os
import random
import signal
import sys
import tempfile
import threading
import time
from pathlib import Path
from typing import Any, Callable, Dict, List, Optional, Set, Tuple, Union

from live import ink
from live.digests import ANOTHER
from live.keys import write_key
from live.views import Drawop
from ..facts import Facts
from .test_guests import Window
from .test_ink import VECTORS
from .members import LONGEST, SLOW_FROM, Process, answers, milliseconds_a_line, program
from .test_networks import hosts_of
from .test_sessions import PAGES, operation

FIRST_PORT = 26_720
MEMBERS, GUESTS = 8, 4

# of the test, and of a soak by itself: seconds, and drawings of members and guests together
SECONDS, DRAWINGS = 40.0, 1_800
MINUTES, MANY_DRAWINGS = 10.0, 30_000

# seconds between two looks whether all boards are equal
PAUSE = 2

# how many drawings of a guest there are for one that is its last before its window is closed and its page opened again
LEAVES = 30

# what draws glyphs, so that its member may delete it
DRAWS = ("line", "frame", "text")

# the texts of one ink each
INKS = [str(each["text"]) for each in json.loads(VECTORS.read_text())["reads"]]

Drawer = Union[Process, Window]


def inked(chance: random.Random, own: List[int], me: int) -> str:
    """Any operation of a browser, of which two in three are ink, each at its place."""
    if chance.randrange(3) == 0:
        return operation(chance, own, me)
    place, text = len(own), chance.choice(INKS).replace("\\", "\\\\").replace('"', '\\"')
    return 'text %d %d "%s"' % (64 * (place % 64), ink.FIRST_ROW + place // 64 % 96, text)


class Soak:
    """Eight members and their records, one program that has browsers' members beside its own, and what went wrong."""

    def __init__(self, folder: str, seconds: float, drawings: int) -> None:
        self.seconds = seconds
        self.pause = (MEMBERS + GUESTS) * seconds / drawings
        self.chance = random.Random(3)
        self.key = str(Path(folder) / "session.key")
        write_key(self.key)
        self.records = [str(Path(folder) / ("%d.wb" % number)) for number in range(1, MEMBERS + 2)]
        self.members: List[Process] = [self.start(number, []) for number in range(1, MEMBERS + 1)]
        self.served = self.start(MEMBERS + 1, ["--web", "127.0.0.1:0"])
        self.windows = [Window(self.served).look() for _ in range(GUESTS)]
        self.locks = [threading.Lock() for _ in range(MEMBERS + GUESTS)]
        self.names: Dict[Tuple[int, str, int], int] = {}  # how often each number of a member on a page was given
        self.inks = 0
        self.faults: List[str] = []
        self.kills = self.host_kills = self.returns = 0
        self.memory: List[List[int]] = []
        self.apart: List[Any] = []  # who had another page, at any time

    def start(self, number: int, more: List[str]) -> Process:
        words = ["--ports", str(FIRST_PORT), "--key", self.key, "--me", str(number), "--record", self.records[number - 1], *more]
        return Process([*words, "--lose", "0.3334", "--twice", "0.1", "--mix", "--speed", "4"])

    def drawer(self, index: int) -> Drawer:
        """Who draws: a member, or a window of a guest."""
        return self.members[index] if index < MEMBERS else self.windows[index - MEMBERS]

    def shows_all(self, index: int) -> bool:
        """Whether the page of one who draws is what its host shows."""
        drawer = self.drawer(index)
        return drawer.shows_all() if isinstance(drawer, Process) else self.served.shows_all(drawer.states, drawer.headers())

    def draw(self, index: int, end: float) -> None:
        """One draws on both pages until the end, and takes note of the numbers that its drawings have."""
        chance, own = random.Random(index), {page: [] for page in PAGES}  # type: random.Random, Dict[str, List[int]]
        turn, due = 0, time.monotonic()
        while time.monotonic() < end:
            page = PAGES[turn % len(PAGES)]
            with self.locks[index]:
                self.take_note(self.draw_one(index, page, chance, own[page]), page, own[page])
                if index >= MEMBERS and chance.randrange(LEAVES) == 0:
                    self.come_back(self.windows[index - MEMBERS])
            turn += 1
            due = max(due + self.pause, time.monotonic() - 5)
            time.sleep(max(0.0, due - time.monotonic()))

    def draw_one(self, index: int, page: str, chance: random.Random, own: List[int]) -> Tuple[int, Dict[str, Any]]:
        drawer = self.drawer(index)
        try:
            chosen = operation(chance, own, index + 1) if isinstance(drawer, Process) else inked(chance, own, drawer.me)
            return drawer.draw(page, chosen)
        except (OSError, ValueError, KeyError) as fault:
            return 0, {"fault": "%r %s" % (fault, drawer.last_words() if isinstance(drawer, Process) else "")}

    def take_note(self, told: Tuple[int, Dict[str, Any]], page: str, own: List[int]) -> None:
        status, answer = told
        if status == 200:
            drawop = Drawop(answer["words"])
            name = (drawop.name[0], page, drawop.name[2])
            self.names[name] = self.names.get(name, 0) + 1
            self.inks += ink.ink_of(drawop) is not None
            own += [drawop.name[2]] if drawop.kind in DRAWS else []
        elif answer.get("fault") not in ("busy", "ended"):
            self.faults.append("%d: %s" % (status, answer))

    def come_back(self, window: Window) -> None:
        """A guest closes its window, opens the page again, and has its member."""
        before = window.me
        window.close()
        window.states.clear()
        window.load()
        window.look()
        self.returns += 1
        if not window.wait_for(lambda states: "board" in states and states["hello"]["me"] == before):
            self.faults.append("a guest came back as another: %s" % window.states.get("hello"))

    def kill(self, end: float) -> None:
        """A member or a host dies now and then, as by a crash. A host dies twice within two minutes at most: a member gives up after four."""
        killed: Dict[int, List[float]] = {index: [] for index in range(MEMBERS)}
        while time.monotonic() < end:
            time.sleep(max(0.5, min(6.0, self.seconds / 10)) * self.chance.uniform(0.5, 1.5))
            index, now = self.chance.randrange(MEMBERS), time.monotonic()
            with self.locks[index]:
                if self.chance.random() < 0.5 or sum(now - at < 120 for at in killed[index]) >= 2:
                    self.members[index].kill()
                    self.members[index] = self.start(index + 1, [])
                    self.kills += 1
                else:
                    killed[index].append(now)
                    for host in hosts_of(self.members[index].process.pid):
                        os.kill(host, signal.SIGKILL)
                        self.host_kills += 1
            self.note_apart()
            self.memory.append([resident(member.process.pid) for member in [*self.members, self.served]])

    def note_apart(self) -> None:
        """Takes note of each member whose page people see as another."""
        for index in range(MEMBERS + GUESTS):
            others = self.drawer(index).states.get("members", {"members": []})["members"]
            self.apart += [(index, other) for other in others if other["holds"] == ANOTHER]

    def run(self) -> None:
        for window in self.windows:
            window.wait_for(lambda states: states["hello"]["ready"] and "board" in states)
        end = time.monotonic() + self.seconds
        threads = [threading.Thread(target=self.draw, args=(index, end)) for index in range(MEMBERS + GUESTS)] + [threading.Thread(target=self.kill, args=(end,))]
        for thread in threads:
            thread.start()
        for thread in threads:
            thread.join()

    # ---- afterwards

    def shown(self) -> List[List[str]]:
        """What each record shows of both pages, what it has of whom, and what it lacks."""
        questions = ["%s %s" % (word, page.replace("/", " ")) for page in PAGES for word in ("view", "report", "gaps")]
        return [answers(record, questions).split("\n") for record in self.records]

    def is_equal(self) -> bool:
        """Whether all show the same, have the same of everybody and lack nothing, nothing that was drawn is gone, and the guests show the same."""
        first, *others = self.shown()
        drawn = [line for line in first if line.startswith("draw ")]
        return all(each == first for each in others) and set(self.names) <= self.held_in(first) and all(shown_by(window) == drawn for window in self.windows)

    def held_in(self, told: List[str]) -> Set[Tuple[int, str, int]]:
        """The names of what is held by a report, up to each mark, if nothing is lacking."""
        marks, page = set(), -1
        for line in told:
            page += line.startswith("view ")
            words = line.split(" ")
            if line[:1].isdigit() and len(words) == 2:
                marks |= {(int(words[0]), PAGES[page], number) for number in range(1, int(words[1]) + 1)}
            elif line[:1].isdigit():
                return set()  # a gap
        return marks

    def end(self) -> List[int]:
        for window in self.windows:
            window.close()
        return [member.end() for member in [*self.members, self.served]]


def shown_by(window: Window) -> List[str]:
    """The drawops of both pages that a guest's member shows, in words."""
    told: List[str] = []
    for page in PAGES:
        connection = http.client.HTTPConnection("127.0.0.1", window.served.port, timeout=LONGEST)
        connection.request("GET", "/%s/board?page=%s" % (window.served.token, page), headers={"X-Wb-Token": window.served.token, **window.headers()})
        told += [each["words"] for each in json.loads(connection.getresponse().read())["drawops"]]
        connection.close()
    return told


def resident(number: int) -> int:
    """The kilobytes that a program and its hosts have in memory."""
    total = 0
    for each in [number, *hosts_of(number)]:
        try:
            status = Path("/proc/%d/status" % each).read_text()
            total += int(status.split("VmRSS:")[1].split()[0])
        except (OSError, IndexError):
            pass
    return total


def is_soon(is_so: Callable[[], bool], seconds: float) -> bool:
    """Whether something comes to be so."""
    end = time.monotonic() + seconds
    while not is_so():
        if time.monotonic() > end:
            return False
        time.sleep(PAUSE)
    return True


def check_soak(facts: Facts, seconds: float = SECONDS, drawings: int = DRAWINGS) -> None:
    with tempfile.TemporaryDirectory() as folder:
        soak = Soak(folder, seconds, drawings)
        try:
            soak.run()
            began = time.monotonic()
            facts("a soak: nothing is refused", soak.faults[:3], [])
            facts("a soak: no number is used twice", [name for name, times in soak.names.items() if times > 1], [])
            facts("a soak: all boards are equal and whole", is_soon(soak.is_equal, LONGEST), True)
            print("a soak of %d s: %d drawings, of which %d are ink; %d members and %d hosts were killed, and %d times a guest came back; equal after %.0f s" % (
                seconds, len(soak.names), soak.inks, soak.kills, soak.host_kills, soak.returns, time.monotonic() - began))
            marks = [soak.memory[len(soak.memory) * part // 4] for part in range(4)] + [soak.memory[-1]]
            print("memory of a member and its host, the mean of eight, and of the program with guests, at each quarter: %s MB" % ", ".join(
                "%.0f and %.0f" % (sum(each[:MEMBERS]) / MEMBERS / 1024, each[MEMBERS] / 1024) for each in marks))
            healths = [soak.drawer(index).states["health"] for index in range(MEMBERS + GUESTS)]
            facts("a soak: no twin and no clash", [text for health in healths for text in health["warnings"] if "number" in text], [])
            soak.note_apart()
            facts("a soak: nobody had another page, at any time", soak.apart[:3], [])
            facts("a soak: what was told is what the hosts show", [soak.shows_all(index) for index in range(MEMBERS + GUESTS)], [True] * len(healths))
        finally:
            facts("a soak: all end with 0", soak.end(), [0] * (MEMBERS + 1))


def test_soak(facts: Facts) -> None:
    if milliseconds_a_line() >= SLOW_FROM:
        print("a slow build: the soak may take long")
    check_soak(facts)


def main(words: Optional[List[str]] = None) -> int:
    """A soak by itself."""
    made = argparse.ArgumentParser(description=main.__doc__)
    made.add_argument("--minutes", type=float, default=MINUTES)
    made.add_argument("--drawings", type=int, default=MANY_DRAWINGS)
    options = made.parse_args(words)
    program()
    facts = Facts()
    check_soak(facts, options.minutes * 60, options.drawings)
    return facts.status()


if __name__ == "__main__":
    sys.exit(main())
