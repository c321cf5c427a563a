"""A member for each browser: its own number, page and drawings, found again by a cookie; and fifty of them on one machine."""
from __future__ import annotations

import base64
import http.client
import json
import os
import re
import socket
import statistics
import threading
import time
from concurrent.futures import ThreadPoolExecutor
from pathlib import Path
from typing import Any, BinaryIO, Callable, Dict, List, Optional, Tuple

import pytest

from live.board import BoardFault
from live.carriers.carrier import Nobody
from live.carriers.hub import Hub
from live.events import Events
from live.guests import MOST_NEW, NEW_PAUSE, Guests, NoPlace
from live.judging import Judging
from live.member import Member
from live.options import read_options
from live.record import Record
from live.words import SharedWords
from ..facts import Facts
from .browser import Browser, find_chromium
from .members import PATIENCE, Process, change_board, comes, frames, script_of

FIRST_PORT = 26_840
CROWD = 50
LINES = 15

# seconds for which it is measured what they cost at rest
REST = 5 if os.environ.get("WB_MEASURE") else 1

# seconds for which two classes are watched
APART = 2

# milliseconds in the median, on an idle machine
SOON = 300


class Window:
    """A browser at the page: it keeps its cookie, and hears what its member tells."""

    def __init__(self, served: Process, source: str = "127.0.0.1", more: Optional[Dict[str, str]] = None) -> None:
        self.served = served
        self.source = source, 0
        self.more = more or {}
        self.begin()
        self.load()

    def begin(self) -> None:
        self.cookie = ""
        self.status = 0
        self.changed = threading.Condition()
        self.states: Dict[str, Any] = {}
        self.rows_at: Dict[int, float] = {}  # when a row was first there
        self.connection: Optional[socket.socket] = None
        self.stream: Optional[BinaryIO] = None  # that is heard

    @classmethod
    def again(cls, other: "Window") -> "Window":
        """One more window of a browser."""
        made = cls.__new__(cls)
        made.served, made.source, made.more = other.served, other.source, other.more
        made.begin()
        made.cookie = other.cookie
        return made

    def load(self) -> int:
        """Opens the page, or opens it once more."""
        connection = http.client.HTTPConnection("127.0.0.1", self.served.port, timeout=PATIENCE, source_address=self.source)
        connection.request("GET", "/%s/" % self.served.token, headers=self.headers())
        answer = connection.getresponse()
        self.status, told = answer.status, answer.getheader("Set-Cookie", "") or ""
        answer.read()
        connection.close()
        if told:
            self.cookie = told.split(";")[0]
            self.told = told
        return self.status

    def headers(self) -> Dict[str, str]:
        return {**self.more, **({"Cookie": "other=1; " + self.cookie} if self.cookie else {})}

    def look(self) -> "Window":
        self.connection = socket.create_connection(("127.0.0.1", self.served.port), timeout=PATIENCE, source_address=self.source)
        key = base64.b64encode(os.urandom(16)).decode()
        lines = ["GET /%s/events?token=%s HTTP/1.1" % (self.served.token, self.served.token), "Host: 127.0.0.1:%d" % self.served.port,
                 "Upgrade: websocket", "Connection: Upgrade", "Sec-WebSocket-Key: " + key] + ["%s: %s" % pair for pair in self.headers().items()]
        self.connection.sendall("\r\n".join([*lines, "", ""]).encode())
        self.stream = stream = self.connection.makefile("rb")
        self.status = int(stream.readline().split()[1])
        if self.status == 101:
            while stream.readline().strip():
                pass
            threading.Thread(target=self.hear, args=(stream,), daemon=True).start()
        return self

    def hear(self, stream: BinaryIO) -> None:
        try:
            for data in frames(stream):
                self.learn(stream, json.loads(data))
        except (OSError, ValueError):
            pass

    def learn(self, stream: BinaryIO, told: Dict[str, Any]) -> None:
        now = time.monotonic()
        with self.changed:
            # it was closed meanwhile, and the window may look again
            if stream is not self.stream:
                return
            if told["name"] == "change":
                change_board(self.states["board"], told["news"])
            else:
                self.states[told["name"]] = told["news"]
            for y, row in enumerate(self.states.get("board", {}).get("rows", [])):
                if row:
                    self.rows_at.setdefault(y, now)
            self.changed.notify_all()

    def wait_for(self, is_so: Any, seconds: float = PATIENCE) -> bool:
        def holds() -> bool:
            try:
                return bool(is_so(self.states))
            except (KeyError, IndexError):
                return False
        with self.changed:
            return self.changed.wait_for(holds, seconds)

    @property
    def me(self) -> int:
        return int(self.states["hello"]["me"])

    def post(self, path: str, value: Any) -> Tuple[int, Dict[str, Any]]:
        connection = http.client.HTTPConnection("127.0.0.1", self.served.port, timeout=PATIENCE)
        connection.request("POST", "/%s%s" % (self.served.token, path), json.dumps(value), {"X-Wb-Token": self.served.token, **self.headers()})
        answer = connection.getresponse()
        told = answer.status, json.loads(answer.read())
        connection.close()
        return told

    def draw(self, page: str, operation: str) -> Tuple[int, Dict[str, Any]]:
        return self.post("/draw", {"page": page, "op": operation})

    def close(self) -> None:
        if self.connection:
            with self.changed:
                self.stream = None
            self.connection.shutdown(socket.SHUT_RDWR)
            self.connection.close()


def begin(words: List[str]) -> Process:
    return Process(["--web", "127.0.0.1:0", *words])


def rows_are(rows: List[str]) -> Callable[[Dict[str, Any]], bool]:
    """Whether these rows are shown."""
    return lambda states: bool(states["board"]["rows"] == rows)


def test_two(facts: Facts) -> None:
    """Two browsers are two members, of one board."""
    served = begin(["--ports", str(FIRST_PORT), "--guests", "2", "--speed", "10"])
    other = Process(["--ports", str(FIRST_PORT), "--speed", "10"])
    try:
        one, two = Window(served).look(), Window(served).look()
        facts("each browser has a member", [each.wait_for(lambda states: states["hello"]["ready"] and "board" in states) for each in (one, two)], [True, True])
        facts("of its own, and the program has one more", len({one.me, two.me, served.me, other.me}), 4)
        facts("the cookie is for this page alone", ("; HttpOnly; SameSite=Lax; Path=/%s/" % served.token) in one.told, True)
        drawn = one.draw("1/1", "line 0 0 3 0 a")
        facts("what one draws is his", (drawn[0], drawn[1].get("source")), (200, one.me))
        is_drawn = rows_are(["aaaa"])
        facts("and is shown by the other, and elsewhere", [two.wait_for(is_drawn), other.wait_for(is_drawn)], [True, True])
        two.draw("1/1", "line 0 1 3 1 b")
        facts("each deletes what he likes", two.draw("1/1", "delete %d %d" % (one.me, drawn[1]["seq"]))[0], 200)
        facts("for all", [one.wait_for(rows_are(["", "bbbb"])), other.wait_for(rows_are(["", "bbbb"]))], [True, True])
        one.post("/page", {"new": True})
        facts("one turns a page", one.wait_for(lambda states: states["board"]["page"] == "%d/1" % one.me), True)
        facts("and the other stays", two.states["board"]["page"], "1/1")
        check_returns(facts, served, one, two)
        facts("the network has all of them", other.wait_for(lambda states: {each["member"] for each in states["members"]["members"]} == {served.me, one.me, two.me}), True)
    finally:
        facts("a program with guests ends with 0", [served.end(), other.end()], [0, 0])


def test_classes(facts: Facts, tmp_path: Path) -> None:
    """Two classes on one computer, each by its own page, share nothing, and one that starts again at its port goes on with its board."""
    environment, port = {"XDG_STATE_HOME": str(tmp_path)}, free_port()
    one, two = (Process(["--web", "127.0.0.1:%d" % number, "--speed", "10"], environment=environment) for number in (port, 0))
    try:
        facts("neither takes a port of the machine", [each.lines[1].partition(", ")[2] for each in (one, two)], ["a class of its own"] * 2)
        windows = [Window(each).look() for each in (one, two)]
        facts("each may draw", [window.draw("1/1", "line 0 %d 3 %d %s" % (row, row, "ab"[row]))[0] for row, window in enumerate(windows)], [200, 200])
        facts("each shows its own", [window.wait_for(rows_are(rows)) for window, rows in zip(windows, (["aaaa"], ["", "bbbb"]))], [True, True])
        facts("and never the other's", [window.wait_for(rows_are(["aaaa", "bbbb"]), APART) for window in windows], [False, False])
        facts("nobody else is there", [{each["member"] for each in window.states["members"]["members"]} - {served.me} for window, served in zip(windows, (one, two))], [set(), set()])
        facts("the first ends with 0", one.end(), 0)
        one = Process(["--web", "127.0.0.1:%d" % port, "--speed", "10"], environment=environment)
        facts("and goes on", Window(one).look().wait_for(rows_are(["aaaa"])), True)
    finally:
        facts("both end with 0", [one.end(), two.end()], [0, 0])


def free_port() -> int:
    """A port of this machine that nobody has."""
    with socket.socket() as taken:
        taken.bind(("127.0.0.1", 0))
        return int(taken.getsockname()[1])


def check_returns(facts: Facts, served: Process, one: Window, two: Window) -> None:
    """A reload keeps the member; who has no cookie gets none of another's, and of too many the last gets none."""
    me, cookie = one.me, one.cookie
    one.close()
    one.states.clear()
    facts("a reload", (one.load(), one.cookie == cookie), (200, True))
    one.look()
    facts("keeps the number", (one.wait_for(lambda states: "board" in states), one.me), (True, me))
    facts("and the next number of a drawing", one.draw("1/1", "line 0 2 3 2 a")[1].get("seq"), 2)
    third = Window(served)
    facts("of two the third gets no member", (third.status, third.cookie), (503, ""))
    facts("nor what is told", third.look().status, 403)
    facts("nor may it draw", third.draw("1/1", "line 0 3 3 3 c")[0], 403)
    third.cookie = "wb=" + "0" * 32
    facts("nor by a cookie of nobody", third.look().status, 403)
    facts("a script needs no member", served.get("/%s/%s" % (served.token, script_of(served.get("/%s/" % served.token, {"Cookie": one.cookie})[1])))[0], 200)
    facts("and the second is shown what the first drew", two.wait_for(lambda states: "aaaa" in states["board"]["rows"]), True)


# ---- in a real browser

ME = "wb.session.link === 'open' && wb.session.board.page && wb.session.hello.me"


def test_cookies(facts: Facts) -> None:
    """The windows of one browser are one member, also after a reload; another browser is another."""
    program = find_chromium()
    if not program:
        pytest.skip("there is no chromium here: apt-get install chromium")
    served = begin(["--ports", str(FIRST_PORT), "--speed", "10"])
    address = "http://127.0.0.1:%d/%s/" % (served.port, served.token)
    try:
        with Browser(program) as browser:
            pages = [browser.open(address), browser.open(address), browser.open(address, is_apart=True)]
            facts("three windows have members", [page.wait(ME) for page in pages], [True] * 3)
            one, same, other = (page.value(ME) for page in pages)
            facts("two of one browser have one", (one == same, one != other), (True, True))
            pages[0].value("window.before = 1")
            pages[0].call("Page.reload")
            facts("a reload keeps it", (pages[0].wait("!window.before && " + ME), pages[0].value(ME)), (True, one))
            pages[0].value("wb.session.send('line 0 0 3 0 a').then(() => 0)")
            facts("what one draws the other shows", pages[2].wait("wb.session.board.rows[0] === 'aaaa'"), True)
            facts("no fault in a page", browser.faults, [])
    finally:
        facts("served to a browser it ends with 0", served.end(), 0)


class Away:
    """A guest without a browser."""

    def __init__(self, name: str, seen_at: float, address: str, is_away: bool = False, is_idle: bool = False) -> None:
        self.cookie, self.seen_at, self.address, self.away, self.idle, self.member = name, seen_at, address, is_away, is_idle, self

    def is_away(self) -> bool:
        return self.away

    def is_quiet(self, seconds: float) -> bool:
        return self.idle

    def end(self) -> None:
        gone.append(self.cookie)


gone: List[str] = []


def test_room(facts: Facts) -> None:
    """Who makes room: whose browser is away for longest; then one of a crowd; then one that does nothing for long; and nobody else."""
    guests = Guests.__new__(Guests)
    there = [Away("there", 1, "a"), Away("away", 3, "b", is_away=True), Away("long away", 2, "b", is_away=True), Away("crowd 1", 6, "c"), Away("crowd 2", 5, "c"),
             Away("crowd 3", 7, "c"), Away("idle", 4, "d", is_idle=True)]
    guests.guests = {each.cookie: each for each in there}  # type: ignore[misc]
    for name, address, wanted in (("one from there", "a", "long away"), ("the next", "a", "away"), ("one from elsewhere", "e", "crowd 2"), ("one that is alone", "e", "crowd 1"),
                                  ("one of no crowd", "a", "idle")):
        facts("for %s room is made" % name, (guests.make_room(address), gone[-1:]), (True, [wanted]))
    facts("and nobody is there for", (guests.make_room("a"), guests.make_room("c"), sorted(guests.guests)), (False, False, ["crowd 3", "there"]))
    three = [Away("one", 1, "f"), Away("two", 2, "f"), Away("alone", 3, "g")]
    guests.guests = {each.cookie: each for each in three}  # type: ignore[misc]
    facts("an address with two gives a place to one that has none, and to none that has one", [[each.cookie for each in guests.crowd(address)] for address in ("h", "g")],
          [["one", "two"], []])


def test_windows(facts: Facts) -> None:
    """However many windows one browser opens, another has one, and is served."""
    served = begin(["--ports", str(FIRST_PORT + 80), "--guests", "3"])
    try:
        one, other, third = Window(served), Window(served), Window(served)
        facts("three browsers have members", [each.status for each in (one, other, third)], [200] * 3)
        windows = [Window.again(one).look() for _ in range(140)]
        statuses = [each.status for each in windows]
        facts("of one browser eight windows look on", (statuses[:8], set(statuses[8:])), ([101] * 8, {503}))
        facts("beside them another browser's does", other.look().status, 101)
        facts("and draws", (other.wait_for(lambda states: states["hello"]["ready"] and "board" in states), other.draw("1/1", "line 0 0 3 0 a")[0]), (True, 200))
        for each in windows:
            each.close()
        facts("a window that goes makes room for another", comes(lambda: Window.again(one).look().status == 101), True)
    finally:
        facts("with many windows it ends with 0", served.end(), 0)


def test_newcomers(facts: Facts) -> None:
    """One address takes no more than its places a minute, and none for ever: from another address one is served."""
    served = begin(["--ports", str(FIRST_PORT + 120), "--guests", "12"])
    try:
        crowd = [Window(served, "127.0.0.9").look() for _ in range(12)]
        facts("a browser after browser comes from one address", [each.status for each in crowd], [101] * 12)
        facts("where all are at one, none is taken from another", Window(served, "127.0.0.9").status, 503)
        newcomer = Window(served, "127.0.0.8").look()
        facts("from another address one has a place", newcomer.status, 101)
        facts("with a member", newcomer.wait_for(lambda states: states["hello"]["ready"] and "board" in states), True)
        facts("the first of the crowd has lost its", (crowd[0].load(), Window.again(crowd[1]).look().status), (503, 101))
        statuses = [Window(served, "127.0.0.9").status for _ in range(MOST_NEW)]
        facts("and so many asked at most", statuses[-1], 503)
        facts("a proxy of another is believed by nobody", Window(served, "127.0.0.9", {"X-Forwarded-For": "10.0.0.1"}).status, 503)
    finally:
        facts("with newcomers it ends with 0", served.end(), 0)
    served = begin(["--ports", str(FIRST_PORT + 160), "--guests", "2", "--origin", "https://board.example.org"])
    try:
        known = [Window(served, more={"X-Forwarded-For": "10.9.9.9, 10.0.0.%d" % n, "Host": "board.example.org"}).status for n in (1, 1, 2)]
        facts("behind a proxy of this machine addresses are those that it tells last", known, [200, 200, 200])
    finally:
        facts("behind a proxy it ends with 0", served.end(), 0)


def test_pace(facts: Facts) -> None:
    """New members of one address: some at once, and then one in each pause."""
    guests = Guests.__new__(Guests)
    guests.paid = {}
    facts("so many at once", [guests.admits("a") for _ in range(MOST_NEW + 1)], [True] * MOST_NEW + [False])
    facts("and of another as many", guests.admits("b"), True)
    guests.paid["a"] -= NEW_PAUSE
    facts("and then one in each pause", (guests.admits("a"), guests.admits("a")), (True, False))
    guests.paid["a"] -= 10_000
    guests.admits("c")
    facts("who came long ago is forgotten", sorted(guests.paid), ["b", "c"])


class Broken(Exception):
    """A fault of ours, which nothing expects."""


def opened() -> int:
    """How many files this process has open."""
    return len(os.listdir("/proc/self/fd"))


def test_faults(facts: Facts) -> None:
    """A member of a browser that ends by a fault leaves nothing behind, whether it is one that may come or one of ours."""
    options, program = read_options(["--web", "127.0.0.1:0", "--no-terminal"]), os.environ["WB_PROGRAM"]
    hub = Hub(Nobody("a test"))
    keeper = Member(options, program, Record(None), hub.place(), Events(), 1, SharedWords(program))
    keeper.judge(Judging(keeper))
    guests = Guests(keeper, hub)
    running = threading.Thread(target=keeper.run, daemon=True)
    running.start()
    before, threading.excepthook = threading.excepthook, lambda told: None
    try:
        for fault in (BoardFault("the host ended too often"), Broken("ours")):
            files, places = opened(), len(hub.inboxes)
            guest = guests.begin("127.0.0.1")
            while len(hub.inboxes) == places:
                time.sleep(0.01)
            child = guest.member.board.host.process

            def fail(fault: Exception = fault) -> None:
                raise fault

            guest.member.inbox.call(fail)
            guests.threads[-1].join(10)
            name = type(fault).__name__
            facts("after %s it hears no more" % name, len(hub.inboxes), places)
            facts("after %s its host has ended" % name, child.poll() is not None, True)
            facts("after %s no file is open" % name, opened(), files)
            facts("after %s its place is free, and its browser is told" % name, (len(guests.guests), guest.events.is_ended), (0, True))
        files = opened()
        options.rate = -1  # no host takes that with `keep`
        try:
            facts("one that can't start is none", guests.begin("127.0.0.1"), None)
        except NoPlace as told:
            facts("one that can't start is none", str(told), "a member can't be started here now")
        facts("nor leaves it anything behind", (opened(), len(guests.guests)), (files, 0))
    finally:
        threading.excepthook = before
        keeper.end()
        running.join(10)


# ---- fifty


def costs(number: int) -> Tuple[float, float]:
    """The memory, in MB, that a process and its children have for themselves, and the seconds of processor that they took."""
    memory = ticks = 0.0
    for folder in Path("/proc").glob("[0-9]*"):
        try:
            fields = (folder / "stat").read_text().rpartition(")")[2].split()
            if int(folder.name) == number or int(fields[1]) == number:
                ticks += int(fields[11]) + int(fields[12])
                memory += int(re.findall(r"Private_Dirty: +(\d+)", (folder / "smaps_rollup").read_text())[0]) / 1024
        except (OSError, ValueError, IndexError):
            continue
    return memory, ticks / os.sysconf("SC_CLK_TCK")


def delays(windows: List[Window]) -> List[float]:
    """Milliseconds from a drawing in one browser until each other shows it."""
    found: List[float] = []
    for y in range(LINES):
        drawer, began = windows[y % len(windows)], time.monotonic()
        drawer.draw("1/1", "line 0 %d 9 %d *" % (y, y))
        for window in windows:
            window.wait_for(lambda states, window=window: y in window.rows_at)
        found += [(window.rows_at.get(y, began + PATIENCE) - began) * 1000 for window in windows if window is not drawer]
        time.sleep(0.3)
    return found


def test_fifty(facts: Facts) -> None:
    """A line drawn in one of fifty browsers is on all others; and what each of them costs."""
    served = begin(["--ports", str(FIRST_PORT + 40)])
    try:
        time.sleep(1)
        memory = costs(served.process.pid)[0]
        began = time.monotonic()
        with ThreadPoolExecutor(8) as pool:
            windows = list(pool.map(lambda number: Window(served, "127.0.0.%d" % (1 + number % 5)).look(), range(CROWD)))
        ready = [window.wait_for(lambda states: states["hello"]["ready"] and "board" in states) for window in windows]
        facts("fifty browsers have fifty members", (all(ready), len({window.me for window in windows})), (True, CROWD))
        begun = time.monotonic() - began
        before = costs(served.process.pid)[1]
        found = delays(windows)
        facts.holds("a line is on all others", max(found) < PATIENCE * 1000, found)
        if os.environ.get("WB_MEASURE"):
            facts.holds("within %d ms in the median: %.0f" % (SOON, statistics.median(found)), statistics.median(found) < SOON, found)
        more, used = costs(served.process.pid)
        time.sleep(REST)
        idle = costs(served.process.pid)[1] - used
        print("%d browsers with members: all there after %.1f s; a line on the others after %.0f ms in the median, %.0f in 95 of 100, %.0f at most, for %.0f ms of processors; "
              "each costs %.1f MB, and at rest %.2f percent of a processor; load %.0f" % (
                  CROWD, begun, statistics.median(found), sorted(found)[len(found) * 95 // 100], max(found), (used - before) * 1000 / LINES, (more - memory) / CROWD,
                  idle / REST * 100 / CROWD, os.getloadavg()[0]))
        for window in windows:
            window.close()
    finally:
        facts("with fifty members it ends with 0", served.end(), 0)
