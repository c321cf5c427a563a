"""A class at one program: browsers that open a board at once, each over a WebSocket of its own, and then draw, all played by one process.

    tests/take-figures class [BROWSERS DRAWOPS]..

It prints a row for each pair: when the last browser had all, what a drawing cost, and how soon it was at the others. Drawings are strokes of ink on
one page, by thirty people. `CLASS_SECONDS` says for how long each browser draws once a second, else 10, and `CLASS_PATIENCE` how long it waits."""
from __future__ import annotations

import base64
import http.client
import json
import os
import random
import re
import socket
import statistics
import subprocess
import sys
import tempfile
import threading
import time
from concurrent.futures import ThreadPoolExecutor
from pathlib import Path
from typing import Any, BinaryIO, Dict, Iterator, List, NamedTuple, Sequence, Tuple

from wb import ink
from .members import Process, frames, program

PAIRS = (8, 10_000), (8, 60_000), (24, 10_000), (30, 10_000), (30, 20_000)

# those who drew the board, points of a stroke, and its page
PEOPLE, POINTS, PAGE = 30, 27, "1/1"

# strokes that differ by more than their place
MOST_SHAPES = 500

# browsers of one address, since a program admits some at once
OF_ADDRESS = 16

SECONDS, PATIENCE = float(os.environ.get("CLASS_SECONDS", 10)), float(os.environ.get("CLASS_PATIENCE", 300))

# after a drawing, seconds until it has come or never does
LATEST = 30.0

# how the messages begin that need to be read
READ = (b'{"name":"hello"', b'{"name":"board"', b'{"name":"change"', b'{"name":"health"')

# a drawing by its source and its number
Name = Tuple[int, int]
NOTHING: Name = 0, 0


def strokes(many: int, seed: int = 1) -> Iterator[str]:
    """Operations of ink, each a stroke of a word or a figure."""
    drawn, texts = random.Random(seed), []  # type: Tuple[random.Random, List[str]]
    for n in range(many):
        if len(texts) < MOST_SHAPES:
            points = [(drawn.randrange(2_000, 80_000), drawn.randrange(2_000, 60_000))]
            while len(points) < POINTS:
                points.append((points[-1][0] + drawn.randint(-40, 60), points[-1][1] + drawn.randint(-50, 50)))
            texts.append(ink.stroke(points)[0])
        yield str(ink.placed(texts[n % MOST_SHAPES], n))


def write_board(path: Path, drawops: int) -> None:
    """The record of a board on which that many strokes were drawn."""
    words = ["draw %d %s %d %d %s" % (2_000 + n % PEOPLE, PAGE, 1 + n // PEOPLE, 1_700_000_000_000_000 + n, stroke) for n, stroke in enumerate(strokes(drawops))]
    told = subprocess.run([program(), "hex"], input="\n".join(words) + "\n", stdout=subprocess.PIPE, text=True, check=True).stdout.splitlines()
    lines = ["datagram " + line.split(" ")[1] for line in told]
    path.write_text("\n".join(["# wb record 1", "board 1000001 65535 1 42", *lines, "# ended at 2026-11-30 12:00:00", ""]))


class Browser:
    """One browser: its cookie, its stream, and when each drawing came."""

    def __init__(self, port: int, token: str, number: int) -> None:
        self.port, self.token = port, token
        self.source = "127.0.0.%d" % (1 + number // OF_ADDRESS), 0
        self.changed = threading.Condition()
        self.is_ready = False
        self.page = ""
        self.held = 0
        self.ready_at = 0.0  # when it may draw and has all
        self.came: Dict[Name, float] = {}
        self.counts: Dict[str, int] = {}
        self.requests = self.open()

    def open(self) -> http.client.HTTPConnection:
        """The page itself, by a connection that stays."""
        connection = http.client.HTTPConnection("127.0.0.1", self.port, timeout=PATIENCE, source_address=self.source)
        connection.request("GET", "/%s/" % self.token)
        answer = connection.getresponse()
        answer.read()
        if answer.status != 200:
            raise OSError("the page was answered by %d" % answer.status)
        self.cookie = (answer.getheader("Set-Cookie") or "").split(";")[0]
        return connection

    def look(self, wanted: int) -> Browser:
        self.connection = socket.create_connection(("127.0.0.1", self.port), timeout=PATIENCE, source_address=self.source)
        key = base64.b64encode(os.urandom(16)).decode()
        lines = ["GET /%s/events?token=%s HTTP/1.1" % (self.token, self.token), "Host: 127.0.0.1:%d" % self.port, "Cookie: " + self.cookie,
                 "Upgrade: websocket", "Connection: Upgrade", "Sec-WebSocket-Version: 13", "Sec-WebSocket-Key: " + key, "", ""]
        self.connection.sendall("\r\n".join(lines).encode())
        stream = self.connection.makefile("rb", 1 << 20)
        while stream.readline().strip():
            pass
        threading.Thread(target=self.hear, args=(stream, wanted), daemon=True).start()
        return self

    def hear(self, stream: BinaryIO, wanted: int) -> None:
        try:
            for data in frames(stream):
                if data.startswith(READ):
                    told = json.loads(data)
                    self.learn(told["name"], told["news"], wanted)
        except (OSError, ValueError):
            pass

    def learn(self, name: str, news: Dict[str, Any], wanted: int) -> None:
        now = time.monotonic()
        with self.changed:
            if name == "hello":
                self.is_ready = bool(news["ready"])
            elif name == "board":
                self.page, self.held = news["page"], len(news["drawops"]) + len(news["hidden"])
                for drawing in news["drawops"] if self.ready_at else ():
                    self.came.setdefault((drawing["source"], drawing["seq"]), now)
            elif name == "change":
                self.held += len(news["added"])
                for _, drawing in news["added"]:
                    self.came.setdefault((drawing["source"], drawing["seq"]), now)
            else:
                self.counts = news["counts"]
            if self.is_ready and self.held >= wanted and not self.ready_at:
                self.ready_at = now
            self.changed.notify_all()

    def wait_until_ready(self, until: float) -> bool:
        with self.changed:
            return self.changed.wait_for(lambda: self.ready_at, until - time.monotonic()) > 0

    def draw(self, operation: str, asked: str) -> Name:
        """Draws, and gives the name of what came of it: NOTHING if it was refused."""
        body = json.dumps({"many": [{"op": operation, "page": PAGE, "id": asked}]})
        headers = {"X-Wb-Token": self.token, "Cookie": self.cookie, "Content-Type": "application/json"}
        try:
            self.requests.request("POST", "/%s/draw" % self.token, body, headers)
            answer = self.requests.getresponse()
        except (OSError, http.client.HTTPException):  # it was idle for too long
            self.requests.close()
            self.requests.request("POST", "/%s/draw" % self.token, body, headers)
            answer = self.requests.getresponse()
        drawn = json.loads(answer.read())["answers"][0]
        return (drawn["source"], drawn["seq"]) if drawn["ok"] else NOTHING

    def close(self) -> None:
        self.connection.close()
        self.requests.close()


class Cost(NamedTuple):
    """Seconds of processor that a program took, and its hosts; and MB that all have for themselves."""

    python: float
    hosts: float
    memory: float


def cost_of(number: int) -> Cost:
    taken, memory = {True: 0, False: 0}, 0
    for folder in Path("/proc").glob("[0-9]*"):
        try:
            fields = (folder / "stat").read_text().rpartition(")")[2].split()
            if int(folder.name) == number or int(fields[1]) == number:
                taken[int(folder.name) == number] += int(fields[11]) + int(fields[12])
                memory += sum(map(int, re.findall(r"Private_(?:Dirty|Clean): +(\d+)", (folder / "smaps_rollup").read_text())))
        except (OSError, ValueError, IndexError):
            continue
    ticks = os.sysconf("SC_CLK_TCK")
    return Cost(taken[True] / ticks, taken[False] / ticks, memory / 1024)


class Class:
    """A program with a board of its own, and browsers that open it."""

    def __init__(self, folder: Path, drawops: int, words: Sequence[str] = ()) -> None:
        self.drawops = drawops
        write_board(folder / "board.wb", drawops)
        self.served = Process(["--web", "127.0.0.1:0", "--record", str(folder / "board.wb"), "--no-terminal", *words])
        self.number = self.served.process.pid
        self.browsers: List[Browser] = []

    def join(self, many: int) -> List[float]:
        """Some browsers more open the board at once: after how many seconds each has all, those that never had left out."""
        began, here = time.monotonic(), len(self.browsers)
        with ThreadPoolExecutor(many) as pool:
            new = list(pool.map(lambda number: Browser(self.served.port, self.served.token, number).look(self.drawops), range(here, here + many)))
        self.browsers += new
        for browser in new:
            browser.wait_until_ready(began + PATIENCE)
        return sorted(browser.ready_at - began for browser in new if browser.ready_at)

    def rest(self, seconds: float) -> None:
        """Nobody does anything."""
        time.sleep(seconds)

    def draw(self, seconds: float) -> List[float]:
        """Each browser draws once a second: after how many seconds each drawing was at each other; LATEST if it never was."""
        browsers = list(self.browsers)
        with ThreadPoolExecutor(len(browsers)) as pool:
            drawn = [each for some in pool.map(lambda number: self.draw_by(number, seconds), range(len(browsers))) for each in some]
        self.rest(2)
        return sorted(min(LATEST, browser.came.get(name, began + LATEST) - began) for drawer, name, began in drawn for browser in browsers if browser is not drawer)

    def draw_by(self, number: int, seconds: float) -> List[Tuple[Browser, Name, float]]:
        browser, begins, drawn = self.browsers[number], time.monotonic() + number / len(self.browsers), []
        for turn, stroke in enumerate(strokes(int(seconds), 100 + number)):
            time.sleep(max(0.0, begins + turn - time.monotonic()))
            began = time.monotonic()
            drawn.append((browser, browser.draw(stroke, "%d-%d" % (number, turn)), began))
        return drawn

    def counted(self, what: str) -> int:
        """What all members of browsers have counted, by what they told last."""
        return sum(browser.counts.get(what, 0) for browser in self.browsers)

    def end(self) -> int:
        for browser in self.browsers:
            browser.close()
        return self.served.end()


def measure(many: int, drawops: int, seconds: float = SECONDS) -> None:
    """Prints a row."""
    with tempfile.TemporaryDirectory(prefix="wb-class-") as folder:
        held = Class(Path(folder), drawops)
        try:
            before = cost_of(held.number)
            joined = held.join(many)
            after = cost_of(held.number)
            print("%d browsers, %d drawops: %d have all, the last after %.1f s, %.1f s of processor, of it Python %.1f; dropped %d, requests %d, repairs %d" % (
                many, drawops, len(joined), joined[-1] if joined else -1, sum(after[:2]) - sum(before[:2]), after.python - before.python,
                *map(held.counted, ("dropped", "requests", "repairs"))), flush=True)
            if len(joined) < many or not seconds:
                return
            held.rest(2)
            before = cost_of(held.number)
            delays = held.draw(seconds)
            after, drawings = cost_of(held.number), many * int(seconds)
            print("    a drawing: %.0f ms of processor, of it Python %.0f; at the others after %.0f, %.0f, %.0f ms: median, 99 in 100, most; %.0f MB; load %.1f" % (
                (sum(after[:2]) - sum(before[:2])) * 1000 / drawings, (after.python - before.python) * 1000 / drawings,
                statistics.median(delays) * 1000, delays[len(delays) * 99 // 100] * 1000, delays[-1] * 1000, after.memory, os.getloadavg()[0]), flush=True)
        finally:
            held.end()


def main(words: List[str]) -> None:
    numbers = list(map(int, words))
    for many, drawops in list(zip(numbers[::2], numbers[1::2])) or PAIRS:
        measure(many, drawops)


if __name__ == "__main__":
    main(sys.argv[1:])
