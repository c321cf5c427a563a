"""A board that is nearly full: how soon a newcomer has it, and how soon a line on it is seen by many."""
from __future__ import annotations

import os
import statistics
import subprocess
import tempfile
import threading
import time
from pathlib import Path
from typing import Any, Dict, List, Optional

from ..facts import Facts
from .members import LONGEST, PATIENCE, SLOW_FROM, Process, messages, milliseconds_a_line

FIRST_PORT = 26_560
PAGE = "1/1"

DRAWOPS = 60_000
SOURCES = (11, 12, 13)

# where the program is a slow build
FEW_DRAWOPS = 3_000

# seconds to join, watchers, and milliseconds until all of them see a line, in the best of some rounds: of a machine that does nothing
# else, which is asked for by WB_MEASURE
SECONDS = 10
WATCHERS = 50
ROUNDS = 9
MOST_LATENCY = 100


def write_board(path: Path, me: int, drawops: int) -> None:
    """The record of a member that holds drawops of three others, on a page."""
    words = [
        "draw %d 1/1 %d %d line %d %d %d %d %s" % (SOURCES[n % 3], n // 3 + 1, n, n % 190, n // 7 % 90, n % 190 + 5, n // 7 % 90, "*+o"[n % 3])
        for n in range(drawops)
    ]
    arrivals = subprocess.run([os.environ["WB_PROGRAM"], "hex"], input="\n".join(words) + "\n", stdout=subprocess.PIPE, text=True, check=True).stdout
    path.write_text("board %d 65535 1 42\ntick 5\n" % me + arrivals.replace("arrive ", "datagram "))


def is_measured() -> bool:
    """Whether times are judged by the measure of a machine that does nothing else."""
    return bool(os.environ.get("WB_MEASURE"))


def holds(states: Dict[str, Any], drawops: int) -> bool:
    return any(page["page"] == PAGE and page["drawn"] >= drawops for page in states["pages"]["pages"])


def check_join(facts: Facts, full: Process, drawops: int) -> Process:
    """A newcomer without anything."""
    newcomer = Process(["--ports", str(FIRST_PORT)])
    began = time.monotonic()
    joined = newcomer.wait_for(lambda states: holds(states, drawops), LONGEST)
    took = time.monotonic() - began
    print("joining %d drawops took %.1f s" % (drawops, took))
    facts("a newcomer has %d drawops" % drawops, joined, True)
    if is_measured():
        facts.holds("within %d s" % SECONDS, took < SECONDS, took)
    facts("it shows the same", newcomer.wait_for(lambda states: states["board"]["rows"] == full.states["board"]["rows"]), True)
    facts("it agrees with its host", newcomer.shows_all(), True)
    print("and %d requests" % newcomer.counts()["requests"])
    facts("it asked for few by name, since a stream came", newcomer.counts()["requests"] < max(1_000, drawops // 10), True)
    return newcomer


class Watcher:
    """What one browser hears of a page, and when it first had a line of a row. As a browser does, it connects again when it was cut off."""

    def __init__(self, member: Process) -> None:
        self.rows: Dict[int, float] = {}
        self.is_there = False
        self.changed = threading.Condition()
        self.member = member
        threading.Thread(target=self.watch, daemon=True).start()

    def watch(self) -> None:
        while self.member.process.poll() is None:
            try:
                for name, value in messages("/%s/events?token=%s" % (self.member.token, self.member.token), self.member.port):
                    if name in ("change", "board"):
                        rows = value["rows"].items() if name == "change" else enumerate(value["rows"])
                        self.take([int(y) for y, row in rows if row.startswith("#####")])
            except (OSError, ValueError):
                pass
            time.sleep(0.2)

    def take(self, rows: List[int]) -> None:
        with self.changed:
            self.is_there = True
            for row in rows:
                self.rows.setdefault(row, time.monotonic())
            self.changed.notify_all()

    def is_told(self, row: Optional[int], until: float) -> float:
        """The moment at which a row had the line, or for None at which the page was there; infinite where that is not so until then."""
        with self.changed:
            self.changed.wait_for(lambda: self.is_there if row is None else row in self.rows, max(0, until - time.monotonic()))
            return time.monotonic() if row is None and self.is_there else self.rows.get(row or 0, float("inf"))


def check_line(facts: Facts, member: Process, drawops: int) -> None:
    """A line on a page of many drawops, in many browsers."""
    watchers = [Watcher(member) for _ in range(WATCHERS)]
    began = time.monotonic()
    there = max(watcher.is_told(None, began + LONGEST) for watcher in watchers) - began
    print("the page of %d drawops was in %d browsers after %.1f s" % (drawops, WATCHERS, there))
    facts.holds("the page is in %d browsers" % WATCHERS, there < LONGEST, there)
    time.sleep(2)
    taken: List[float] = []
    for row in range(91, 91 + ROUNDS):
        began = time.monotonic()
        member.draw(PAGE, "line 0 %d 5 %d #" % (row, row))
        taken.append(1000 * (max(watcher.is_told(row, began + PATIENCE) for watcher in watchers) - began))
        time.sleep(0.5)
    print("a line on a page of %d drawops was seen by %d browsers after %.0f ms, the median of %d; at best %.0f" % (
        drawops, WATCHERS, statistics.median(taken), ROUNDS, min(taken)))
    facts.holds("a line is seen by %d browsers" % WATCHERS, min(taken) < float("inf"), min(taken))
    if is_measured():
        facts.holds("within %d ms" % MOST_LATENCY, min(taken) < MOST_LATENCY, min(taken))


def test_joins(facts: Facts) -> None:
    is_slow = milliseconds_a_line() >= SLOW_FROM
    drawops = FEW_DRAWOPS if is_slow else DRAWOPS
    if is_slow:
        print("skipped: %d drawops are joined and not %d, since this program is a slow build" % (drawops, DRAWOPS))
    with tempfile.TemporaryDirectory() as folder:
        record = Path(folder) / "full.wb"
        write_board(record, 7, drawops)
        full = Process(["--ports", str(FIRST_PORT), "--record", str(record)])
        members = [full]
        try:
            facts("a record of %d drawops is there" % drawops, full.wait_for(lambda states: holds(states, drawops), LONGEST), True)
            members.append(check_join(facts, full, drawops))
            check_line(facts, full, drawops)
        finally:
            facts("both end with 0", [each.end() for each in members], [0] * len(members))
