"""Sessions of many members, over a network that loses, doubles and mixes: all come to show the same."""
from __future__ import annotations

import random
import tempfile
import threading
import time
from pathlib import Path
from functools import partial
from typing import Any, Dict, List

from ..facts import Facts
from .members import LONGEST, SLOW_FROM, Process, answers, is_refused, milliseconds_a_line

PAGES = ["1/1", "2/1"]
DRAWOPS = 50
SPEED = 10

# of eight members, where the program is a slow build
FEW_DRAWOPS = 12


def operation(chance: random.Random, drawn: List[int], me: int) -> str:
    """Any operation; one in eight deletes or restores one of the member's own."""
    x, y, w, h = chance.randrange(60), chance.randrange(24), chance.randrange(20), chance.randrange(8)
    kind = chance.randrange(8)
    if kind == 0 and drawn:
        return "%s %d %d" % (chance.choice(["delete", "restore"]), me, chance.choice(drawn))
    if kind < 3:
        return 'text %d %d "member %d"' % (x, y, me)
    return "%s %d %d %d %d %s" % ("line" if kind < 6 else "frame", x, y, x + w, y + h, chr(33 + (me * 7 + kind) % 90))


def draw_all(member: Process, count: int, faults: List[str]) -> None:
    """A member draws drawops on each page, one after another."""
    chance = random.Random(member.me)
    drawn: Dict[str, List[int]] = {page: [] for page in PAGES}
    for turn in range(count * len(PAGES)):
        page = PAGES[turn % len(PAGES)]
        status, answer = member.draw(page, operation(chance, drawn[page], member.me))
        if is_refused(status, answer):
            faults.append("%d: %s" % (status, answer))
        elif status == 200 and answer["words"].split(" ")[5] in ("line", "frame", "text"):
            drawn[page].append(answer["seq"])


def draw_together(members: List[Process], count: int) -> List[str]:
    """All draw at the same time. What was refused."""
    faults: List[str] = []
    threads = [threading.Thread(target=draw_all, args=(member, count, faults)) for member in members]
    for thread in threads:
        thread.start()
    for thread in threads:
        thread.join()
    return faults


def is_whole(member: Process, drawops: int) -> bool:
    """It holds this many drawops on both pages, and misses none."""
    held = {page["page"]: page["drawn"] for page in member.states["pages"]["pages"]}
    return all(held.get(page) == drawops for page in PAGES)


class Session:
    """So many members on ports of their own, with records in a folder."""

    def __init__(self, first_port: int, folder: str) -> None:
        self.first_port = first_port
        self.folder = Path(folder)
        self.members: List[Process] = []

    def start(self, count: int) -> List[Process]:
        started = [self.start_one(len(self.members) + index + 1) for index in range(count)]
        self.members += started
        return started

    def start_one(self, me: int) -> Process:
        words = ["--ports", str(self.first_port), "--me", str(me), "--record", str(self.folder / ("%d.wb" % me))]
        return Process(words + ["--lose", "0.3334", "--twice", "0.1", "--mix", "--speed", str(SPEED), "--cells", "4096"])

    def restart(self, index: int) -> None:
        """A crash, and then a start from the record."""
        self.members[index].kill()
        self.members[index] = self.start_one(index + 1)

    def wait_until_whole(self, drawops: int, seconds: float) -> bool:
        end = time.monotonic() + seconds

        def whole(member: Process, _: Dict[str, Any]) -> bool:
            return is_whole(member, drawops)

        return all(
            member.wait_for(partial(whole, member), max(0.1, end - time.monotonic()))
            for member in self.members
        )

    def answers(self) -> List[str]:
        """What each host, given its record, answers of canvases, greatest numbers and gaps."""
        questions = [line for page in PAGES for line in questions_of(page)]
        return [strip_due(answers(str(self.folder / ("%d.wb" % member.me)), questions)) for member in self.members]

    def end(self) -> List[int]:
        return [member.end() for member in self.members]


def questions_of(page: str) -> List[str]:
    words = page.replace("/", " ")
    return ["show %s 100 40" % words, "report %s" % words, "gaps %s" % words]


def strip_due(text: str) -> str:
    return "\n".join("ok" if line.startswith("ok ") else line for line in text.split("\n"))


def hold(facts: Facts, count: int, drawops: int, first_port: int) -> None:
    """One session: one member joins late, one is killed and starts again from its record."""
    name = "%d members" % count
    with tempfile.TemporaryDirectory() as folder:
        session = Session(first_port, folder)
        early = session.start(count - 1)
        faults = draw_together(early, drawops // 2)
        late = session.start(1)
        session.restart(0)
        faults += draw_together(session.members[:-1], drawops // 2)
        faults += draw_together(late, drawops)
        began = time.monotonic()
        facts(name + " draw, and nothing is refused", faults, [])
        facts(name + " hold all drawops", session.wait_until_whole(count * drawops, LONGEST), True)
        quiet = (time.monotonic() - began) * SPEED
        rows = {page: [member.rows(page) for member in session.members] for page in PAGES}
        for page in PAGES:
            facts("%s show the same page %s" % (name, page), all(each == rows[page][0] for each in rows[page]), True)
        tell_counts(session, name, quiet)
        facts(name + " end with 0", session.end(), [0] * count)
        told = session.answers()
        facts(name + ": the hosts of the records answer alike", all(each == told[0] for each in told), True)
        facts(name + ": no gaps are left", told[0].count("\ngaps 0\n"), len(PAGES))
        facts(name + ": all sources are reported", told[0].count("\nreport %d\n" % count), len(PAGES))


def tell_counts(session: Session, name: str, quiet: float) -> None:
    """Prints what the losses cost."""
    counts = [member.counts() for member in session.members]
    sums = {key: sum(count[key] for count in counts) for key in counts[0]}
    lost = max(1, sums["lost"])
    print(
        "%s: %d datagrams came, %d of them lost on purpose; for each loss %.2f requests and %.2f repairs were sent; quiet %.1f s after the last drawing"
        % (name, sums["in"], sums["lost"], sums["requests"] / lost, sums["repairs"] / lost, quiet)
    )


def test_three_members(facts: Facts) -> None:
    hold(facts, 3, DRAWOPS, 26_000)


def test_eight_members(facts: Facts) -> None:
    is_slow = milliseconds_a_line() >= SLOW_FROM
    if is_slow:
        print("each draws %d drawops on a page, not %d, since this program is a slow build" % (FEW_DRAWOPS, DRAWOPS))
    hold(facts, 8, FEW_DRAWOPS if is_slow else DRAWOPS, 26_040)
