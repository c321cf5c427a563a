"""Figures of the page, with members and a browser as people have them:

    python3 -m tests.ui.figures ink [PART ..]    all of ink, or of its parts hands, seen, cost, pages and floods some
    python3 -m tests.ui.figures lesson [TIMES]   a lesson in two windows that lose a third, ten times or as often as the word says

WB_PICTURES=FOLDER keeps a picture of each full page.
"""
from __future__ import annotations

import json
import os
import re
import shutil
import statistics
import subprocess
import sys
import tempfile
import time
from collections.abc import Iterator
from contextlib import contextmanager
from pathlib import Path

from ..facts import Facts
from ..live.browser import Browser, find_chromium
from ..live.members import program
from . import floods, hands, lesson, paintings
from .inks import at, clean, draw, is_settled, lift, wave
from .measures import is_measured
from .paintings import MORE_ROUNDS, least_and_median
from .sheets import BY_CELLS, Member, Sheet, Tally

PORTS = 26_064
WIDTH, HEIGHT = 1600, 900
TIMES = 10

# of what a member takes of a processor: rounds, and drawops of each
DRAWN, ROUNDS = 40, 5

# in the other window: remembers when an expression came to be true, after the frame in which it did
WATCH = """((isSo) => {
    window.seen = null;
    const look = () => { if (isSo()) setTimeout(() => { window.seen = Date.now(); }); else requestAnimationFrame(look); };
    look();
})"""


@contextmanager
def windows(browser: Browser, room: Path) -> Iterator[tuple[list[Member], Sheet, Sheet]]:
    """Two members, and the window of each, on one page and as ink."""
    members: list[Member] = []
    try:
        members += [Member(room, PORTS, words=["--ports", str(PORTS)]) for _ in range(2)]
        one, other = (Sheet(browser.open(member.address, WIDTH, HEIGHT, first=BY_CELLS)) for member in members)
        for sheet in (one, other):
            sheet.page.until("wb.session.hello.ready && wb.session.board.page && document.querySelectorAll('#members li').length === 2")
            sheet.fold()
        clean(one, other)
        yield members, one, other
    finally:
        for member in members:
            member.end()


# ---- what a hand draws


def tell_hands(one: Sheet, other: Sheet) -> None:
    one.resize(hands.WIDTH, hands.HEIGHT)
    print("\nDrawops for the strokes of a hand, at 100 percent:")
    for name, strokes in hands.HANDS.items():
        clean(one, other)
        print(hands.told(name, strokes, hands.drawops_of(one, strokes)), flush=True)
    one.resize(WIDTH, HEIGHT)
    node = shutil.which("node") or shutil.which("nodejs")
    if not node:
        print("there is no node here (apt-get install nodejs), so how near ink is to its hand, and what fitting takes, are left out")
        return
    far, took = json.loads(subprocess.run([node, str(Path(__file__).parent / "fitting.mjs")], stdout=subprocess.PIPE, text=True, check=True).stdout)
    print(f"a hand of 240 points: its ink is {far:.2f} points of the screen away at most; fitting takes {least_and_median(took, 3)} a point")


# ---- full pages


def tell_pages(one: Sheet, other: Sheet) -> None:
    folder = os.environ.get("WB_PICTURES")
    one.page.call("Performance.enable", timeDomain="threadTicks")
    one.page.value(paintings.KIT)
    for name, page in paintings.FULL.items():
        clean(one, other)
        # what is shown is not on the board: with this the page is not taken for an empty one afterwards
        one.page.value("wb.session.send('line 0 0 1 0 *').then(({ ok }) => ok)")
        one.page.until("wb.session.board.drawops.length === 1 && !wb.session.waiting.size")
        took, longest = paintings.shown(one, page)
        print(f"\n{name}: painted after {least_and_median(took)}, with {longest:.0f} ms at most without a pause", flush=True)
        if folder:
            one.page.picture(Path(folder) / f"ink-{re.sub('[^a-z0-9]+', '-', name)}.png")
        for kind in ("moved", "zoomed", "drawn"):
            print(f"  {kind}: {paintings.frames_of(one, kind)}", flush=True)
            one.page.value("wb.view.fit(); wb.view.home(); figures.rest().then(() => 0)")
        print(f"  one stroke more is taken in {least_and_median([float(one.page.value('figures.add(true)')) for _ in range(MORE_ROUNDS)], 1)}")
        print(f"  one frame below all others is taken in {one.page.value('figures.add(false)'):.1f} ms; moved then: {paintings.frames_of(one, 'moved', 1)}")
        print(f"  {one.page.value('wb.ink.items.filter(({ kind }) => kind.length === 1).length'):,} items read as ink", flush=True)


# ---- how soon others see it


def seen_after(one: Sheet, other: Sheet, event: str) -> float:
    """Milliseconds from the first such event in one window to what the other watches for."""
    other.page.until("window.seen")
    return float(int(other.page.value("window.seen")) - int(one.page.value(f"window.times.{event}")))


def tell_latency(one: Sheet, other: Sheet) -> None:
    clean(one, other)
    one.page.value("window.times = {}; for (const event of ['pointerup', 'pointermove']) addEventListener(event, () => { window.times[event] ??= Date.now(); }, true); 0")
    lines, strokes = [], []
    for turn in range(MORE_ROUNDS):
        one.keys("l")
        other.page.value(f"{WATCH}(() => wb.ink.items.length > {turn} && !wb.painter.isPlanned)")
        time.sleep(0.3)
        one.page.value("window.times = {}; 0")
        draw(one, at(one, (300, 200 + 20 * turn), (400, 210 + 20 * turn), (700, 220 + 20 * turn)))
        lines.append(seen_after(one, other, "pointerup"))
        is_settled(one, turn + 1)
    clean(one, other)
    one.keys("p")
    for turn in range(MORE_ROUNDS):
        way = at(one, *wave(60, 200 + 40 * turn, 300, 40))
        other.page.until("!wb.others.heard.some(({ beside }) => beside.shapes.length)")
        other.page.value(f"{WATCH}(() => wb.others.heard.some(({{ beside }}) => beside.shapes.length) && !wb.painter.isPlanned)")
        time.sleep(0.3)
        one.page.value("window.times = {}; 0")
        one.page.press(*way[0])
        one.page.value("window.times = {}; 0")
        one.page.go(way[1:])
        strokes.append(seen_after(one, other, "pointermove"))
        lift(one, way[-1])
        one.page.value("wb.pen.flush(); 0")
        is_settled(one, turn + 1)
    print(f"\nfrom the mouse's release to the paint of a line of ink in the other window: {least_and_median(lines)}, {max(lines):.0f} at most")
    print(f"from the first move of a pen to the paint of what it has begun in the other window: {least_and_median(strokes)}, {max(strokes):.0f} at most")


# ---- what a member takes of a processor


def children_of(process: int) -> list[int]:
    found = subprocess.run(["ps", "-o", "pid=", "--ppid", str(process)], stdout=subprocess.PIPE, text=True, check=False).stdout
    return [int(line) for line in found.split()]


def processor(process: int) -> float:
    """Milliseconds that a process has had so far."""
    fields = Path(f"/proc/{process}/stat").read_text().rsplit(")", 1)[1].split()
    return 1000 * (int(fields[11]) + int(fields[12])) / os.sysconf("SC_CLK_TCK")


def tell_cost(members: list[Member], one: Sheet, other: Sheet) -> None:
    """Forty drawops, a request of the page for each: what the member that draws and the one that hears take."""
    print(f"\n{DRAWN} drawops of ink, a request of the page for each: milliseconds of processor, the least and (the median) of {ROUNDS} rounds")
    text = json.dumps('text 0 4000 "~s-1!hV#HJTJkis,r,"')
    taken: dict[str, list[float]] = {}
    for _ in range(ROUNDS):
        clean(one, other)
        before = costs_of(members)
        one.page.value(f"(async () => {{ for (let n = 0; n < {DRAWN}; n += 1) await wb.session.send({text}); return 0; }})()")
        for sheet in (one, other):
            sheet.page.until(f"wb.session.board.drawops.length === {DRAWN} && !wb.session.waiting.size")
        time.sleep(1.0)
        for name, cost in costs_of(members).items():
            taken.setdefault(name, []).append(cost - before[name])
    for name, values in taken.items():
        print(f"  {name}: {least_and_median(values)}", flush=True)


def costs_of(members: list[Member]) -> dict[str, float]:
    costs = {}
    for name, member in zip(("the member that draws", "the one that hears"), members):
        costs[name] = processor(member.process.pid)
        costs[f"the processes below {name}"] = sum(processor(child) for child in children_of(member.process.pid))
    return costs


# ---- all of it


def tell_floods(one: Sheet, other: Sheet) -> int:
    facts = Facts()
    print("\nFloods, in both looks:", flush=True)
    floods.test_floods(Tally(facts), one, other)
    return facts.status()


PARTS = ("hands", "seen", "cost", "pages", "floods")


def tell_ink(browser: Browser, room: Path, parts: list[str]) -> int:
    status = 0
    with windows(browser, room) as (members, one, other):
        if "hands" in parts:
            tell_hands(one, other)
        if "seen" in parts:
            tell_latency(one, other)
        if "cost" in parts:
            tell_cost(members, one, other)
        if "pages" in parts:
            tell_pages(one, other)
        if "floods" in parts:
            status = tell_floods(one, other)
    print(*browser.faults, sep="\n")
    return status or bool(browser.faults)


def tell_lessons(browser: Browser, room: Path, times: int) -> int:
    lessons = []
    for turn in range(times):
        (room / str(turn)).mkdir()
        with lesson.two_windows(browser, room / str(turn), PORTS + 32 * turn) as (one, other):
            lessons.append(lesson.give_lesson(one, other))
            for sheet in (one, other):
                sheet.page.close()
        print(lessons[-1], flush=True)
    took = sorted(each.equal for each in lessons if each.equal is not None)
    within = sum(each <= lesson.SOON for each in took)
    print(f"one picture after {', '.join(f'{each:.1f}' for each in took)} s: {statistics.median(took):.1f} s in the median, {within} of {times} within {lesson.SOON:.0f} s")
    return 0 if len(took) == times and (within == times or not is_measured()) else 1


def main(words: list[str]) -> int:
    found = find_chromium()
    if not found or words[:1] not in (["ink"], ["lesson"]):
        print(__doc__ if found else "there is no chromium here (apt-get install chromium)", file=sys.stderr)
        return 2
    print(f"{program()}, with a load of {os.getloadavg()[0]:.1f} on {os.cpu_count()} processors", flush=True)
    with tempfile.TemporaryDirectory() as room, Browser(found) as browser:
        if words[0] == "lesson":
            return tell_lessons(browser, Path(room), int(words[1]) if words[1:] else TIMES)
        return tell_ink(browser, Path(room), words[1:] or list(PARTS))


if __name__ == "__main__":
    sys.exit(main(sys.argv[1:]))
