"""What goes between a window and its program: few bytes when it is opened again, and few requests for many drawings."""

from __future__ import annotations

import json
import os
import time
from contextlib import closing
from pathlib import Path

from ..live.browser import Browser
from .inks import at
from .measures import is_measured
from .sheets import BY_CELLS, Member, Sheet, Tally

# bytes of a second opening, but for what was drawn; strokes that are moved, requests for that, and seconds
FEW_BYTES = 10_000
STROKES, FEW_REQUESTS, SOON = 300, 16, 2.0

# milliseconds from a window to the program and back
DELAY = 50

# of a slow line: milliseconds to the program and back, and bytes a second; and seconds until the page takes a stroke
FAR, RATE, FIRST = 60, 5_000_000 / 8, 1.5

# when the page takes a stroke, and when one was drawn, in milliseconds since it was asked for
MOMENTS = """{
    const look = setInterval(() => {
        if (typeof wb === 'undefined' || !wb.session.board.page || !wb.session.hello.ready) return;
        window.taken = performance.now();
        clearInterval(look);
        addEventListener('pointerup', () => requestAnimationFrame(() => { window.drawn ??= performance.now(); }));
    }, 5);
}"""

SIZE = "performance.getEntriesByType('navigation').concat(performance.getEntriesByType('resource')).reduce((sum, { transferSize }) => sum + transferSize, 0)"
IS_OPEN = "typeof wb !== 'undefined' && wb.session.hello.ready && wb.session.board.page"
IS_DONE = "!wb.session.member.queue.length && !wb.session.waiting.size && !wb.ink.waiting.length"


def test_opening(tally: Tally, browser: Browser, tmp_path: Path) -> None:
    """The page is read packed, and the second time hardly at all, also after a restart of the program."""
    member = Member(tmp_path, 0, "127.0.0.1:0", ["--record", str(tmp_path / "a.record")])
    port = member.address.split(":")[2].split("/")[0]
    try:
        sizes = []
        for opening in range(3):
            if opening == 2:
                member.end()
                member = Member(tmp_path, 0, f"127.0.0.1:{port}", ["--record", str(tmp_path / "a.record")])
            page = browser.open(member.address, first=BY_CELLS)
            page.until(IS_OPEN)
            sizes.append(int(page.value(SIZE)))
            page.close()
        tally.check("the first time it is packed", 30_000 < sizes[0] < 225_000, str(sizes))
        tally.check("the second time it is here", sizes[1] < FEW_BYTES, str(sizes))
        tally.check("also after a restart", sizes[2] < FEW_BYTES, str(sizes))
        print(f"bytes of three openings, the last after a restart: {sizes}")
    finally:
        member.end()


def move_many(tally: Tally, sheet: Sheet) -> None:
    sheet.page.until(IS_OPEN)
    sheet.look("ink")
    sheet.page.value("wb.view.fit(); wb.view.home(); wb.view.goTo(0, 0); 0")
    strokes = [[[20 + 30 * (n % 30), 40 + 24 * (n // 30)], [32 + 30 * (n % 30), 50 + 24 * (n // 30)], [40 + 30 * (n % 30), 38 + 24 * (n // 30)]] for n in range(STROKES)]
    sheet.page.value(f"""(() => {{
        const step = wb.steps.begin(), units = ([x, y]) => wb.view.pointAt({{ clientX: 100 + x, clientY: 120 + y }});
        wb.pen.rests = 100000;
        for (const [first, ...others] of {json.dumps(strokes)}) {{
            wb.pen.begin({{ kind: 's', colour: 1, width: 2 }}, units(first));
            wb.pen.move(others.map(units));
            wb.pen.end();
            wb.pen.flush();
        }}
        wb.pen.rests = 700;
    }})()""")
    sheet.page.until(f"{IS_DONE} && wb.ink.items.length === {STROKES}")
    if is_measured():
        sheet.page.call("Network.enable")
        sheet.page.call("Network.emulateNetworkConditions", offline=False, latency=DELAY, downloadThroughput=-1, uploadThroughput=-1)
    sheet.page.value("""window.requests = 0; window.fetch = ((send) => (...words) => { window.requests += String(words[0]).endsWith('draw'); return send(...words); })(window.fetch); 0""")
    sheet.keys("v")
    sheet.page.value("wb.hand.selectAll(); 0")
    (x, y), (to_x, to_y) = at(sheet, (126, 168), (156, 188))
    sheet.page.press(x, y)
    for part in (0.3, 0.7, 1.0):
        sheet.page.mouse("mouseMoved", x + part * (to_x - x), y + part * (to_y - y))
    began = time.monotonic()
    sheet.page.mouse("mouseReleased", to_x, to_y)
    sheet.page.until(f"wb.session.erased.size >= {STROKES} && {IS_DONE}")
    seconds, requests = time.monotonic() - began, int(sheet.page.value("window.requests"))
    told = f"{STROKES} strokes were moved in {seconds:.2f} s by {requests} requests{f', each {DELAY} ms away' if is_measured() else ''}, with a load of {os.getloadavg()[0]:.1f}"
    print(told)
    tally.check("they are there", sheet.page.value("wb.ink.items.length") == STROKES, told)
    tally.check("by few requests", requests <= FEW_REQUESTS, told)
    if is_measured():
        tally.check("soon", seconds < SOON, told)
    tally.check("no fault in a page, and none of its policy", not sheet.page.browser.faults, "; ".join(sheet.page.browser.faults))


def test_many(tally: Tally, browser: Browser, tmp_path: Path) -> None:
    """Many strokes are moved by a few requests."""
    member = Member(tmp_path, 0, "127.0.0.1:0", ["--record", str(tmp_path / "a.record")])
    try:
        # a page whose program has ended looks for it, and the browser tells that as a fault
        with closing(browser.open(member.address, 1400, 900, first=BY_CELLS)) as page:
            move_many(tally, Sheet(page))
    finally:
        member.end()


def test_first(tally: Tally, browser: Browser, tmp_path: Path) -> None:
    """The page takes a stroke with nothing of it in the browser; where times are judged, soon, and over a slow line: a browser that makes its line slow
    asks for nothing at all on a machine that is busy."""
    member = Member(tmp_path, 0, "127.0.0.1:0", ["--record", str(tmp_path / "a.record")])
    try:
        for _ in range(3):
            page = browser.open("data:text/html,-", 1280, 800, first=f"if (location.protocol === 'http:') {{ {BY_CELLS} {MOMENTS} }}", is_apart=True)
            if is_measured():
                page.call("Network.enable")
                page.call("Network.emulateNetworkConditions", offline=False, latency=FAR, downloadThroughput=RATE, uploadThroughput=RATE)
            page.call("Page.navigate", url=member.address)
            page.until("window.taken")
            page.drag((400, 300), (500, 360))
            page.until("window.drawn && wb.session.shown.size > 0")
            taken, drawn = (float(page.value(f"window.{name}")) / 1000 for name in ("taken", "drawn"))
            far = f"{FAR} ms away at 5 Mbit/s" if is_measured() else "of this machine"
            told = f"a page {far} takes a stroke after {taken:.2f} s, and had one after {drawn:.2f} s, with a load of {os.getloadavg()[0]:.1f}"
            print(told)
            tally.check("it is drawn, and without a fault", not browser.faults, "; ".join(browser.faults))
            if is_measured():
                tally.check("soon", taken < FIRST, told)
            page.close()
    finally:
        member.end()
