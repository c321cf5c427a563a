"""How soon a drawing is seen elsewhere."""
from __future__ import annotations

import json
import os
import statistics
import time

from ..live.browser import all_came
from .sheets import Sheet, Tally

# rounds of the latency, and milliseconds that their median may not pass, on a machine that does nothing else
ROUNDS = 9
MOST_LATENCY = 50

# drawings of a large page, and milliseconds between two frames: 60 a second are 16.7
MANY = 5_000
FRAME = 1000 / 60
MOST_MEDIAN = 20.0

# a page of many drawings, as if the member had sent it
LARGE = """((count) => {
    let seed = 7;
    const draw = (most) => { seed = (seed * 1103515245 + 12345) % 2147483648; return seed % most; };
    const drawing = (seq) => {
        const [x, y, kind] = [draw(600), draw(300), draw(3)], own = { source: draw(9) + 1, seq, time: String(seq) };
        if (kind === 0) return { ...own, op: 'text', x, y, text: 'some text of a drawing' };
        return { ...own, op: kind === 1 ? 'line' : 'frame', x0: x, y0: y, x1: x + draw(60), y1: y + draw(30), glyph: '*#+-o'[draw(5)] };
    };
    const { board } = wb.session;
    wb.session.take('board', { ...board, hidden: [], drawops: Array.from({ length: count }, (_, i) => drawing(i + 1)) });
    wb.view.goTo(20, 120);
})"""

# turns of the wheel at each frame for two seconds, and the milliseconds between frames and of painting
TURNS = """(async (isZoom) => {
    const times = [], spent = [], paint = wb.painter.paint.bind(wb.painter), end = performance.now() + 2000;
    wb.painter.paint = (now) => { const began = performance.now(); paint(now); spent.push(performance.now() - began); };
    for (let n = 0; n < 9 || performance.now() < end; n += 1) {
        times.push(await new Promise(requestAnimationFrame));
        const turn = isZoom ? { deltaY: n % 32 < 16 ? -1 : 1, ctrlKey: true } : { deltaY: n % 120 < 60 ? 60 : -60, deltaX: n % 200 < 100 ? 25 : -25 };
        wb.view.sheet.dispatchEvent(new WheelEvent('wheel', { ...turn, clientX: 500, clientY: 400, bubbles: true, cancelable: true }));
    }
    delete wb.painter.paint;
    return [times.slice(1).map((time, i) => time - times[i]), spent];
})"""


def part(values: list[float], share: float) -> float:
    """The value below which a share of them is."""
    return sorted(values)[int(share * (len(values) - 1))]


def is_measured() -> bool:
    """Whether times are judged by the measure of a machine that does nothing else: where WB_MEASURE is set."""
    return bool(os.environ.get("WB_MEASURE"))


def busy(one: Sheet) -> float:
    """The milliseconds of a processor that the page's thread has had: other work of the machine does not count."""
    metrics = {each["name"]: each["value"] for each in one.page.call("Performance.getMetrics")["metrics"]}
    return 1000 * float(metrics["TaskDuration"])


def measure_frames(tally: Tally, one: Sheet, other: Sheet) -> None:
    """A large page is scrolled and becomes larger and smaller; the frames of the browser are counted."""
    one.resize(1600, 900)
    one.page.value(f"{LARGE}({MANY})")
    one.page.call("Performance.enable", timeDomain="threadTicks")
    for name, is_zoom in (("scrolled", False), ("made larger and smaller", True)):
        began = busy(one)
        between, spent = one.page.value(f"{TURNS}({json.dumps(is_zoom)})")
        cost = (busy(one) - began) / len(spent)
        tally.check(f"frames are painted while a large page is {name}", len(spent) > 1, str(len(spent)))
        print(f"a page of {MANY:,} drawings {name}: {1000 / part(between, 0.5):.0f} frames a second in the median, {part(between, 0.95):.0f} ms at most in 95 of 100; "
              f"a frame takes {cost:.1f} ms of the page's thread, with a load of {os.getloadavg()[0]:.1f} on {os.cpu_count()} processors")
        if is_measured():
            tally.check(f"a large page is {name} at 60 frames a second", cost < FRAME and part(between, 0.5) < MOST_MEDIAN, f"{cost:.1f} ms")
        else:
            print("skipped: whether that is 60 frames a second, which is judged where WB_MEASURE is set")
    page = one.page.value("wb.session.board.page")
    one.page.value("wb.session.goToPage(null); 0")
    one.page.until(f"wb.session.board.page !== {json.dumps(page)}")
    one.resize(1280, 800)


def measure(tally: Tally, one: Sheet, other: Sheet) -> None:
    """Milliseconds from the release of the mouse in one window to the end of the frame that paints it in the other."""
    one.page.value("wb.hand.setGlyph('#'); 0")
    one.keys("l")
    one.page.value("addEventListener('pointerup', () => { window.released = Date.now(); }, true); 0")
    taken = []
    for row in range(20, 20 + ROUNDS):
        other.page.value(f"""window.seen = new Promise((take) => {{
            const watch = new MutationObserver(() => {{
                if (!(wb.session.board.rows[{row}] ?? '').includes('####')) return;
                watch.disconnect();
                setTimeout(() => take(Date.now()));
            }});
            watch.observe(document.getElementById('text'), {{ childList: true }});
        }}); 0""")
        # as long as a hand rests at least
        time.sleep(0.3)
        one.drag((50, row), (60, row))
        taken.append(int(other.page.value("window.seen")) - int(one.page.value("window.released")))
    print(f"from the mouse's release to the paint in the other window: {statistics.median(taken):.0f} ms, the median of {ROUNDS}; "
          f"the greatest {max(taken)} ms, with a load of {os.getloadavg()[0]:.1f} on {os.cpu_count()} processors")
    tally.check("each line is shown", all_came(other.shows(50, row, "#" * 11) for row in range(20, 20 + ROUNDS)))
    if is_measured():
        tally.check(f"within {MOST_LATENCY} ms", statistics.median(taken) < MOST_LATENCY, str(taken))
