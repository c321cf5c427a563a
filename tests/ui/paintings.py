"""Full pages as ink, for figures: how soon they are painted, how many frames a second there are while the view moves, and what one drawing more costs."""
from __future__ import annotations

import json
import os
import statistics
from typing import NamedTuple

from .inks import clean
from .measures import FRAME, MANY, MOST_MEDIAN, busy, is_measured, part
from .sheets import Sheet, Tally
from .tools import on_a_new_page

# rounds of each figure; of a drawing that comes, and of what the other window shows, more
ROUNDS, MORE_ROUNDS = 3, 9

# what makes pages, shows them and moves them, in the page. Strokes have 27 points and all are in view at 100 percent.
KIT = """window.figures = (() => {
    const SIGNS = Array.from({ length: 94 }, (_, i) => String.fromCharCode(33 + i)).filter((sign) => sign !== '"' && sign !== '\\\\');
    const three = (n) => SIGNS[Math.floor(n / 8464)] + SIGNS[Math.floor(n / 92) % 92] + SIGNS[n % 92];
    let seed = 7;
    const draw = (most) => { seed = (seed * 1103515245 + 12345) % 2147483648; return seed % most; };
    const placed = (text, i) => ({ op: 'text', x: 64 * (i % 64), y: 4000 + (i >> 6) % 96, text });
    const many = (count, make) => Array.from({ length: count }, (_, i) => make(i));
    const stroke = () => {
        let turn = draw(628) / 100;
        const steps = many(26, () => { turn += (draw(100) - 50) / 70; return SIGNS[45 + Math.round(12 * Math.cos(turn))] + SIGNS[45 + Math.round(12 * Math.sin(turn))]; });
        return '~s' + SIGNS[9 * draw(9) + draw(5)] + '1' + three(700 + draw(8900)) + three(700 + draw(5300)) + steps.join('');
    };
    // of any kind and flag, of which few read; and the greatest steps, up and down across the view
    const wild = () => '~' + 'shvlrodntk'[draw(10)] + SIGNS[draw(90)] + '01234567abcdefgh'[draw(16)] + three(draw(9000)) + three(draw(6000)) + many(draw(55), () => SIGNS[draw(92)]).join('');
    const steep = () => '~s' + SIGNS[draw(90)] + '7' + three(200 + draw(3000)) + three(12900 + draw(300)) + '}!!}'.repeat(13);
    const frame = () => new Promise(requestAnimationFrame), timed = (act) => { const began = performance.now(); act(); return performance.now() - began; };
    const isDone = () => !wb.painter.isPlanned && !wb.ink.waiting.length;
    // the moment from which on nothing is left to paint
    const rest = async () => {
        let at = performance.now();
        for (let quiet = 0; quiet < 5;) { await frame(); quiet = isDone() ? quiet + 1 : 0; if (!quiet) at = performance.now(); }
        return at;
    };
    const board = (drawops) => wb.session.take('board', { page: wb.session.board.page, drawops, hidden: [], rows: [] });
    const wheel = (turn) => wb.view.sheet.dispatchEvent(new WheelEvent('wheel', { ...turn, clientX: 700, clientY: 450, bubbles: true, cancelable: true }));
    const MOVES = {
        moved: (n) => wheel({ deltaX: n % 50 < 25 ? 8 : -8, deltaY: n % 40 < 20 ? 12 : -12 }),
        zoomed: (n) => wheel({ deltaY: n % 32 < 16 ? -1 : 1, ctrlKey: true }),
        drawn: (n) => {
            if (n % 60 === 0) wb.pen.begin({ kind: 's', colour: 1, width: 2 }, { x: 3000, y: 1000 + 40 * (n % 7) });
            wb.pen.move(many(4, (i) => ({ x: 3000 + 60 * (n % 60) + 15 * i, y: 2500 + 1500 * Math.sin((4 * n + i) / 40) })));
            wb.painter.soon();
            if (n % 60 === 59) wb.pen.cancel();
        },
    };
    let last = 1;
    return {
        rest,
        strokes: (count) => many(count, (i) => placed(stroke(), i)),
        frames: (count) => many(count, (i) => ({ op: 'frame', x0: i % 7, y0: i % 5, x1: 4095 - i % 3, y1: 4095, glyph: '*' })),
        hostile: (count) => many(count, (i) => placed(i % 3 ? wild() : steep(), i)),
        // milliseconds until all is painted, and of the longest time without a pause
        show: async (shapes) => {
            const drawops = shapes.map((shape, i) => ({ ...shape, source: 7, seq: i + 2, time: String(1000 + i) })), spent = [], paint = wb.painter.paint.bind(wb.painter);
            last = shapes.length + 1;
            board([]);
            await rest();
            wb.painter.paint = (now) => spent.push(timed(() => paint(now)));
            const began = performance.now();
            spent.push(timed(() => board(drawops)));
            const took = await rest() - began;
            delete wb.painter.paint;
            return [took, Math.max(...spent)];
        },
        // milliseconds in which one stroke more is taken, the last or the first of all
        add: async (isLast) => {
            const seq = isLast ? last += 1 : 1, shape = isLast ? placed(stroke(), seq) : { op: 'frame', x0: 0, y0: 0, x1: 4095, y1: 4095, glyph: '#' };
            const taken = timed(() => wb.session.take('change', { names: [], added: [[isLast ? wb.session.board.drawops.length : 0, { ...shape, source: 7, seq, time: String(998 + seq) }]],
                hidden: [], rows: {}, height: 0 }));
            if (isLast) await rest();
            return taken;
        },
        // milliseconds from frame to frame for two seconds, and of each painting
        turn: async (kind) => {
            const times = [], spent = [], paint = wb.painter.paint.bind(wb.painter), end = performance.now() + 2000;
            wb.painter.paint = (now) => spent.push(timed(() => paint(now)));
            for (let n = 0; n < 9 || performance.now() < end; n += 1) { times.push(await frame()); MOVES[kind](n); }
            delete wb.painter.paint;
            if (kind === 'drawn') { wb.pen.cancel(); wb.pen.drop(); }
            return [times.slice(1).map((time, i) => time - times[i]), spent];
        },
    };
})(); 0"""

# pages by their descriptions, and how each is made
FULL = {
    "5,000 strokes of 27 points": "figures.strokes(5000)",
    "5,000 strokes, and 1,500 frames as wide as the page": "[...figures.strokes(5000), ...figures.frames(1500)]",
    "60,000 strokes of 27 points": "figures.strokes(60000)",
    "3,300 hostile inks": "figures.hostile(3300)",
}


class Frames(NamedTuple):
    """Of some rounds: milliseconds from frame to frame in the median, in 95 of 100, and at most; of the longest painting; and of the page's thread
    a frame, the least round and the median."""

    median: float
    most95: float
    most: float
    longest: float
    least_cost: float
    cost: float

    def __str__(self) -> str:
        return (f"{1000 / self.median:.0f} frames a second in the median, {self.most95:.0f} ms at most in 95 of 100, {self.most:.0f} ms at most; "
                f"painting takes {self.longest:.0f} ms at most, and a frame {self.least_cost:.1f} ms of the page's thread ({self.cost:.1f})")


def frames_of(sheet: Sheet, kind: str, rounds: int = ROUNDS) -> Frames:
    """The view is moved or zoomed, or the pen goes, for two seconds a round."""
    between: list[float] = []
    longest, costs = 0.0, []
    for _ in range(rounds):
        began = busy(sheet)
        times, spent = sheet.page.value(f"figures.turn({json.dumps(kind)})")
        costs.append((busy(sheet) - began) / len(times))
        between += times
        longest = max([longest, *spent])
    return Frames(part(between, 0.5), part(between, 0.95), max(between), longest, min(costs), statistics.median(costs))


def least_and_median(values: list[float], digits: int = 0) -> str:
    return f"{min(values):.{digits}f} ms ({statistics.median(values):.{digits}f})"


def shown(sheet: Sheet, page: str, rounds: int = ROUNDS) -> tuple[list[float], float]:
    """Milliseconds until a page is painted, in some rounds, and the longest without a pause."""
    found = [sheet.page.value(f"figures.show({page})") for _ in range(rounds)]
    return [took for took, _ in found], max(longest for _, longest in found)


def measure_strokes(tally: Tally, one: Sheet, other: Sheet) -> None:
    """Strokes in view are moved, and made larger and smaller, and the pen goes over them; the frames of the browser are counted."""
    one.resize(1600, 900)
    clean(one, other)
    # what is shown is not on the board: with this the page is not taken for an empty one afterwards
    one.page.value("wb.session.send('line 0 0 1 0 *').then(({ ok }) => ok)")
    one.page.until("wb.session.board.drawops.length === 1 && !wb.session.waiting.size")
    one.page.value(KIT)
    one.page.call("Performance.enable", timeDomain="threadTicks")
    one.page.value(f"figures.show(figures.strokes({MANY}))")
    tally.check("each stroke is an item", one.page.value("wb.ink.items.length") == MANY, str(one.page.value("wb.ink.items.length")))
    for kind in ("moved", "zoomed", "drawn"):
        frames = frames_of(one, kind, 1)
        print(f"{MANY:,} strokes of ink in view, {kind}: {frames}; with a load of {os.getloadavg()[0]:.1f} on {os.cpu_count()} processors")
        if is_measured():
            tally.check(f"strokes are {kind} at 60 frames a second", frames.cost < FRAME and frames.median < MOST_MEDIAN, str(frames))
        one.page.value("wb.view.fit(); wb.view.home(); figures.rest().then(() => 0)")
    if not is_measured():
        print("skipped: whether that is 60 frames a second, which is judged where WB_MEASURE is set")
    one.look("cells")
    on_a_new_page(one, other)
    one.resize(1280, 800)
