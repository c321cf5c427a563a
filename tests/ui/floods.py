"""Pages that somebody filled on purpose: no frame is held up, and painting ends."""
from __future__ import annotations

import json
import os

from .measures import busy, is_measured
from .sheets import Sheet, Tally
from .tools import has, on_a_new_page

# seconds after which painting has ended, however busy the machine is
ENDS = 600

# milliseconds that the page may take of its thread without a pause, on a machine that does nothing else
MOST_FRAME = 100

# a page of these drawings, as if the member told it: frames as wide as the page; inks at random; the greatest steps; dashes; and letters that break
FLOODS = {
    "1,500 frames as wide as the page": """Array.from({ length: 1500 }, (_, i) => ({ op: 'frame', x0: i % 7, y0: i % 5, x1: 4095 - i % 3, y1: 4095, glyph: '*' }))""",
    "65,535 inks": """Array.from({ length: 65535 }, (_, i) => ({ op: 'text', x: 64 * (i % 64), y: 4000 + (i >> 6) % 96,
        text: '~s' + '!$.8B'[i % 5] + '1' + three(640 + (i * 7919) % 100000) + three(3000 + (i * 104729) % 60000) + 'TJkis}LmOaOdsOsP'.slice(0, 4 + 2 * (i % 7)) }))""",
    "1,000 inks of the greatest steps": """Array.from({ length: 1000 }, (_, i) => ({ op: 'text', x: 64 * (i % 64), y: 4000 + (i >> 6) % 96,
        text: '~s' + '!$.8B'[i % 5] + '7' + three(2000) + three(13500) + '}!!}'.repeat(13).slice(0, 54) }))""",
    "500 dashed ellipses as large as the page": """Array.from({ length: 500 }, (_, i) => ({ op: 'text', x: 64 * (i % 63), y: 4000 + Math.floor(i / 63),
        text: '~o!4' + three(i) + three(i) + three(262143 - i) + three(491519 - i) }))""",
    "500 ellipses of the most dashes, tinted": """Array.from({ length: 500 }, (_, i) => ({ op: 'text', x: 64 * (i % 63), y: 4000 + Math.floor(i / 63),
        text: '~o!5' + three(i) + three(i) + three(i + 13600) + three(i + 13600) }))""",
    "notes of 13,700 letters": """Array.from({ length: 4 * 255 }, (_, i) => ({ op: 'text', x: 64 * (i % 63), y: 4000 + Math.floor(i / 63), text: i % 255
        ? '~t!a' + three(300) + three(300) + ['  ', 'a ', 'ab', '~#!'][i / 255 | 0].repeat(27).slice(0, 54) : '~n!1' + three(300) + three(300) + three(250000) + three(19000) }))""",
}

# Has others point at the page in view, each with 25 shapes begun, and gives the milliseconds of the longest painting while the view moves, and
# between two frames.
BEGUN = """(async (pointers, shape, isInk) => {
    const SIGNS = Array.from({ length: 94 }, (_, i) => String.fromCharCode(33 + i)).filter((sign) => sign !== '"' && sign !== '\\\\').join('');
    const three = (n) => SIGNS[Math.floor(n / 8464)] + SIGNS[Math.floor(n / 92) % 92] + SIGNS[n % 92];
    wb.sight.setLook(isInk);
    const page = wb.session.board.page, frame = () => new Promise(requestAnimationFrame), paint = wb.painter.paint.bind(wb.painter);
    let [spent, apart] = [0, 0];
    wb.painter.paint = (now) => { const began = performance.now(); paint(now); spent = Math.max(spent, performance.now() - began); };
    const others = Array.from({ length: pointers }, (_, i) => ({ member: 900 + i, page, cell: [3, 4 + i % 9], begun: Array.from({ length: 25 }, (_, n) => shape(three, n)) }));
    for (let n = 0, before = await frame(); n < 60; n += 1) {
        if (n % 10 === 0) wb.session.take('presence', { others });
        wb.view.goTo(wb.view.left + (n < 30 ? 0.7 : -0.7), wb.view.top + (n < 30 ? 0.9 : -0.9));
        const now = await frame();
        [apart, before] = [Math.max(apart, now - before), now];
    }
    delete wb.painter.paint;
    wb.session.take('presence', { others: [] });
    return { spent, apart };
})"""

# what is begun, as others' datagrams have it, in both looks
SHAPES = {
    "dashed ellipses": ("(three, n) => 'text 0 4000 \"~o!4' + three(n) + three(n) + three(14000 + n) + three(14000 + n) + '\"'", True),
    "frames of cells": ("(three, n) => `frame ${n} ${n} 4095 4095 #`", False),
}

# has the drawings shown, and gives the milliseconds of the longest task of the page's thread meanwhile, how long it took, and the same of
# one drawing more that is older than all others, while the view moves
FLOOD = """(async (make, isInk, patience) => {
    const SIGNS = Array.from({ length: 94 }, (_, i) => String.fromCharCode(33 + i)).filter((sign) => sign !== '"' && sign !== '\\\\').join('');
    const three = (n) => SIGNS[Math.floor(n / 8464)] + SIGNS[Math.floor(n / 92) % 92] + SIGNS[n % 92];
    const drawops = make(three).map((shape, i) => ({ ...shape, source: 7, seq: i + 2, time: String(1000 + i) }));
    wb.sight.setLook(isInk);
    const frame = () => new Promise(requestAnimationFrame), longest = [], paint = wb.painter.paint.bind(wb.painter);
    let spent = 0;
    const timed = (act) => { const began = performance.now(); act(); spent = Math.max(spent, performance.now() - began); };
    wb.painter.paint = (now) => timed(() => paint(now));
    const isDone = () => !wb.painter.isPlanned && !wb.ink.waiting.length;
    const rest = async () => {
        const end = performance.now() + 1000 * patience;
        for (let quiet = 0; quiet < 5 && performance.now() < end;) { await frame(); quiet = isDone() ? quiet + 1 : 0; }
        return isDone();
    };
    timed(() => wb.session.take('board', { page: wb.session.board.page, drawops, hidden: [], rows: [] }));
    longest.push(spent);
    spent = 0;
    const began = performance.now(), ends = [await rest()], took = performance.now() - began;
    longest.push(spent);
    spent = 0;
    const older = { op: 'frame', x0: 0, y0: 0, x1: 4095, y1: 4095, glyph: '#', source: 7, seq: 1, time: '999' };
    timed(() => wb.session.take('change', { names: [], added: [[0, older]], hidden: [], rows: {}, height: 0 }));
    for (let n = 0; n < 60; n += 1) { timed(() => wb.view.goTo(wb.view.left + (n < 30 ? 0.7 : -0.7), wb.view.top + (n < 30 ? 0.9 : -0.9))); await frame(); }
    longest.push(spent);
    spent = 0;
    if (isInk) wb.view.setSize(96);
    for (let n = 0; n < 60; n += 1) { timed(() => wb.view.setSize(isInk ? wb.view.wide * (n < 30 ? 0.82 : 1 / 0.82) : wb.view.wide + (n % 12 < 6 ? 1 : -1), { x: 500, y: 400 })); await frame(); }
    ends.push(await rest());
    longest.push(spent);
    delete wb.painter.paint;
    return { longest, ends, took };
})"""


def test_floods(tally: Tally, one: Sheet, other: Sheet) -> None:
    """Each in both looks: when it is shown, while it is painted, when an older drawing comes, moved and made larger and smaller."""
    for name, drawings in FLOODS.items():
        for look in ("ink", "cells"):
            on_a_new_page(one, other)
            # what a flood shows is not on the board: with this the page is not taken for an empty one afterwards
            one.page.value("wb.session.send('line 0 0 1 0 *').then(({ ok }) => ok)")
            has(one, 1)
            one.page.value("wb.view.fit(); wb.view.home(); 0")
            one.page.call("Performance.enable", timeDomain="threadTicks")
            began = busy(one)
            one.page.value(f"window.flooded = null; {FLOOD}((three) => {drawings}, {json.dumps(look == 'ink')}, {ENDS}).then((found) => {{ window.flooded = found; }}); 0")
            one.page.wait("window.flooded", 3 * ENDS)
            found = one.page.value("window.flooded")
            told = ", ".join(f"{spent:.0f}" for spent in found["longest"])
            print(f"{name}, {look}: taken in, painted, moved under an older drawing and zoomed in {told} ms at most without a pause; "
                  f"all is painted after {found['took'] / 1000:.1f} s, {(busy(one) - began) / 1000:.1f} s of the page's thread, with a load of {os.getloadavg()[0]:.1f}")
            tally.check(f"{name}, {look}: painting ends", all(found["ends"]), str(found))
            if is_measured():
                tally.check(f"{name}, {look}: no frame over {MOST_FRAME} ms", max(found["longest"]) < MOST_FRAME, told)
    for name, (shape, is_ink) in SHAPES.items():
        on_a_new_page(one, other)
        for pointers in (1, 64):
            found = one.page.value(f"{BEGUN}({pointers}, {shape}, {json.dumps(is_ink)})")
            print(f"{pointers} pointers with 25 {name} begun: painted in {found['spent']:.0f} ms at most, frames {found['apart']:.0f} ms apart at most")
            if is_measured():
                tally.check(f"{pointers} pointers with {name}: no frame over {MOST_FRAME} ms", max(found.values()) < MOST_FRAME, str(found))
    if not is_measured():
        print("skipped: whether frames are within their time, which is judged where WB_MEASURE is set")
    one.look("cells")
    on_a_new_page(one, other)
