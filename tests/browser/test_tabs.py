"""Tabs of one browser: two and a phone's width, a third lost; a reload, a trap, old records, a full board, a start without a network."""
from __future__ import annotations

import json
import os
import random
import statistics
import time
from pathlib import Path

import pytest

from .alone import run_alone
from ..facts import Facts
from .serving import Folder
from .windows import PHONE, Ordinary, Window, agree

# rounds of the latency, and the milliseconds that their median may not pass, where the machine has no other work, as WB_MEASURE says
IS_MEASURED = bool(os.environ.get("WB_MEASURE"))
ROUNDS, MOST_LATENCY = 15 if IS_MEASURED else 3, 50.0

# drawings of each window while a third is lost
DRAWINGS = 12

# a host whose room is beyond the end of the memory, so that the next call of it traps
SPOIL = "new DataView(member.board.host.memory.buffer).setUint32(Number(member.board.host.place), 0x7fff0000, true), 0"


# a record of an earlier build of the page, and one of a later build, by their numbers; how they come into a browser's database, and what it has
OLD = "# constants 2,4,1,8 for 60 members at 2025-01-01 10:00:00\nboard 7 100 1 42\ntick 5\nsay draw 7 1/1 1 1000 line 0 0 4 0 o\n"
LATER = "# wb record 2\nboard 8 100 1 42\n"
PUT = """new Promise((done) => {
    const open = indexedDB.open('wb', 1);
    open.onsuccess = () => {
        const stores = open.result.transaction(['lines', 'members'], 'readwrite');
        for (const [me, text] of %s) {
            stores.objectStore('lines').put(text, [' old', me, 0]);
            stores.objectStore('members').put({ session: ' old', me, at: Date.now() + me });
        }
        stores.oncomplete = () => { open.result.close(); done(true); };
    };
})""" % json.dumps([(7, OLD), (8, LATER)])
GET = """new Promise((done) => {
    const open = indexedDB.open('wb', 1);
    open.onsuccess = () => {
        const got = open.result.transaction('lines').objectStore('lines').getAll(IDBKeyRange.bound([' old', %d], [' old', %d, []]));
        got.onsuccess = () => { open.result.close(); done(got.result.join('')); };
    };
})"""


def some_drawing(chance: random.Random) -> str:
    x0, y0, x1, y1 = (chance.randrange(top) for top in (30, 20, 30, 20))
    kind = chance.choice(("line", "frame", "text"))
    return f'text {x0} {y0} "some text"' if kind == "text" else f"{kind} {x0} {y0} {x1} {y1} {chance.choice('*#+-o')}"


def open_all(facts: Facts, browser: Ordinary, folder: Folder, fragment: str) -> list[Window]:
    """Two windows, of which one runs the module for every engine, and one of a phone's width."""
    windows = [Window(browser, folder.address(fragment)), Window(browser, folder.address(fragment + "&wide=0")), Window(browser, folder.address(fragment), PHONE)]
    for window in windows:
        facts.holds("a window is ready to draw", window.is_ready(), window.health())
    return windows


def check_losses(facts: Facts, windows: list[Window]) -> None:
    chance, count = random.Random(59), len(windows) * DRAWINGS
    for window in windows:
        facts("drawings are taken", window.draw_all([some_drawing(chance) for _ in range(DRAWINGS)]))
    began = time.monotonic()
    facts.holds("all show one canvas though a third was lost", agree(windows, count), str([(window.drawings(), window.health()) for window in windows]))
    print(f"{count} drawings in three tabs that lose a third: one canvas {time.monotonic() - began:.1f} s after the last")
    facts("something was lost and repaired", windows[0].says("counts", "lost on purpose"))


def check_hand(facts: Facts, windows: list[Window]) -> None:
    one, other, phone = windows
    one.drag((40, 2), (50, 2))
    facts.holds("a line by mouse is in the other tab", other.shows(40, 2, "*" * 11), other.rows()[:4])
    phone.stroke((2, 22), (6, 22), (12, 22))
    facts.holds("a line by a finger is in the other tab", one.shows(2, 22, "*" * 11), one.rows()[20:])
    facts("nothing is wider than a phone", phone.page.value("document.documentElement.scrollWidth <= 390"), True)


def check_reload(facts: Facts, windows: list[Window]) -> None:
    count = len(windows) * DRAWINGS + 2  # a line of the mouse and one of the finger
    facts.holds("all have what the hands drew", agree(windows, count), [window.drawings() for window in windows])
    one, me, rows = windows[0], windows[0].me, windows[0].rows()
    facts("it is ready again", one.reload())
    facts("a reload keeps the number", one.me, me)
    facts("and the board", one.page.wait(f"wb.session.board.drawops.length === {count}") and one.rows(), rows)
    facts("a number is used once", one.draw("line 60 1 64 1 +").get("ok") and windows[1].shows(60, 1, "+++++"), True)


def check_trap(facts: Facts, windows: list[Window]) -> None:
    for window in windows[:2]:
        shown = window.drawings()
        window.in_worker(SPOIL)
        facts("a host that broke off is started from its record", window.is_ready())
        # what was asked as it broke may be refused
        facts("and goes on", any(window.draw("line 70 3 74 3 x").get("ok") for _ in range(100)))
        facts.holds("with all that it had", window.page.wait(f"wb.session.board.drawops.length > {shown}"), window.drawings())
        facts("it was started again", window.in_worker("member.board.ends.length"), 1)
        facts("the record tells it", window.in_worker("member.board.record.lines().then((lines) => lines.filter((line) => line.includes('broke off')).length)"), 1)


def check_records(facts: Facts, browser: Ordinary, folder: Folder) -> None:
    """A record of an earlier build goes on, and one of a later build stays as it is."""
    one = Window(browser, folder.address("#session=old"))
    facts("a browser has records", one.is_ready() and one.page.value(PUT), True)
    two = Window(browser, folder.address("#session=old"))
    facts("a start goes on with the one that was used last and that it can read", (two.is_ready(), two.me), (True, 7))
    facts.holds("all that it has is shown", two.shows(0, 0, "ooooo"), two.rows())
    facts("a number is used once", two.draw("line 0 1 4 1 o").get("seq"), 2)
    facts("it is told that another is of a later build", two.says("warnings", "later build"))
    kept = str(two.page.value(GET % (7, 7)))
    facts("the record has its lines and the new ones", (kept.startswith(OLD), "\nsay draw 7 1/1 2 " in kept), (True, True))
    facts("the other is as it was", two.page.value(GET % (8, 8)), LATER)
    for window in (one, two):
        window.page.close()


def check_full(facts: Facts, browser: Ordinary, folder: Folder) -> None:
    window = Window(browser, folder.address("#session=full&cells=5"))
    facts("a small board is ready", window.is_ready())
    wrong = window.draw("line 0 0 5 5000 *")
    facts.holds("what is no drawing is refused by the host", wrong["ok"] is False and wrong["fault"].startswith("word"), wrong)
    answers = [window.draw(f"line 0 {y} 5 {y} *") for y in range(7)]
    facts("a full board takes no more", [answer["ok"] for answer in answers], [True] * 5 + [False] * 2)
    facts("and says why", answers[-1].get("fault"), "full")
    # a page is shown anew a moment after the answer
    facts.holds("what it has is shown", window.page.wait("wb.session.board.rows.length === 5"), window.rows())
    window.page.close()


def check_alone(facts: Facts, browser: Ordinary, folder: Folder) -> None:
    """Without its server, and with nothing from elsewhere."""
    window = Window(browser, folder.address("#session=alone"))
    facts("what is drawn before a page is shown is taken", window.page.wait("globalThis.wb?.session") and window.draw("line 0 0 4 0 *").get("ok"), True)
    facts("a window is ready", window.is_ready())
    sources = window.page.value("performance.getEntriesByType('resource').map((it) => it.name)")
    facts("nothing comes from elsewhere", [name for name in sources if not name.startswith(folder.address()) and not name.startswith("blob:")], [])
    facts("the browser keeps the folder", window.page.wait("navigator.serviceWorker.ready.then(() => true)"))
    folder.stop()
    try:
        facts("it starts without a network", window.reload() and window.shows(0, 0, "*****"), True)
    finally:
        folder.start()
    window.page.value("""(() => {
        const script = document.createElement('script');
        script.textContent = 'window.ran = true';
        document.body.append(script);
    })()""")
    facts("no other script runs", not window.page.value("window.ran"), True)
    facts("no text is run", window.page.value("(() => { try { return eval('1'); } catch (fault) { return fault.name; } })()"), "EvalError")
    browser.faults = [fault for fault in browser.faults if "Content Security Policy" not in fault and "Content-Security-Policy" not in fault]
    window.page.close()


def measure(facts: Facts, browser: Ordinary, folder: Folder) -> None:
    """Milliseconds from the release of the mouse in one tab to the paint in the other."""
    windows = [Window(browser, folder.address("#session=quick")) for _ in range(2)]
    facts("two tabs are ready", [window.is_ready() for window in windows], [True, True])
    windows[0].page.value("addEventListener('pointerup', () => { window.released = performance.timeOrigin + performance.now(); }, true); 0")
    windows[1].draw("text 0 0 \"-\"")
    facts("one shows what the other drew", windows[0].shows(0, 0, "-"))
    taken = []
    for row in range(2, 2 + ROUNDS):
        windows[1].page.value(f"""window.seen = new Promise((take) => {{
            wb.session.on('board', ({{ rows }}) => {{
                if ((rows[{row}] ?? '').includes('####')) requestAnimationFrame(() => setTimeout(() => take(performance.timeOrigin + performance.now())));
            }});
        }}); 0""")
        time.sleep(0.3)
        windows[0].page.value("wb.hand.setGlyph('#'); 0")
        windows[0].drag((10, row), (20, row))
        taken.append(float(windows[1].page.value("window.seen")) - float(windows[0].page.value("window.released")))
    print(f"from the mouse's release to the paint in the other tab: {statistics.median(taken):.0f} ms, the median of {ROUNDS}; the greatest {max(taken):.0f} ms, "
          f"with a load of {os.getloadavg()[0]:.1f} on {os.cpu_count()} processors")
    facts.holds("a drag is soon in the other tab", not IS_MEASURED or statistics.median(taken) < MOST_LATENCY, taken)
    for window in windows:
        window.page.close()


@pytest.mark.inside
def test_whole(facts: Facts, browser: Ordinary, folder: Folder) -> None:
    windows = open_all(facts, browser, folder, "#session=tabs&lose=0.33")
    facts("two kinds of modules run", sorted({str(window.page.value("document.querySelector('#with .small').textContent.match(/runs (\\S+)\\./)[1]")) for window in windows}),
          ["wb-any.wasm", "wb.wasm"])
    for part in (check_losses, check_hand, check_reload, check_trap):
        part(facts, windows)
    for window in windows:
        window.page.close()
    check_records(facts, browser, folder)
    check_full(facts, browser, folder)
    facts("no fault in a page, and none of its policy", browser.faults, [])
    check_alone(facts, browser, folder)
    measure(facts, browser, folder)


def test_tabs(page: Path) -> None:
    """In a network of its own, from which nothing leaves."""
    run_alone(__file__, page)
