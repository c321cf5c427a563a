"""A session that a broker carries: two tabs with the key, one of them hidden, a member of wb-live, a third lost, a stranger without the key,
and a broker that goes and comes."""
from __future__ import annotations

import random
import time
from pathlib import Path
from typing import Callable

import pytest

from ..host.program import program
from .alone import run_alone
from ..facts import Facts
from ..live.browser import PATIENCE
from .live_member import LiveMember, why_not
from .serving import Broker, Folder
from .spoilt import WAYS, Spoilt
from .test_tabs import some_drawing
from .windows import Ordinary, Window, agree

DRAWINGS = 12
KEY = "A" * 42 + "E"


def fragment(broker: Broker, **words: object) -> str:
    said: dict[str, object] = {"session": "class-7", "broker": broker.address.replace(":", "%3A").replace("/", "%2F"), **words}
    return "#" + "&".join("%s=%s" % pair for pair in said.items())


def check_hidden(facts: Facts, browser: Ordinary, windows: list[Window]) -> None:
    """Draws while one window is hidden behind another tab."""
    one, hidden = windows
    hidden.page.call("Emulation.setFocusEmulationEnabled", enabled=False)
    cover = browser.call("Target.createTarget", url="about:blank")["targetId"]
    browser.call("Target.activateTarget", targetId=cover)
    chance = random.Random(7)
    for window in windows:
        facts("drawings are taken", window.draw_all([some_drawing(chance) for _ in range(DRAWINGS)]))
    facts("one window is hidden", hidden.page.wait("document.visibilityState === 'hidden'"))
    began = time.monotonic()
    facts.holds("a hidden tab and one in view show one canvas", agree(windows, 2 * DRAWINGS), [(w.drawings(), w.health()) for w in windows])
    print(f"{2 * DRAWINGS} drawings by a broker, a third lost, one tab hidden: one canvas {time.monotonic() - began:.1f} s after the last")
    browser.call("Target.closeTarget", targetId=cover)


def check_live(facts: Facts, browser: Ordinary, program: str, invitation: str, windows: list[Window]) -> None:
    """A member of wb-live comes by the invitation that a page shows, and all three show one canvas."""
    reason = why_not()
    if reason:
        print("skipped: a member of wb-live in the session of the broker, for %s" % reason)
        return
    member = LiveMember(program, invitation)
    try:
        facts.holds("wb-live comes by the invitation of a page", bool(member.page), member.fault())
        if member.page:
            draw_with_live(facts, Window(browser, member.page), windows)
    finally:
        member.end()
    facts.holds("that it is gone is told at once", windows[0].page.wait(f"document.querySelectorAll('#members li').length === {len(windows)}", 40.0),
          windows[0].page.value("document.getElementById('members').textContent"))


def draw_with_live(facts: Facts, live: Window, windows: list[Window]) -> None:
    facts.holds("its page is ready", live.is_ready(), live.health())
    before, chance, all_three = windows[0].drawings(), random.Random(8), [*windows, live]
    facts.holds("it turns to the page of the others", live.go_to(str(windows[0].page.value("wb.session.board.page"))), live.health())
    for window in all_three:
        facts("drawings are taken", window.draw_all([some_drawing(chance) for _ in range(DRAWINGS)]))
    began = time.monotonic()
    facts.holds("browsers and wb-live show one canvas", agree(all_three, before + 3 * DRAWINGS), [(window.drawings(), window.health()) for window in all_three])
    print(f"{3 * DRAWINGS} drawings by two browsers that lose a third and wb-live: one canvas {time.monotonic() - began:.1f} s after the last")
    for one, other in ((windows[0], live), (live, windows[0])):
        other.page.value("wb.session.on('presence', ({ others }) => { window.pointed = JSON.stringify(others.map(({ cell, begun }) => [cell, begun.filter((line) => !line.startsWith('view'))])); }); 0")
        told = one.page.value("wb.session.member.point(wb.session.board.page, [3, 4], ['line 0 0 4 4 *']).then(({ ok }) => ok)")
        facts("where one points is told, and what is begun", (told, other.page.wait("window.pointed === '[[[3,4],[\"line 0 0 4 4 *\"]]]'")), (True, True))
    live.page.close()


def check_stranger(facts: Facts, browser: Ordinary, folder: Folder, broker: Broker, windows: list[Window]) -> None:
    """A member without the key, or with another, is not heard and hears nothing."""
    strangers = [Window(browser, folder.address(fragment(broker, open="yes"))), Window(browser, folder.address(fragment(broker, key="B" * 42 + "E")))]
    before = windows[0].drawings()
    for stranger in strangers:
        facts("a stranger's page is ready", stranger.is_ready())
        facts("a stranger draws for himself", stranger.draw("text 0 0 \"not ours\"").get("ok"), True)
    windows[0].draw("line 0 30 5 30 =")
    facts.holds("the members draw on", agree(windows, before + 1), [window.drawings() for window in windows])
    time.sleep(3)
    facts("nothing of a stranger's is on their boards", [window.drawings() for window in windows], [before + 1] * 2)
    facts("nor of theirs on a stranger's", [stranger.drawings() for stranger in strangers], [1, 1])
    facts("what did not open is counted", windows[0].says("counts", "sealed by no key of ours"))
    for stranger in strangers:
        stranger.page.close()


IS_LOST = "document.getElementById('phrase').className === 'lost' && document.getElementById('phrase').textContent.includes('broker')"


def check_gone(facts: Facts, windows: list[Window], what: str, go: Callable[[], None], come: Callable[[], None]) -> None:
    """The broker goes in some way, members draw meanwhile, and it comes back."""
    before = windows[0].drawings()
    go()
    try:
        for window in windows:
            facts.holds(f"{what} is told, and the dot is no more green", window.page.wait(IS_LOST), window.health())
            facts("it draws on meanwhile", window.draw("text 3 33 \"meanwhile\"").get("ok"), True)
    finally:
        come()
    began = time.monotonic()
    facts.holds(f"after {what} all come together", agree(windows, before + len(windows)), [(window.drawings(), window.health()) for window in windows])
    print(f"after {what}: one canvas {time.monotonic() - began:.1f} s after it was back")


def check_spoilt(facts: Facts, broker: Broker, windows: list[Window]) -> None:
    """In the place of the broker stands what spoils each connection in another way, until both windows have met all of them."""
    spoilt: list[Spoilt] = []

    def go() -> None:
        broker.stop()
        spoilt.append(Spoilt())

    def come() -> None:
        until = time.monotonic() + 3 * PATIENCE
        while spoilt[0].met < 2 * len(WAYS) and time.monotonic() < until:
            for window in windows:
                window.in_worker("member.transport.under.pause = 500")
            time.sleep(0.2)
        facts.holds("each way to spoil a connection was met", spoilt[0].met >= 2 * len(WAYS), spoilt[0].met)
        spoilt[0].end()
        broker.start()

    check_gone(facts, windows, "a broker that sends what none should", go, come)


def check_outages(facts: Facts, broker: Broker, windows: list[Window]) -> None:
    check_gone(facts, windows, "a broker that is gone", broker.stop, broker.start)
    check_gone(facts, windows, "a network that is dead and tells no fault", lambda: broker.freeze(True), lambda: broker.freeze(False))
    check_spoilt(facts, broker, windows)


@pytest.mark.inside
def test_whole(facts: Facts, browser: Ordinary, folder: Folder, broker: Broker) -> None:
    windows = [Window(browser, folder.address(fragment(broker, key=KEY, lose="0.33"))) for _ in range(2)]
    for window in windows:
        facts.holds("a window is ready by a broker", window.is_ready(), window.health())
    windows[1].go_to(str(windows[0].page.value("wb.session.board.page")))
    facts("the invitation has the broker and the key, and no more", windows[0].page.value("document.getElementById('line').value.includes('key=') && !document.getElementById('line').value.includes('lose')"), True)
    check_hidden(facts, browser, windows)
    check_live(facts, browser, program(), str(windows[0].page.value("document.getElementById('line').value")), windows)
    check_stranger(facts, browser, folder, broker, windows)
    check_outages(facts, broker, windows)
    for window in windows:
        window.page.close()


def test_broker(page: Path) -> None:
    """In a network of its own, since the broker's WebSockets are for every interface."""
    run_alone(__file__, page)
