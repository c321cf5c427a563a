"""A class that opens a board: nobody asks for what is held here, and nothing is repaired or dropped (docs/CLASS.md)."""
from __future__ import annotations

import os
import threading
from pathlib import Path
from typing import List

from live.carriers.carrier import Nobody, Origin
from live.carriers.hub import Hub
from live.events import Events
from live.given import Given
from live.guests import Guests
from live.judging import Judging
from live.member import Member
from live.options import read_options
from live.record import Record
from live.words import SharedWords
from ..facts import Facts
from .classroom import LATEST, Class
from .members import comes

DRAWOPS, FIRST, SECOND, SECONDS = 5_000, 4, 2, 3

# seconds until each browser has what its member counted
SETTLED = 1.5

COUNTS = "dropped", "requests", "repairs"


def test_join(facts: Facts, tmp_path: Path) -> None:
    """Each browser gets all that is held without a request, at once with others; and all of it while others draw."""
    held, delays = Class(tmp_path, DRAWOPS), []  # type: Class, List[float]
    try:
        facts("all have all", len(held.join(FIRST)), FIRST)
        held.rest(SETTLED)
        facts("nothing was dropped, asked for or repaired", [held.counted(what) for what in COUNTS], [0, 0, 0])
        drawing = threading.Thread(target=lambda: delays.extend(held.draw(SECONDS)))
        drawing.start()
        facts("those that come while these draw have all", len(held.join(SECOND)), SECOND)
        drawing.join()
        facts.holds("each drawing comes to all others", len(delays) == FIRST * (FIRST - 1) * SECONDS and delays[-1] < LATEST, delays)
        facts("and to those that came later", comes(lambda: {browser.held for browser in held.browsers} == {DRAWOPS + FIRST * SECONDS}), True)
        facts("nothing was dropped", held.counted("dropped"), 0)
    finally:
        facts("the program ends with 0", held.end(), 0)


def test_meanwhile(facts: Facts) -> None:
    """What comes to the program's member after it gave what it held, and before a new member hears others, it gives that one too."""
    options, program = read_options(["--web", "127.0.0.1:0", "--no-terminal"]), os.environ["WB_PROGRAM"]
    hub = Hub(Nobody("a test"))
    keeper = Member(options, program, Record(None), hub.place(), Events(), 1, SharedWords(program))
    keeper.judge(Judging(keeper))
    guests = Guests(keeper, hub)
    drawop, = keeper.drawops_of(["57420101000000220000000700000001000000010000000100000000000000000100000000000400002a"])
    give = guests.giving.give

    def give_before() -> Given:
        given = give()
        keeper.board.take([drawop], Origin("elsewhere"))
        return given

    guests.giving.give = give_before  # type: ignore[assignment]
    running = threading.Thread(target=keeper.run, daemon=True)
    running.start()
    try:
        member = guests.begin("127.0.0.1").member
        facts("it has it", comes(lambda: member.drawn.holds(drawop.name)), True)
        facts("without a request", member.wire.counts["requests"], 0)
        facts("as a stranger's, as the other has it", (member.board.strange, keeper.board.strange), ({drawop.name}, {drawop.name}))
    finally:
        guests.end()
        keeper.end()
        running.join(10)
