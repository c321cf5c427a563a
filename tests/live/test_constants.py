"""The constants of the timers, which go by how many others are heard: by the table of cases, and in sessions in virtual time."""
from __future__ import annotations

import json
from contextlib import ExitStack
from pathlib import Path
from typing import Dict, List, Optional
from unittest import mock

from live.board import Board, Listener
from live.clock import SECOND
from live.constants import FAR, FEW, NEAR, SEVERAL, constants_for
from live.views import Drawop, Name
from wbhost import Block, HostEnded
from ..facts import Facts
from .test_virtual import World

TABLE = Path(__file__).resolve().parent / "constants.json"

# of the sessions in which much is lost: microseconds one way, the share that is lost, how often each of three draws, and seconds between two drawings
DELAY, LOST, TURNS, BETWEEN = 20_000, 0.3, 120, 0.08

# the seconds within which 99 in 100 of these drawings are with all, and after which all are
WITHIN, LONGEST = 1.6, 60


def test_table(facts: Facts) -> None:
    """The page passes the same (tests/browser/constants.mjs)."""
    for case in json.loads(TABLE.read_text())["cases"]:
        now, found = FEW, []
        for heard in case["heard"]:
            now = constants_for(heard, now, case["many"])
            found.append(now)
        facts(case["name"], found, case["wanted"])


def test_followed(facts: Facts) -> None:
    """Members come, and most leave: each host has the constants of the group, and so does one that starts again."""
    with World(1) as world:
        members = [world.join(number) for number in range(1, 4)]
        told = note_of(members[0].member.board)
        world.run(10)
        facts("three have those with which they began", ([each.member.board.tuning for each in members], told), ([FEW] * 3, []))
        members += [world.join(number) for number in range(4, 15)]
        world.run(20)
        facts("fourteen have those of many, and were told of several before", ([each.member.board.tuning for each in members], told[-1]), ([NEAR] * 14, as_line(NEAR)))
        del world.members[5:]
        world.run(200)
        facts("five have those of several", ([each.member.board.tuning for each in members[:5]], told[-1]), ([SEVERAL] * 5, as_line(SEVERAL)))
        board = members[0].member.board
        with mock.patch("live.board.Host", wraps=board.host.__class__) as hosts:
            board.begin_again()
        facts("the next host begins with them", hosts.call_args.args[1:], ("--tuning", SEVERAL))
        for member in members[5:]:
            member.end()


def test_ended(facts: Facts) -> None:
    """A host ends when its member tells it constants: the next one has them."""
    with World(2) as world:
        board = world.join(1).member.board
        board.host.end()
        with mock.patch("live.board.Host", wraps=board.host.__class__) as hosts:
            try:
                board.tune(SEVERAL)
                ended = False
            except HostEnded:
                ended = True
        facts("it ended, and the next one has them", (ended, hosts.call_args.args[1:], board.tell("look 1 1").fault), (True, ("--tuning", SEVERAL), "kept"))


def as_line(constants: str) -> str:
    return "tuning " + constants.replace(",", " ")


def note_of(board: Board) -> List[str]:
    """The lines that give the host of a board other constants, from now on."""
    told: List[str] = []
    tell = board.tell

    def note(line: str) -> Block:
        told.extend([line] if line.startswith("tuning ") else [])
        return tell(line)

    board.tell = note  # type: ignore[assignment]
    return told


# ---- what few members wait for


def seconds_of_drawings(constants: Optional[str] = None) -> List[float]:
    """Three members draw in turn while much is lost: the seconds of each drawing until all have it. With constants, they have these for good."""
    with ExitStack() as held:
        if constants:
            held.enter_context(mock.patch.multiple("live.board", FEW=constants))
            held.enter_context(mock.patch.multiple("live.judging", constants_for=lambda *_: constants))
        world = held.enter_context(World(3))
        world.delay = DELAY
        for number in range(1, 4):
            world.join(number)
        came = moments_of(world)
        world.run(20)
        draw_in_turn(world)
    assert len(came) == 3 * TURNS and all(len(moments) == 3 for moments in came.values()), "some drawings are not with all"
    return sorted((moments[-1] - moments[0]) / SECOND for moments in came.values())


def draw_in_turn(world: World) -> None:
    """All draw, and everything comes."""
    world.loss = LOST
    for turn in range(TURNS):
        for member in world.members:
            member.draw(turn % 90)
            world.run(BETWEEN)
    world.run(LONGEST)


def moments_of(world: World) -> Dict[Name, List[int]]:
    """When each drawing is with a member, from now on: first with the one that draws it."""
    came: Dict[Name, List[int]] = {}

    def note(board: Board, listener: Listener) -> None:
        def hold(drawop: Drawop) -> None:
            came.setdefault(drawop.name, []).append(world.now)
            listener(drawop)
        board.listener = hold

    for each in world.members:
        note(each.member.board, each.member.board.listener)
    return came


def within(took: List[float]) -> float:
    """The seconds within which 99 in 100 are with all."""
    return took[99 * len(took) // 100 - 1]


def test_few(facts: Facts) -> None:
    """What is lost again and again comes sooner than with the constants of a LAN, and of a broker, which three members had before."""
    found = {constants: seconds_of_drawings(constants) for constants in (None, NEAR, FAR)}
    told = {constants: "99 in 100 within %.2f s, the slowest after %.1f s" % (within(took), took[-1]) for constants, took in found.items()}
    print("three members, three in ten lost: %s" % told)
    facts.holds("99 in 100 drawings are with all soon", within(found[None]) < WITHIN, told[None])
    facts.holds("with those it takes a quarter longer", all(within(found[constants]) > 1.25 * within(found[None]) for constants in (NEAR, FAR)), (told[NEAR], told[FAR]))
