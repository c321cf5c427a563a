"""A crash of the machine takes what the disk does not have yet of a record. What was sent of ours it does not take."""
from __future__ import annotations

import errno
import os
import shutil
from pathlib import Path
from typing import Any, List, Optional
from unittest import mock

from live.board import Board
from live.carriers.carrier import Nobody, Origin
from live.events import Events
from live.judging import Judging
from live.member import Member
from live.options import read_options
from live.record import NoRoom, Record
from live.views import Drawop
from ..facts import Facts
from .members import TOP, Process, comes
from .attacks.test_hostile import drawn
from .test_keeping import board_of, end

FIRST_PORT = 27_040
PAGE = "1/1"

# A start of wb-live on a disk that has of a file what it had at its last sync, and that name only if its folder was synced too: both stand
# beside the file. One that fails takes nothing from then on.
DISK = '''
import os, runpy, shutil, stat, sys
synced = os.fsync
pending = {}
def fsync(file):
    path = os.readlink("/proc/self/fd/%%d" %% file)
    if os.path.exists(path + ".fails"):
        raise OSError(5, "Input/output error")
    synced(file)
    if stat.S_ISDIR(os.fstat(file).st_mode):
        for each in [each for each in pending if os.path.dirname(each) == path]:
            os.replace(pending.pop(each), each + ".disk")
    elif path.endswith(".wb"):
        shutil.copyfile(path, path + ".synced")
        if os.path.exists(path + ".disk"):
            os.replace(path + ".synced", path + ".disk")
        else:
            pending[path] = path + ".synced"
os.fsync = fsync
sys.argv[0] = %r
runpy.run_path(sys.argv[0], run_name="__main__")
''' % str(TOP / "wb-live")


def start(words: List[str]) -> Process:
    """A member on such a disk."""
    return Process(words, launch=["-c", DISK])


def crash(member: Process, path: Path) -> None:
    """The machine of a member breaks off: of its record there is what the disk has."""
    member.kill()
    path.unlink()
    if Path("%s.disk" % path).exists():
        shutil.move("%s.disk" % path, path)


def test_machine(facts: Facts, tmp_path: Path) -> None:
    """One draws five times, and another holds all. The machine of the first breaks off at once, and starts before the network is up: it draws another
    drawing, by another number. Then both show all."""
    path = tmp_path / "a.wb"
    words = ["--ports", str(FIRST_PORT), "--speed", "10"]
    mine = ["--record", str(path), "--me", "7"]
    first, other = start([*words, *mine]), Process(words)
    try:
        drawings = [first.draw(PAGE, "line 0 %d 4 %d a" % (row, row))[1].get("seq") for row in range(5)]
        facts("five drawings", drawings, [1, 2, 3, 4, 5])
        facts("the other holds them", other.wait_for(lambda states: len(states["board"]["rows"]) == 5), True)
        crash(first, path)
        first = start(["--ports", str(FIRST_PORT + 40), "--speed", "10", *mine])
        facts("without a network the first draws on by its next number", first.draw(PAGE, "line 0 5 4 5 b")[1].get("seq"), 6)
        facts("it ends with 0", first.end(), 0)
        first = Process([*words, *mine])
        facts("with a network both show all", [comes(lambda: each.rows(PAGE) == 5 * ["aaaaa"] + ["bbbbb"]) for each in (first, other)], [True, True])
    finally:
        facts("both end with 0", [first.end(), other.end()], [0, 0])


def test_failing_disk(facts: Facts, tmp_path: Path) -> None:
    """A drawing that the disk does not take is not sent, and its number is free. What others drew is written again."""
    record, held = Record(str(tmp_path / "1.wb")), []  # type: Record, List[Drawop]
    board = board_of(record, held)
    sent = draw(board, "line 0 0 4 0 +")
    board.take([Drawop("draw 8 1/1 1 999 line 0 2 9 2 o", drawn(8, 1, 999, 2, b"o").hex())], Origin("eve"))
    host = board.host
    with mock.patch("os.fsync", side_effect=OSError(errno.EIO, "Input/output error")):
        facts("a drawing is refused", draw(board, "line 0 1 4 1 x"), "Input/output error")
        facts("a host has begun that has not drawn it", (board.host is host, board.tell("next 1 1").lines, board.is_broken), (False, ["next 2"], True))
        facts("nobody was told of it", [drawop.name[:1] for drawop in held], [(1,), (8,)])
        facts("the next is refused before the host hears of it", (draw(board, "line 0 1 4 1 y"), board.host), ("Input/output error", board.host))
        board.sync()
        facts("so it stays", board.is_broken, True)
    board.sync()
    facts("then there is a disk again", (board.is_broken, sent, draw(board, "line 0 3 4 3 z")), (False, [1], [2]))
    end(board)
    lines = [line.split(" ", 2)[:2] for line in Record(str(tmp_path / "1.wb")).acts()]
    facts("the record has what was drawn, and what others drew", [line[0] for line in lines if line[0] != "tick"], ["board", "say", "draw", "say"])


def test_failing_disk_of_others(facts: Facts) -> None:
    """So it is for a member of a browser, whose record does not last: what it draws is kept elsewhere."""
    held: List[Drawop] = []
    board = board_of(Record(None), held)
    draw(board, "line 0 0 4 0 +")
    with mock.patch.object(board, "sync_kept", side_effect=NoRoom("no disk")):
        facts("a drawing is refused", draw(board, "line 0 1 4 1 x"), "no disk")
    facts("and is nowhere", (len(held), board.tell("next 1 1").lines, [line for line in board.record.acts() if "x" in line]), (1, ["next 2"], []))
    facts("with a disk its number is taken", draw(board, "line 0 1 4 1 y"), [2])
    end(board)


def draw(board: Board, operation: str) -> Any:
    """The numbers of ours that are sent for it, or why none is."""
    try:
        block, _ = board.draw((1, 1), 50, operation)
        board.settle()
    except NoRoom as fault:
        return str(fault)
    return [int(digits[40:48], 16) for digits in block.sent() if digits.startswith("57420101")]


def test_one_sync(facts: Facts, tmp_path: Path) -> None:
    """Drawings that wait together are on the disk by one sync, before any is sent. If nothing is kept, nothing is synced."""
    order: List[str] = []
    paths: List[Optional[str]] = [str(tmp_path / "1.wb"), None]
    for path, wanted in zip(paths, (["synced", "sent", "sent", "sent"], ["sent", "sent", "sent"])):
        member = member_of(path, order)
        order.clear()
        with mock.patch("os.fsync", side_effect=lambda file: order.append("synced")), mock.patch("live.record.sync_folders"):
            futures = [member.people.draw((1, 1), "line 0 %d 4 %d +" % (row, row)) for row in range(3)]
            for call in member.inbox.take(0)[0]:
                call()
            member.people.draw_all()
        facts("all are drawn", [future.result(0)["seq"] for future in futures], [1, 2, 3])
        facts("in this order", order, wanted)
        member.board.close()
        member.words.end()


class Noting(Nobody):
    """A network without anyone, which notes when a drawing is sent."""

    def __init__(self, order: List[str]) -> None:
        super().__init__("a test")
        self.order = order

    def send(self, data: bytes) -> bool:
        self.order += ["sent"] * (data[3] == 1)
        return True


def member_of(path: Optional[str], order: List[str]) -> Member:
    """A member that may draw, alone in its network."""
    member = Member(read_options([]), os.environ["WB_PROGRAM"], Record(path), Noting(order), Events(), 1)
    member.judge(Judging(member))
    member.is_ready = True
    member.board.moment = member.board.ready_at
    return member
