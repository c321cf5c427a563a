"""What a self-managing host says, and what its record has of it: from any earlier record it starts with all that is held."""
from __future__ import annotations

import os
import time
from pathlib import Path
from typing import Callable, List, Tuple
from unittest import mock

import pytest

from wbhost import Host

from live.board import Board, line_of
from live.carriers.carrier import Origin
from live.held import held_of
from live.options import read_options
from live.record import MOST_MOMENT, Act, NoRoom, Record, read_played
from live.views import Drawop
from live.words import Words
from ..facts import Facts
from .attacks.test_hostile import Attacker, drawn, session, state
from .members import Process, answers

FIRST_PORT = 26_240
PAGE = "1/1"

# every kind of line that a record of an earlier wb had, with a mark of our own number, and two drawings of ours
OLD = """# started at 2025-01-01 10:00:00
# constants 2,4,1,8 for 60 members at 2025-01-01 10:00:00
board 7 100 1 42
tick 5
say draw 7 1/1 1 1000 line 0 0 4 0 o
arrive %s
look 1 1
tick 9
distance 8 20000
page-state 9 1/1 7=5
say draw 7 1/1 6 1001 line 0 1 4 1 o
say ask-pages 7
# ended at 2025-01-01 10:00:09
""" % drawn(8, 1, 999, 2, b"o").hex()


# member 9 asks for our first drawing
ASKED = "57420103000000140000000900000001000000010000000100000001"


def board_of(record: Record, held: List[Drawop], words: Tuple[str, ...] = ()) -> Board:
    """A host of a record, and what it tells."""
    program = os.environ["WB_PROGRAM"]
    board = Board(program, read_options(list(words)), record, Words(program), held.append)
    board.open(1)
    return board


def end(board: Board) -> None:
    board.host.end()
    board.words.end()
    board.record.end()


def check_old(facts: Facts, folder: Path) -> None:
    """A record of an earlier wb: every drawing and every number is there, and the record goes on."""
    path = folder / "old.wb"
    path.write_text(OLD)
    made = held_of(os.environ["WB_PROGRAM"], read_played(str(path)))
    facts("what the lines made", (made.board, made.moment, len(made.datagrams)), ("board 7 100 1 42", 9, 4))
    held: List[Drawop] = []
    board = board_of(Record(str(path)), held)
    facts("each drawop is held", sorted(drawop.name for drawop in held), [(7, (1, 1), 1), (7, (1, 1), 6), (8, (1, 1), 1)])
    facts("the number is one above what was drawn", (board.me, board.tell("next 1 1").lines), (7, ["next 7"]))
    facts("the host keeps itself", board.tell("look 1 1").fault, "kept")
    board.draw((1, 1), 2000, "line 0 3 4 3 o")
    end(board)
    facts("the record keeps its lines, and has the drawing", (path.read_text().startswith(OLD), "say draw 7 1/1 7 2000 line 0 3 4 3 o\n" in path.read_text()), (True, True))
    facts("any host shows it", answers(str(path), ["show 1 1 5 4"]), "ooooo\n" * 4 + answers(str(path), ["#"]))
    host = Host(os.environ["WB_PROGRAM"], "--tuning", "2,8,1,8")
    host.ask_all(list(held_lines(path)))
    facts("by any constants", host.ask("next 1 1").lines, ["next 8"])
    host.end()


def held_lines(path: Path) -> List[str]:
    return [line for line in path.read_text().split("\n") if line and not line.startswith("#")]


def check_others(facts: Facts, folder: Path) -> None:
    """A record that a self-managing host had of another driver, and one with invalid lines."""
    path = folder / "other.wb"
    path.write_text("board 7 100 1 42\nkeep 4000 0\nadd 5 5 1/1 line 0 0 4 0 o\n")
    other = Process(["--ports", str(FIRST_PORT), "--record", str(path)], web=False)
    facts("what another driver kept is refused", (other.process.wait(60), "keep 4000 0" in path.read_text()), (1, True))
    other.close()
    made = held_of(os.environ["WB_PROGRAM"], map(Act, ["board 7 100 1 42", "datagram 5742", "draw 7 1/1 1 5 line 0 0 4 0 o"]))
    facts("digits that are no datagram are the host's to refuse", [digits[:8] for digits in made.datagrams], ["5742", "57420101"])


def check_mark(facts: Facts, folder: Path) -> None:
    """A mark of our number that was heard, and whose drawop never came, is a number that is not used."""
    path = folder / "mark.wb"
    path.write_text("board 7 100 1 42\ntick 5\npage-state 9 1/1 7=5\n")
    board = board_of(Record(str(path)), [])
    facts("the next number is above it", board.tell("next 1 1").lines, ["next 6"])
    end(board)


def check_clock(facts: Facts, folder: Path) -> None:
    """The clock of a start begins at a moment that nobody guesses, above the record."""
    path = folder / "clock.wb"
    moments = []
    for _ in range(4):
        path.write_text("board 7 100 1 42\ntick 5\n")
        board = board_of(Record(str(path)), [])
        moments.append(board.moment)
        facts.holds("it goes on from there", board.moment <= board.clock.now() - 1 < board.moment + 60_000_000, board.moment, board.clock.now())
        end(board)
    facts("four starts are minutes apart, and above the record", (min(moments) >= 5, max(moments) - min(moments) > 60_000_000), (True, True))
    near = MOST_MOMENT - 10**6
    path.write_text("board 7 100 1 42\ntick %d\n" % near)
    board = board_of(Record(str(path)), [])
    facts.holds("of a record that leaves a second a start takes little", near <= board.moment < near + 10**4, near, board.moment)
    end(board)


def test_draw(facts: Facts) -> None:
    """A drawing has its number and its time of the host, and stands in the record as it was sent."""
    held: List[Drawop] = []
    record = Record(None)
    board = board_of(record, held)
    block, drawop = board.draw((1, 1), 50, "line 0 0 4 0 +")
    facts("its words", drawop.words if drawop else None, "draw 1 1/1 1 50 line 0 0 4 0 +")
    facts("it is to be sent, and told to nobody yet", (drawop.digits in block.sent() if drawop else False, len(held)), (True, 0))
    board.settle()
    facts("it is told once it is on the disk", len(held), 1)
    block, drawop = board.draw((1, 1), 50, 'text 0 0 "a b"')
    facts("one of the same time lies above it", drawop.words if drawop else None, 'draw 1 1/1 2 51 text 0 0 "a b"')
    block, drawop = board.draw((1, 1), 50, "delete 1 3")
    facts("one that aims at itself is none", (block.fault, drawop), ("word 5: target is the drawop itself", None))
    drawn_too = [board.draw((1, 1), 50, words)[1] for words in ("delete 1 1", "restore 1 1", "frame 0 0 2 2 #")]
    facts("of each kind", [each.kind for each in drawn_too if each], ["delete", "restore", "frame"])
    lines = [line for line in record.acts() if not line.startswith("tick ")]
    facts("the record", [line.split(" ", 1)[0] for line in lines], ["board"] + 5 * ["say"])
    end(board)


def test_unwritten(facts: Facts) -> None:
    """A drawing that the record can't have is not sent: nor does the host hold it, and its number is free. Until there is room no host is asked."""
    record, held = Record(None), []  # type: Tuple[Record, List[Drawop]]
    board = board_of(record, held)
    board.draw((1, 1), 50, "line 0 0 4 0 +")
    board.settle()
    first, size = board.host, record.size
    with mock.patch.object(record, "add", side_effect=NoRoom("no space")):
        facts("it is refused", (fault_of(board, "line 0 1 4 1 x"), board.host is first, board.is_broken), ("no space", False, True))
        second = board.host
        facts("so is the next, of which no host hears", (fault_of(board, "line 0 1 4 1 y"), board.host is second), ("no space", True))
    facts("the host does not hold it", board.canvas((1, 1)), ["+++++"])
    facts("nor is it in the record, or told", (record.size, len(held)), (size, 1))
    facts("nor will it report it", board.tell("next 1 1").lines, ["next 2"])
    facts("it counts as no end of a host", board.ends, [])
    _, drawop = board.draw((1, 1), 70, "line 0 2 4 2 -")
    facts("the next drawing has its number", drawop.words if drawop else None, "draw 1 1/1 2 70 line 0 2 4 2 -")
    facts("the record has both, each once", [line for line in record.acts() if line.startswith("say ")],
          ["say draw 1 1/1 1 50 line 0 0 4 0 +", "say draw 1 1/1 2 70 line 0 2 4 2 -"])
    facts("and is not broken any more", board.is_broken, False)
    end(board)


def fault_of(board: Board, operation: str) -> str:
    try:
        board.draw((1, 1), 60, operation)
    except NoRoom as fault:
        return str(fault)
    return "drawn"


def test_repair(facts: Facts) -> None:
    """A repair of ours that is due with a drawing is not taken for it."""
    board = board_of(Record(None), [], ("--speed", "1000"))
    board.draw((1, 1), 50, "line 0 0 4 0 +")
    board.came([ASKED], Origin("9"))
    until = board.moment + 300_000  # with a delay of 100 ms a repair waits for 100 to 200
    while board.now() < until:
        time.sleep(0.001)
    block, drawop = board.draw((1, 1), 50, "line 0 1 4 1 +")
    facts("both are sent", sum(digits.startswith("57420101") for digits in block.sent()), 2)
    facts("the drawing is the new one", drawop.name if drawop else None, (1, (1, 1), 2))
    end(board)


def test_strange(facts: Facts, tmp_path: Path) -> None:
    """What no member gave stays so: after a start of the host, for another member of this program, and under another number."""
    held: List[Drawop] = []
    board = board_of(Record(str(tmp_path / "1.wb")), held)
    board.draw((1, 1), 50, "line 0 0 4 0 +")
    board.settle()
    board.take([Drawop("draw 8 1/1 1 999 line 0 2 9 2 o", drawn(8, 1, 999, 2, b"o").hex())], Origin("eve"))
    name, words = (8, (1, 1), 1), "draw 8 1/1 1 999 line 0 2 9 2 o"
    facts("a stranger's drawop", ([drawop.words for drawop in held[1:]], board.strange), ([words], {name}))
    board.begin_again()
    facts("the next host has it so", (board.strange, board.pages(9), board.tell("list 9").lines), ({name}, [(1, 1)], ["list 1", "1 1 2"]))
    told: List[Drawop] = []
    other = board_of(Record(None), told)
    other.take_over(held, board.strange)
    facts("another member has both, and what is strange", (len(told), other.strange), (2, {name}))
    facts("and so has its record", [line.split(" ")[0] for line in other.record.acts()], ["board", "datagram", "draw"])
    third, lines = board_of(Record(None), told), [line_of(drawop, board.strange) for drawop in held]
    third.host.process.kill()
    third.begin_with(lines, b"".join(b"held %s\n" % line.encode() for line in lines), board.strange)
    facts("one whose host ends meanwhile has them by the next host", (third.tell("list 9").lines, third.strange), (["list 1", "1 1 2"], {name}))
    facts("and its record has them after the line of the board", third.record.text().split(b"\n")[2:4], [line.encode() for line in lines])
    board.renumber(9, str(tmp_path / "9.wb"), held)
    facts("under another number", (board.me, board.strange, [line.split(" ")[0] for line in board.record.acts()]), (9, {name}, ["board", "tick", "datagram", "draw"]))
    for each in (board, other, third):
        end(each)


def check_listening(facts: Facts, folder: Path) -> None:
    """Which member listens, and for how long: its first drawing waits."""
    path = str(folder / "a.wb")
    words = ["--ports", str(FIRST_PORT), "--speed", "10", "--record", path]
    member = Process([*words, "--me", "7"])
    Attacker(member.udp_port).reach(member, [state(9, (1, 1), {7: 4}), session(9, 5, (1, 1), {7: 2**31}), *20 * [session(9, 6, (1, 1), {7: 3})]])
    facts("who may have drawn goes on above what others report", member.draw(PAGE, "line 0 0 3 0 e")[1].get("seq"), 5)
    Attacker(member.udp_port).reach(member, [state(9, (1, 1), {7: 90})])
    facts("which the record tells once", Path(path).read_text().count("\npage-state "), 1)
    facts("and then by no mark", member.draw(PAGE, "line 0 1 3 1 e")[1].get("seq"), 6)
    facts("a member ends with 0", member.end(), 0)
    again = Process(words)
    facts("what ended as it should draws at once", again.wait_for(lambda states: states["hello"]["ready"], 5), True)
    facts("by the next number", again.draw(PAGE, "line 0 2 3 2 e")[1].get("seq"), 7)
    again.kill()
    record = Record(path)
    facts("what was killed may have lost a line", record.is_ended(), False)
    record.close()
    last = Process(words)
    facts("and listens first", last.draw(PAGE, "line 0 3 3 3 e")[1].get("seq"), 8)
    facts("it ends with 0 too", last.end(), 0)
    facts("the record shows all", "eeee\neeee\neeee\neeee\n" in answers(path, ["show 1 1 4 4"]), True)


@pytest.mark.parametrize("part", [check_old, check_others, check_mark, check_clock, check_listening])
def test_member(facts: Facts, tmp_path: Path, part: Callable[[Facts, Path], None]) -> None:
    part(facts, tmp_path)
