"""A judged host of the library: its lines, with values worked out by hand, what its calls by bytes answer, and a driver that has it in its process."""

from __future__ import annotations

import ctypes
import os
import random
import subprocess
import sys
import time
from collections.abc import Callable
from pathlib import Path

import pytest

from ..host.program import TOP, program
from ..host.test_drivers import Relay
from ..host.test_judged import TRANSCRIPTS, JudgedSession
from ..transcripts import JUDGED_HOST, cases, parted, read
from .by_bytes import DREW, DROPPED, GREATEST, MISSING, NEW, NEXT, PAGE, PAINTED, RECORD, SENT, SHOWN, JudgedByBytes, compare
from .calls import Host
from .test_bytes import drawn
from .test_library import by_library, by_program

DONE, CLOSED, NOT_KEPT, NO_MOMENT, BACK_IN_TIME = 0, 3, 7, 8, 9
NO_DRAWOP, NO_QUESTION, JUDGED, NOT_JUDGED, NO_TIME = 13, 14, 15, 16, 19
RANDOM = 20
DRAWINGS = 12
PATIENCE = 60.0  # seconds


@pytest.fixture
def judged(library: Path) -> JudgedByBytes:
    """A judged host that holds two drawops of another, with holes before them."""
    host = JudgedByBytes(library)
    host.open()
    for line in ("board 1 1024 1 42", "judge 0 4000 0 1764000000000000 - -", *(f"held datagram {drawn(9, seq).hex()}" for seq in (2, 4)), "tick 10"):
        assert b"refused" not in host.line(line.encode(), 400)[2]
    return host


# ---- lines


def said_by(library: Path, given: str) -> str:
    host = Host(library)
    host.open()
    blocks = []
    for line in given.splitlines():
        status, size, block = host.line(line.encode(), 1 << 16)
        assert status == DONE
        blocks.append(block[:size].decode())
    host.close()
    return "".join(blocks)


@pytest.mark.parametrize("transcript", cases(TRANSCRIPTS))
def test_transcript(library: Path, transcript: str) -> None:
    given, wanted = parted(transcript)
    assert said_by(library, given) == wanted


@pytest.mark.parametrize("page", ["HOST.md", "HOST-LINES.md"])
def test_documented(library: Path, page: str) -> None:
    found = [parted(it.text) for it in read(TOP / "docs" / page, JUDGED_HOST)]
    assert found
    for given, wanted in found:
        assert said_by(library, given) == wanted


def test_the_same_blocks_as_the_program(host_in_c: Path) -> None:
    many = 0
    for seed in range(RANDOM):
        given = JudgedSession(random.Random(seed)).conversation(200)[0].encode()
        wanted = by_program(given)
        many += wanted.count(b"\nrecord ")
        assert by_library(host_in_c, given) == wanted
    assert many > 500


# ---- calls by bytes


@pytest.mark.parametrize("seed", range(RANDOM))
def test_the_same_by_bytes(library: Path, seed: int) -> None:
    """Event for event, and each in its place."""
    given = JudgedSession(random.Random(1000 + seed)).conversation(200)[0].splitlines()
    assert compare(library, JudgedByBytes, given) > 150


def test_the_same_over_what_was_worked_out(library: Path) -> None:
    made = sum(compare(library, JudgedByBytes, [line for line in parted(it.text)[0].splitlines() if line]) for it in TRANSCRIPTS)
    assert made > 40


def test_what_comes_without_its_origin_is_refused(judged: JudgedByBytes) -> None:
    """It changes nothing: what the host says of itself afterwards is what it said before."""
    asked = [b"members", b"list 9", b"report 7 1", b"gaps 7 1", b"next 7 1"]
    before = [judged.line(line, 400)[2] for line in asked]
    good, ask_pages = drawn(9, 1), bytes.fromhex("574201040000000400000009")
    assert [judged.came(11, told) for told in (good, ask_pages, drawn(1, 2**31))] == [JUDGED] * 3
    assert (judged.tick(2**48), judged.came(11, good[:-1]), judged.add(11, ask_pages)) == (NO_MOMENT, 101, NO_DRAWOP)
    assert (judged.came_from(2**48, "5", good), judged.wall(2**48, 5), judged.gone(2**48, "5"), judged.wall(11, 2**62)) == (NO_MOMENT, NO_MOMENT, NO_MOMENT, NO_TIME)
    assert (judged.came_from(9, "5", good), judged.tick(9), judged.wall(9, 5), judged.gone(9, "5@6"), judged.add(9, good)) == (BACK_IN_TIME,) * 5
    assert judged.events() == []
    assert [judged.line(line, 400)[2] for line in asked] == before
    assert judged.line(b"datagram " + good.hex().encode(), 40)[2].startswith(b"refused kept\n"), "a line that acts without an origin"
    judged.close()


def test_lines_and_bytes_are_mixed(judged: JudgedByBytes) -> None:
    """The record stands before what is sent, and the events of two calls one behind the other. The drawop's own name and time do not matter."""
    assert (judged.wall(11, 5_000_000), judged.add(12, drawn(0, 2**32 - 1, 77)), judged.came_from(13, "5@6", b"WB")) == (DONE,) * 3
    assert judged.line(b"next 7 1", 40)[2].startswith(b"next 2\nok "), "events wait, and lines are taken"
    sent = drawn(1, 1, 5_000_001)
    said = b"say draw 1 7/1 1 5000001 line 0 0 4 0 *"
    assert judged.events() == [(RECORD, b"tick 12"), (RECORD, said), (DREW, bytes([0, 0, 0, 1, 0, 0, 0, 7, 0, 0, 0, 1, 0, 0, 0, 1])), (SENT, sent), (NEW, b""),
                               (DROPPED, bytes([0, 0, 0, 1]))]
    assert judged.line(b"tick 9", 40)[2].startswith(b"refused back in time\n"), "the moment is that of the last call"
    judged.close()


def test_only_a_judged_host_takes_origins(library: Path) -> None:
    host = JudgedByBytes(library)
    assert (host.came_from(5, "1", drawn(9, 1)), host.wall(5, 6), host.gone(5, "1")) == (CLOSED,) * 3
    host.open()
    for line in ("board 1 100 1 42", "keep 4000 0"):
        assert (host.came_from(5, "1", drawn(9, 1)), host.came_from(5, "1", b""), host.wall(5, 6), host.gone(5, "1")) == (NOT_JUDGED,) * 4
        host.text(line)
    assert (host.came_from(5, "1", drawn(9, 1)), host.wall(5, 6), host.gone(5, "1")) == (NOT_JUDGED,) * 3
    assert host.events() == []
    host.close()


def test_questions_by_bytes_are_answered(judged: JudgedByBytes) -> None:
    judged.line(b"add 11 7/1 line 0 0 4 0 +", 900)
    found = []
    for question, creator, number, width, height in ((1, 7, 1, 0, 0), (2, 7, 1, 0, 0), (3, 7, 1, 0, 0), (4, 7, 1, 0, 0), (5, 0, 0, 0, 0), (7, 7, 1, 5, 1)):
        given = (ctypes.c_uint32(it) for it in (question, creator, number, width, height))
        assert judged.calls.wb_ask(ctypes.byref(judged.held), *given) == DONE
        found.append([(kind, its) for kind, its in judged.events()])
    two = [1, 9]
    assert found[0] == [(NEXT, bytes([0, 0, 0, 2]))]
    assert [kind for kind, _ in found[1]] == [SHOWN] * 3 and {its for _, its in found[1][:2]} == {drawn(9, 2), drawn(9, 4)}
    assert found[2] == [(MISSING, bytes([0, 0, 0, 9, 0, 0, 0, at, 0, 0, 0, at])) for at in (1, 3)]
    assert found[3] == [(GREATEST, bytes([0, 0, 0, source, 0, 0, 0, high])) for source, high in zip(two, (1, 4))]
    assert found[4] == [(PAGE, bytes([0, 0, 0, 7, 0, 0, 0, 1]))]
    assert found[5] == [(PAINTED, b"+++++\n")]
    assert judged.calls.wb_ask(ctypes.byref(judged.held), *(ctypes.c_uint32(it) for it in (9, 7, 1, 0, 0))) == NO_QUESTION
    judged.close()


def test_when_it_is_due(judged: JudgedByBytes) -> None:
    assert judged.line(b"wall 20 1764000000000020", 40)[2].split(b"\n")[0].decode() == judged.due() != "ok never"
    judged.close()


def test_a_line_that_judges_begins_it(library: Path) -> None:
    """Until then bytes that act are refused as at any host that is not self-managing; a self-managing host is not judged any more."""
    host = JudgedByBytes(library)
    host.open()
    host.line(b"board 1 1024 1 42", 40)
    assert host.tick(1) == NOT_KEPT
    host.line(b"judge 0 4000 0 1764000000000000 - -", 40)
    assert (host.tick(1), host.came(1, drawn(9, 1))) == (DONE, JUDGED)
    host.close()
    host.open()
    host.line(b"board 1 1024 1 42", 40)
    host.line(b"keep 4000 0", 40)
    assert host.line(b"judge 0 4000 0 1764000000000000 - -", 40)[2].startswith(b"refused kept\n")
    assert (host.add(1, drawn(9, 1)), host.tick(2)) == (DONE, DONE)
    assert [kind for kind, _ in host.events()][:1] == [SENT]
    host.close()


# ---- a driver


class Drivers:
    """Drivers of judged hosts, over UDP on this machine, of which each third datagram is lost."""

    def __init__(self, folder: Path, library: str, count: int) -> None:
        self.folder = folder
        self.environment = {**os.environ, "PYTHONPATH": str(TOP / "python"), "WB_PROGRAM": program(), "WB_LIBRARY": library}
        self.relay = Relay(count)
        self.relay.start()
        self.running = [self.start(number) for number in range(count)]

    def start(self, number: int) -> subprocess.Popen[bytes]:
        words = [sys.executable, str(TOP / "examples/judged.py"), str(self.folder / f"record-{number}"), str(number + 1)]
        words += [str(self.relay.ports[number]), *self.relay.others_of(number)]
        shown = (self.folder / f"shown-{number}").open("ab")
        return subprocess.Popen(words, stdin=subprocess.PIPE, stdout=shown, stderr=subprocess.PIPE, env=self.environment)

    def draw(self, number: int, drawing: str) -> None:
        pipe = self.running[number].stdin
        assert pipe
        pipe.write(f"{drawing}\n".encode())
        pipe.flush()

    def kill(self, number: int) -> None:
        self.running[number].kill()
        self.running[number].communicate()

    def page(self, number: int) -> list[str]:
        """The three rows that a driver showed last."""
        return (self.folder / f"shown-{number}").read_text().splitlines()[-3:]

    def await_page(self, wanted: list[str]) -> None:
        end = time.monotonic() + PATIENCE
        while any(self.page(number) != wanted for number in range(len(self.running))):
            assert time.monotonic() < end, [self.page(number) for number in range(len(self.running))]
            time.sleep(0.2)

    def end(self) -> None:
        for number in range(len(self.running)):
            self.kill(number)
        self.relay.open = False
        self.relay.join()


@pytest.fixture(params=["library", "child"])
def drivers(request: pytest.FixtureRequest, library: Path, tmp_path: Path) -> Callable[[int], Drivers]:
    """Drivers whose host is the library in their process, or a child process. They are ended with the test."""

    def begin(count: int) -> Drivers:
        made = Drivers(tmp_path, str(library / "lib/libwb.so.0") if request.param == "library" else "", count)
        request.addfinalizer(made.end)
        return made

    return begin


def test_drivers_of_judged_hosts(drivers: Callable[[int], Drivers]) -> None:
    """They show the same in the end, also one that was killed and goes on from its record, whose last line was cut off meanwhile."""
    found = drivers(3)
    for at in range(DRAWINGS):
        found.draw(at % 3, f'text {3 * at} {at % 3} "{at:02}"')
        time.sleep(0.05)
    rows = ["".join(f"{at:02} " if at % 3 == row else "   " for at in range(DRAWINGS)).ljust(40) for row in range(3)]
    found.await_page(rows)
    assert found.relay.lost > 0
    found.kill(1)
    record = found.folder / "record-1"
    whole = record.read_bytes()
    record.write_bytes(whole + b"tick 99")
    found.running[1] = found.start(1)
    found.draw(1, 'text 38 0 "!"')
    found.await_page([rows[0][:38] + "! ", *rows[1:]])
    assert record.read_bytes().startswith(whole), "it goes on after what it had"
    later = record.read_bytes()[len(whole):].decode()
    assert later.startswith("tick ") and "say draw 2 1/1 5 " in later, "its fifth drawing has its fifth number"
