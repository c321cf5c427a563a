"""Calls by bytes give what the lines of the same meaning give."""

from __future__ import annotations

import ctypes
import random
from pathlib import Path

import pytest

from ..host import datagrams
from ..host.test_kept import DRAWING, KeptSession
from ..transcripts import parted
from .by_bytes import NEXT, PAGE, SENT, SHOWN, ByBytes, compare

DONE, WAITS, NOTHING = 0, 1, 6
CLOSED, NOT_KEPT, NO_MOMENT, BACK_IN_TIME, OURS, NO_DRAWOP, NO_QUESTION = 3, 7, 8, 9, 11, 13, 14
CONVERSATIONS = 40
STROKE = datagrams.line(0, 0, 4, 0, "*")


def drawn(source: int, number: int, time: int = 5) -> bytes:
    return bytes.fromhex(datagrams.drawop(source, (7, 1), number, time, STROKE))


@pytest.fixture
def kept(library: Path) -> ByBytes:
    """A self-managing host."""
    host = ByBytes(library)
    host.open()
    for line in (b"board 1 100 1 42", b"keep 4000 0"):
        host.line(line, 40)
    return host


# ---- the same as by lines


@pytest.mark.parametrize("seed", range(CONVERSATIONS))
def test_the_same_as_by_lines(library: Path, seed: int) -> None:
    given, _ = KeptSession(random.Random(seed)).conversation(200)
    assert compare(library, ByBytes, given.splitlines()) > 150


def test_the_same_over_what_is_drawn(library: Path) -> None:
    """Drawings with values that were worked out, among them full boards, and questions of each kind."""
    made = 0
    for conversation in DRAWING:
        given = [line for line in parted(conversation.text)[0].splitlines() if line]
        made += compare(library, ByBytes, given)
    assert made > 20


# ---- events


def test_an_event_without_room_waits(kept: ByBytes) -> None:
    """It is given once, whole, at the front of the buffer, and behind those of earlier calls."""
    first, second = drawn(9, 1), drawn(9, 2)
    assert (kept.came(10, first), kept.came(11, second)) == (DONE, DONE)
    kept.calls.wb_ask(ctypes.byref(kept.held), *(ctypes.c_uint32(it) for it in (2, 7, 1, 0, 0)))
    kinds = []
    for wanted in (b"", b"", first, second):
        if wanted:
            small = ctypes.create_string_buffer(b"." * (len(wanted) - 1), len(wanted) - 1)
            assert kept.event(small) == (WAITS, SHOWN, len(wanted))
            assert small.raw == b"." * (len(wanted) - 1)
        buffer = ctypes.create_string_buffer(b"." * 80, 80)
        status, kind, size = kept.event(buffer)
        assert (status, size, buffer.raw) == (DONE, len(wanted), wanted + b"." * (80 - len(wanted)))
        kinds.append(kind)
    assert kinds == [2, 2, SHOWN, SHOWN]
    assert kept.event(ctypes.create_string_buffer(1)) == (NOTHING, 0, 0)
    kept.close()


def test_lines_and_bytes_are_mixed(kept: ByBytes) -> None:
    assert kept.add(10, drawn(0, 2**32 - 1)) == DONE
    assert kept.line(b"next 7 1", 40)[2].startswith(b"next 2\nok "), "events wait, and lines are taken"
    assert kept.events() == [(SENT, drawn(1, 1)), (2, b"")]
    kept.line(b"came 20 " + drawn(9, 1).hex().encode(), 400)
    kept.calls.wb_ask(ctypes.byref(kept.held), *(ctypes.c_uint32(it) for it in (1, 7, 1, 0, 0)))
    kept.calls.wb_ask(ctypes.byref(kept.held), *(ctypes.c_uint32(it) for it in (5, 0, 0, 0, 0)))
    assert kept.events() == [(NEXT, bytes([0, 0, 0, 2])), (PAGE, bytes([0, 0, 0, 7, 0, 0, 0, 1]))]
    assert kept.line(b"say draw 1 7/1 9 1 line 0 0 4 0 *", 40)[2].startswith(b"refused kept\n")
    kept.close()


# ---- what is refused


def test_refusals(kept: ByBytes) -> None:
    good = drawn(9, 1)
    assert kept.came(2**48, good) == NO_MOMENT
    assert kept.tick(2**48) == NO_MOMENT
    assert [kept.came(5, told) for told in (b"", b"xx" + good[2:], good + b"x", good[:-1])] == [101, 102, 105, 101]
    assert kept.came(5, drawn(1, 2**31)) == OURS
    assert kept.add(5, bytes.fromhex(datagrams.ask_pages(9))) == NO_DRAWOP
    assert kept.add(5, b"W") == 101
    assert kept.add(5, bytes.fromhex(datagrams.drawop(9, (7, 1), 8, 5, datagrams.delete(1, 1)))) == 207, "its own name"
    assert kept.tick(9) == DONE
    assert (kept.tick(8), kept.came(8, good), kept.add(8, good)) == (BACK_IN_TIME,) * 3
    asked = [kept.calls.wb_ask(ctypes.byref(kept.held), *(ctypes.c_uint32(it) for it in (question, 7, 1, width, 5)))
             for question, width in ((0, 5), (9, 5), (7, 0), (7, 201))]
    assert asked == [NO_QUESTION] * 4
    assert kept.events() == []
    kept.close()


def test_only_a_self_managing_host_takes_bytes(library: Path) -> None:
    host = ByBytes(library)
    assert (host.came(5, drawn(9, 1)), host.tick(5), host.due()) == (CLOSED, CLOSED, "ok never")
    host.open()
    assert (host.came(5, drawn(9, 1)), host.add(5, drawn(9, 1)), host.tick(5)) == (NOT_KEPT,) * 3
    host.line(b"board 1 100 1 42", 40)
    assert (host.came(5, drawn(9, 1)), host.came(5, b"")) == (NOT_KEPT, 101)
    host.line(b"ask 7 1 9 1", 40)
    assert host.line(b"next 7 1", 40)[2].split(b"\n")[1].decode() == host.due() != "ok never", "a driven host is due as well"
    assert host.events() == []
    host.close()
