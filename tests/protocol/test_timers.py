"""The vectors of timers, echoes, seals and streams: by the member that was written from docs/PROTOCOL.md alone, and by the program."""

from __future__ import annotations

import importlib.util
import json
import socket
import time
from pathlib import Path
from random import Random
from typing import Any

import pytest

from live.keys import key_for

from ..host.program import TOP, host
from . import codec, envelope
from .member import LISTENING, UNKNOWN_DELAY, Member, delay_of
from .sealed_vectors import DRAWOPS, GIVEN, OURS
from .timer_vectors import PAGE, silent
from .vectors import write_all
from .words import words_of

VECTORS = TOP / "docs/vectors"
TIMERS = json.loads((VECTORS / "timers.json").read_text())
SEALED = json.loads((VECTORS / "sealed.json").read_text())
TAGGED = json.loads((VECTORS / "tagged.json").read_text())
OPEN = "board 1 1000 1"
WALL = 1_764_000_000_000_000
needs_seals = pytest.mark.skipif(importlib.util.find_spec("cryptography") is None, reason="there is no cryptography for this Python (apt-get install python3-cryptography)")


def blocks(lines: list[str]) -> list[list[str]]:
    """The block of each line."""
    found: list[list[str]] = [[]]
    for line in host("".join(line + "\n" for line in lines)).splitlines():
        found[-1].append(line)
        if line.startswith(("ok ", "refused ")):
            found.append([])
    return found[:-1]


def words_in(block: list[str]) -> list[str]:
    """What a block sends, in words."""
    read = [codec.read(bytes.fromhex(line.split()[1])) for line in block if line.startswith("send ")]
    return [words_of(it) for it in read if it]


def lines_of(step: dict[str, Any]) -> list[str]:
    """A step of a life, and that missing drawops get their timers."""
    comes = [step["comes"]] if "comes" in step else []
    return [f"tick {step['at']}", *comes, f"look {PAGE.creator} {PAGE.number}"]


@pytest.mark.parametrize("vector", [pytest.param(it, id=it["shows"]) for it in TIMERS["timers"]])
def test_life_by_the_program(vector: dict[str, Any]) -> None:
    said = blocks([f"{OPEN} {vector['seed']}", *(line for step in vector["steps"] for line in lines_of(step))])[1:]
    for step in vector["steps"]:
        mine, said = said[:len(lines_of(step))], said[len(lines_of(step)):]
        due = mine[-1][-1].split()[1]
        assert (words_in(mine[0]), due) == (step["sends"], "never" if step["due"] is None else str(step["due"])), step


@pytest.mark.parametrize("vector", [pytest.param(it, id=it["shows"]) for it in TIMERS["timers"]])
def test_life_by_the_member(vector: dict[str, Any]) -> None:
    numbers: list[int] = [number for step in vector["steps"] for number in step["random"]]
    member = silent(1)
    member.chance = lambda most: numbers.pop(0)
    for step in vector["steps"]:
        sent = member.tick(step["at"])
        if "hex" in step:
            member.come(step["at"], bytes.fromhex(step["hex"]))
        assert [words_of(it) for it in map(codec.read, sent) if it] == step["sends"]
        assert member.timer_due() == step["due"], step
    assert not numbers


@pytest.mark.parametrize("vector", TIMERS["round trips"], ids=str)
def test_round_trip(vector: dict[str, Any]) -> None:
    """The delay that an echo tells is that of the request timer that begins then: two delays, and a number from 0 to two more."""
    assert delay_of(vector["now"], vector["sent"], vector["held"]) == vector["delay"]
    echo = f"session-message 9 7 7/1 1@{vector['sent']}+{vector['held']}"
    delay = UNKNOWN_DELAY if vector["delay"] is None else vector["delay"]
    dues = [int(blocks([f"{OPEN} {seed}", f"tick {vector['now']}", echo, "ask 7 1 9 1"])[-1][-1].split()[1]) - vector["now"] for seed in range(1, 17)]
    assert all(2 * delay <= due <= 4 * delay for due in dues) and (max(dues) - min(dues)) * 4 >= delay


def test_echoes() -> None:
    vector = TIMERS["echoes"]
    lines = [line for it in vector["heard"] for line in (f"tick {it['at']}", it["words"])]
    assert words_in(blocks([f"{OPEN} 1", *lines, f"tick {vector['at']}", "session 0 0"])[-1]) == [vector["session message"]]


# ---- what is sealed


@needs_seals
def test_sealed_by_the_member() -> None:
    from .envelope import Seal

    ours, theirs = (Seal(SEALED["key"], SEALED["session"], bytes.fromhex(sender)) for sender in (SEALED["sender"], "00" * 8))
    for it in SEALED["datagrams"]:
        sealed = bytes.fromhex(it["sealed"])
        assert ours.wrap(bytes.fromhex(it["datagram"]), bytes.fromhex(it["nonce"])) == sealed
        assert [it.unwrap(sealed)[1].hex() for it in (theirs, theirs, ours)] == [it["datagram"], "", ""]
    assert [theirs.unwrap(bytes.fromhex(it["sealed"]))[1] for it in SEALED["dropped"]] == [b""] * len(SEALED["dropped"])
    counted = [envelope.SEALED + bytes(7) + b"\x09" + counter.to_bytes(8, "big") + b"x" for counter in (100, 36, 35, 100)]
    assert [theirs.unwrap(theirs.close(it))[1] for it in counted] == [b"x", b"x", b"", b""]


@needs_seals
def test_sealed_by_the_program() -> None:
    from live.carriers.sealed import Seal

    seal = Seal(SEALED["key"], SEALED["session"])
    for it in SEALED["datagrams"]:
        letter = seal.read(bytes.fromhex(it["sealed"]))
        assert letter and (letter.sender.hex(), letter.counter, letter.data.hex()) == (SEALED["sender"], it["counter"], it["datagram"])
    assert [seal.read(bytes.fromhex(it["sealed"])) for it in SEALED["dropped"]] == [None] * len(SEALED["dropped"])


def taken_by_live(given: bytes, seal: Any, fresh: bytes) -> list[bytes]:
    """What `wb-live` takes from a stream that gives these bytes."""
    from live.joining import Talk, datagrams_of

    here, there = socket.socketpair()
    with here:
        with there:
            there.sendall(given)
        talk = Talk(here, seal)
        talk.fresh = fresh
        return list(datagrams_of(talk, time.monotonic() + 10))


def asked_of_live(said: bytes, seal: Any, fresh: bytes) -> tuple[bool, bytes]:
    """Whether `wb-live` would give a stream for these bytes, and what it knows then of both sides."""
    from live.joining import Talk

    here, there = socket.socketpair()
    with here, there, pytest.MonkeyPatch.context() as patch:
        patch.setattr("os.urandom", lambda size: fresh)
        there.sendall(said)
        talk = Talk(here, seal)
        return talk.is_asked(time.monotonic() + 10), talk.fresh


def test_stream() -> None:
    vector = SEALED["stream without a key"]
    assert asked_of_live(bytes.fromhex(vector["question"]), None, b"")[0]
    assert taken_by_live(bytes.fromhex(vector["answer"]), None, b"") == DRAWOPS


def check_stream(vectors: dict[str, Any]) -> None:
    from live.carriers.sealed import Seal

    vector, seal = vectors["stream with the key"], Seal(vectors["key"], vectors["session"])
    assert asked_of_live(bytes.fromhex(vector["the asker's piece"]), seal, GIVEN) == (True, GIVEN + OURS)
    assert taken_by_live(bytes.fromhex(vector["the giver's piece"]), seal, GIVEN + OURS) == DRAWOPS


@needs_seals
def test_sealed_stream() -> None:
    check_stream(SEALED)


def test_tagged_stream() -> None:
    check_stream(TAGGED)


def check_datagrams(vectors: dict[str, Any], closed: str) -> None:
    """`wb-live` and the member that was written from the page take what is to be taken, and drop what is to be dropped."""
    from live.carriers.sealed import Letter, Seal

    live, sender = Seal(vectors["key"], vectors["session"]), bytes.fromhex(vectors["sender"])
    for it in vectors["datagrams"]:
        data = bytes.fromhex(it["datagram"])
        assert live.read(bytes.fromhex(it[closed])) == Letter(sender, it["counter"], data)
        assert envelope.Seal(vectors["key"], vectors["session"]).unwrap(bytes.fromhex(it[closed])) == (sender, data)
    for it in vectors["dropped"]:
        data = bytes.fromhex(it[closed])
        assert (live.read(data), envelope.Seal(vectors["key"], vectors["session"]).unwrap(data)) == (None, (b"", b"")), it["why"]


def test_tagged_datagrams() -> None:
    from live.carriers.sealed import Seal

    check_datagrams(TAGGED, "tagged")
    live, sender = Seal(TAGGED["key"], TAGGED["session"]), bytes.fromhex(TAGGED["sender"])
    live.sender = sender
    assert [live.send(bytes.fromhex(it["datagram"])).hex() for it in TAGGED["datagrams"]] == [it["tagged"] for it in TAGGED["datagrams"]]
    assert [key_for(TAGGED["key"], "ports-%d" % it["ports from"]) for it in TAGGED["keys of sessions"]] == [it["key"] for it in TAGGED["keys of sessions"]]


@needs_seals
def test_both_kinds_under_one_key() -> None:
    """Whoever has a key takes what is sealed and what is tagged under it."""
    from live.carriers.sealed import Seal

    key = TAGGED["key"][len(envelope.TAGS):]
    for text, it, closed in ((TAGGED["key"], SEALED["datagrams"][0], "sealed"), (key, TAGGED["datagrams"][0], "tagged")):
        data, wanted = bytes.fromhex(it[closed]), bytes.fromhex(it["datagram"])
        letter = Seal(text, TAGGED["session"]).read(data)
        assert letter and (letter.data, envelope.Seal(text, TAGGED["session"]).unwrap(data)[1]) == (wanted, wanted)


@needs_seals
def test_vectors_are_written(tmp_path: Path) -> None:
    """The files are those that `python3 -m tests.protocol.vectors` writes."""
    write_all(tmp_path)
    assert [path.name for path in tmp_path.iterdir() if path.read_text() != (VECTORS / path.name).read_text()] == []


# ---- the member by itself: what one legal datagram must not do


def test_own_numbers_and_times() -> None:
    """Marks of its number count while it listens; a number that is forged and a time that is far ahead never do."""
    mark = "574201050000001600000009000000070000000100010000000100000009"
    far = codec.Drawop(7, PAGE, 1, (1 << 64) - 1, codec.Text(0, 0, b"far"))
    for returns, now, number in ((False, 0, 1), (True, 0, 10), (True, LISTENING, 1)):
        member = Member(1, Random(1), WALL, returns)
        member.come(now, bytes.fromhex(mark))
        member.come(now, bytes.fromhex(mark[:-8] + "80000000"))
        member.come(now, codec.write(far))
        drawn = codec.read(member.draw(LISTENING, PAGE, codec.Text(0, 0, b"a")))
        assert isinstance(drawn, codec.Drawop) and (drawn.seq, drawn.time) == (number, WALL + LISTENING)


def test_old_timer() -> None:
    """A mark of its very number sets a timer of level 4 anew, and no other does."""
    member = silent(1)
    member.come(0, codec.write(codec.PageState(9, PAGE, (codec.Mark(7, 2),))))
    first, second = sorted(member.requests)
    for level in range(1, 5):
        member.come(member.requests[second].due, codec.write(codec.PageState(9, PAGE, (codec.Mark(7, 2),))))
        member.tick(max(timer.due for timer in member.requests.values()))
        assert [member.requests[it].level for it in (first, second)] == [level, level]
    member.come(1 << 30, codec.write(codec.PageState(9, PAGE, (codec.Mark(7, 2),))))
    assert [member.requests[it].level for it in (first, second)] == [4, 0]


def test_strangers() -> None:
    """An origin that echoes a moment of ours is a member's, and its number stays there."""
    member, drawop = silent(1), codec.write(codec.Drawop(7, PAGE, 1, 1, codec.Text(0, 0, b"a")))
    member.come(5, drawop, "here")
    assert member.count() == 0
    echo = codec.Echo(1, member.report(5).sent, 0)
    member.come(6, codec.write(codec.SessionMessage(7, 9, PAGE, (), (echo,))), "here")
    member.come(7, drawop, "here")
    member.come(8, codec.write(codec.SessionMessage(7, 9, PAGE, (codec.Mark(7, 5),), ())), "elsewhere")
    assert (member.count(), member.lacking()) == (1, [])


def test_many_echoes() -> None:
    """Of 32 members, in turn, and of a twin besides; whoever has echoed us is among them each time."""
    member = silent(1)
    for number in range(1, 42):
        member.come(number, codec.write(codec.SessionMessage(number, 9, PAGE, (), ())))
    assert [it.source for it in member.report(99).echoes] == [1, *range(2, 34)]
    member.delays[30] = 20_000
    assert [it.source for it in member.report(99).echoes] == [1, *range(2, 25), 30, *range(34, 42)]
