"""Records: what a host was given replays, line by line and at once; and the constants of the timers."""

from __future__ import annotations

import pytest

from .datagrams import Words, drawn
from .program import Dialog, Ended, host, run
from .scripts import Writer

words = Words(42)
WORDS = [words.next() for _ in range(2)]
# each with its four constants
TUNINGS = [
    ([], (2, 2, 1, 1)),
    (["--tuning", "2,2,1,1"], (2, 2, 1, 1)),
    (["--tuning", "1,1,1,1"], (1, 1, 1, 1)),
    (["--tuning=3,5,7,11"], (3, 5, 7, 11)),
    (["--tuning", "16,16,16,16"], (16, 16, 16, 16)),
]
WRONG = ["", "2", "2,2,1", "2,2,1,1,1", "0,2,1,1", "2,2,1,17", "2,2,1,x", "2,,1,1", "2,2,1,1,", " 2,2,1,1", "2,2,1,-1"]
WRONG += ["2 2 1 1", "2;2;1;1", "2,2,1,1.0", "2,2,1,4294967298", "2,2,1,1\n"]
MISTAKEN = [["host", "--tuning", word] for word in WRONG]
MISTAKEN += [["host", "--tuning"], ["host", "--tuning", "2", "2", "1", "1"], ["host", "2,2,1,1"], ["host", "--workers", "1"]]


def test_replay() -> None:
    """A stream prints what the same lines give one by one, and so does a second run."""
    writer = Writer(2026)
    lines = writer.script(150)
    lines[40:40] = ["# a comment", "", "fly", "known", "next 7 1", 'say draw 1 7/1 99 5 text 0 0 "hi"', "view 7 1"]
    dialog = Dialog()
    answered = "".join(dialog.ask(line) for line in lines)
    assert dialog.end() == Ended(0, b"", b""), "the end of a host that was asked line by line"
    record = "".join(f"{line}\n" for line in lines)
    assert host(record) == answered, "a record replays"
    assert host(record) == answered, "a record replays again"
    cut = record[: record.index("\n", len(record) // 2) + 1]
    assert answered.startswith(host(cut)), "a front of a record gives a front"
    accepted = [line for line in lines if line != "fly"]
    without = answered.replace("refused unknown\n", "")
    assert host("".join(f"{line}\n" for line in accepted)) == without, "the accepted lines alone"


@pytest.mark.parametrize("words, constants", TUNINGS, ids=lambda it: " ".join(map(str, it)))
def test_tuning(words: list[str], constants: tuple[int, int, int, int]) -> None:
    """The constants of the timers, in one word."""
    lines = "board 1 16 1 42\ndraw 7 7/1 1 1 line 0 0 0 0 x\nask 7 1 7 2\nstop 7 1 7 2\nrequest 9 7 7/1 1\n"
    c1, c2, d1, d2 = constants
    asked, answered = drawn(0, 100_000, WORDS[0], c1, c2), drawn(0, 100_000, WORDS[1], d1, d2)
    assert host(lines, *words) == f"ok never\nbatch 1 0 0 0\nok never\nask 1\nok {asked}\nstop 1\nok never\nok {answered}\n"


def mistaken(*words: str) -> tuple[int, bytes, int]:
    """How the program ends with words that it does not understand: its status, what it prints, and how many errors it tells."""
    ended = run(list(words), b"board 1 16 1 42\n")
    return ended.status, ended.printed, ended.errors.count(b"error: ")


@pytest.mark.parametrize("words", MISTAKEN, ids=" ".join)
def test_mistaken(words: list[str]) -> None:
    assert mistaken(*words) == (2, b"", 1)
