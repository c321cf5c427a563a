"""Lines that are refused: each has one line for its block, and changes nothing."""

from __future__ import annotations

import functools

import pytest

from . import datagrams
from .datagrams import Mark, page_state, session
from .faults import AFTER, BEFORE, LONGEST, STARS, mistyped, no_datagrams, wrong_words
from .program import host

AT_THIS_HOST = {
    "board 1 16 1 42": "second board",
    "tick 999": "back in time",
    'say draw 2 7/1 1 11 text 0 0 "hi"': "member",
    "#" * (LONGEST + 1): "endless",
}
REFUSED = mistyped() | no_datagrams() | wrong_words() | AT_THIS_HOST


def full_of_marks(sources: int) -> str:
    """Lines that report marks of this many sources of page 4/4, as many a line as fit it."""
    lines = ""
    for first in range(0, sources, 4000):
        marks: list[Mark] = [(source, 1) for source in range(first, min(first + 4000, sources))]
        lines += f"datagram {page_state(9, (4, 4), marks)}\n"
    return lines


def blocks_of(printed: str) -> list[str]:
    """The blocks of a transcript in which no row of a canvas looks like a closing line."""
    blocks = [""]
    for line in printed.splitlines(keepends=True):
        blocks[-1] += line
        if line.startswith(("ok ", "refused ")):
            blocks.append("")
    return blocks


@functools.cache
def blocks_before_and_after(before: str) -> list[str]:
    return blocks_of(host(before + AFTER))


def short(line: str) -> str:
    return line if len(line) < 60 else f"{line[:40]}.. of {len(line)} bytes"


def check_refusal(before: str, line: str, fault: str) -> None:
    """What comes after a refused line is what comes where it was never given, and its block is one line."""
    blocks, lines = blocks_before_and_after(before), before.count("\n")
    assert blocks_of(host(f"{before}{line}\n{AFTER}")) == [*blocks[:lines], f"refused {fault}\n", *blocks[lines:]]


def test_host_is_busy() -> None:
    assert host(BEFORE).splitlines()[-2] == "look 7"


@pytest.mark.parametrize("line", [pytest.param(line, id=short(line)) for line in REFUSED])
def test_refused(line: str) -> None:
    check_refusal(BEFORE, line, REFUSED[line])


def test_no_further_number() -> None:
    check_refusal(f"{BEFORE}draw 1 7/1 4294967295 1 delete 7 9\n", "next 7 1", "too many")


def test_no_further_mark() -> None:
    too_many = session(8, 5, (4, 4), [(65_534, 9), (65_535, 1)], [])
    check_refusal(BEFORE + full_of_marks(65_535), f"datagram {too_many}", "too many")


def test_without_board() -> None:
    """Before there is a board a line is refused for itself first, and a board can still be opened."""
    questions = ["show 7 1 5 5", "look 7 1", "session 7 1", "gaps 7 1", "report 7 1", "pages", "known", "next 7 1"]
    questions += ["view 7 1", "ask 7 1 7 1", "stop 7 1 7 1", "tick 5", "distance 7 5", f"arrive {STARS}", "ask-pages 8"]
    questions += ["say ask-pages 1", f"datagram {STARS}", f"hear {datagrams.ask_pages(8)}", "draw 7 7/1 1 1 delete 7 2"]
    for line in questions:
        assert host(f"{line}\nboard 1 16 1 42\n") == "refused no board\nok never\n", f"without a board, {line[:20]}"
    for line, fault in [("fly", "unknown"), ("tick x", "number"), ("say hello", "word 1: unknown"), ("datagram 5", "hex")]:
        assert host(f"{line}\npages\n") == f"refused {fault}\nrefused no board\n", f"without a board, {line}"
    assert host("version 1\nversion\npages\n") == "refused words\nversion 1\nok never\nrefused no board\n", "the number needs no board"
