"""Whole scripts by each number of workers: what they print and how they end was worked out by hand. Each is then checked, which says the same of its lines."""

from __future__ import annotations

import pytest

from ..host.program import Ended, run
from .table import DRAWN, KNOWN, NOT_WORDED, ORDERS, RANDOM, REFUSED, VERSIONS, WORDED, Script

WORKERS = range(1, 9)
# the most lines of a script
MOST_LINES = 1_048_576
# faults that a line has only where it is run
OF_RUNS = ("no board", "second board", "back in time", "too many")


def given(script: Script, workers: int) -> bytes:
    return (script.lines.strip("\n").replace(" W ", f" {workers} ") + "\n").encode()


def ended(text: bytes, ends: str) -> Ended:
    return Ended(1, text, f"{ends}\n".encode()) if ends else Ended(0, text, b"")


def otherwise(script: Script) -> dict[str, Ended]:
    """The runs of a script that print or end otherwise than it is to, by how many workers there are and who says so."""
    found = {}
    for workers in WORKERS:
        found[f"{workers} by the board"] = run(["run"], given(script, workers))
        found[f"{workers} by a word"] = run(["run", "--workers", str(workers)], given(script, 1))
    want = ended("".join(f"{line}\n" for line in script.prints.splitlines()).encode(), script.ends)
    return {how: end for how, end in found.items() if end != want}


def by_bytes_alone(script: Script) -> Script:
    """The same script, in which no line says whether its datagram arrives or is heard."""
    lines = script.lines.replace("arrive ", "datagram ").replace("hear ", "datagram ")
    return Script(f"{script.shows}, by `datagram` alone", lines, script.prints, script.ends)


def checked(script: Script) -> Ended:
    """How a check of a script is to end."""
    if script.ends and script.ends.split(": ", 2)[2] not in OF_RUNS:
        return ended(b"", script.ends)
    return ended(b"ok %d\n" % given(script, 1).count(b"\n"), "")


SCRIPTS = DRAWN + ORDERS + KNOWN + RANDOM + REFUSED + VERSIONS + WORDED + NOT_WORDED
SCRIPTS += [by_bytes_alone(script) for script in DRAWN + KNOWN + RANDOM + VERSIONS]


@pytest.mark.parametrize("script", SCRIPTS, ids=[it.shows for it in SCRIPTS])
def test_script(script: Script) -> None:
    assert otherwise(script) == {}


@pytest.mark.parametrize("script", SCRIPTS, ids=[it.shows for it in SCRIPTS])
def test_checked(script: Script) -> None:
    assert run(["check"], given(script, 1)) == checked(script)


def test_as_many_lines_as_there_may_be() -> None:
    most = b"\n" * MOST_LINES
    assert run(["run"], most) == ended(b"", "")
    assert run(["check"], most) == ended(b"ok %d\n" % MOST_LINES, "")


@pytest.mark.parametrize("word", ["run", "check"])
def test_one_line_more(word: str) -> None:
    assert run([word], b"\n" * MOST_LINES + b"#") == ended(b"", "wb: endless")
