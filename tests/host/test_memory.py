"""Memory that is refused: each growth of a host in turn."""

from __future__ import annotations

import os
import subprocess
from pathlib import Path

import pytest

from .memory import library
from .program import PATIENCE, Ended, program

MOST = 20_000  # growths
LINES = b"""board 1 16 1 42
draw 7 7/1 2 20 line 0 0 4 0 +
session-message 9 100 7/1 8=2
look 7 1
request 9 7 7/1 2
tick 500000
say draw 1 7/1 1 30 text 1 1 "yes"
ask 7 1 9 9
stop 7 1 9 9
next 7 1
view 7 1
known
show 7 1 5 2
gaps 7 1
report 7 1
digest 7 1
session 7 1
hear 574201040000000400000009
draw 7 7/1
fly
"""


JUDGED = b"""board 1 64 1 42
judge 0 4000 300 1764000000000000 9 1
held draw 8 7/1 1 1764000000000000 line 0 0 4 0 +
held say draw 1 7/1 1 5 text 1 1 "yes"
came 10 5@9 57420101000000220000000700000007000000010000000100064459416240000100000000000400002a
came 11 5 5742
came 12 6@10 574201040000000400000001
add 400 7/1 line 0 0 4 0 *
tick 34890
came 40000 888 574201020000002c00000009000000000000000500000001000000010000000100000001000000000000884a0000000000000064
wall 50000 1764000000050000
members
list 9
view 7 1
gone 60000 888
look 7 1
"""


def run_refused(loaded: Path, given: bytes, number: int) -> tuple[bool, Ended]:
    """Whether the growth of this number came, and how the host ended where it was refused."""
    environment = {**os.environ, "REFUSED_GROWTH": str(number), "LD_PRELOAD": str(loaded)}
    command = [program(), "host"]
    ended = subprocess.run(command, input=given, env=environment, capture_output=True, timeout=PATIENCE, check=False)
    refused, errors = ended.stderr.count(b"refused\n"), ended.stderr.replace(b"refused\n", b"")
    return refused > 0, Ended(ended.returncode, ended.stdout, errors)


def is_right(ended: Ended, whole: bytes) -> bool:
    """It ends with 4 behind a front of what it would print, or it did without and changed nothing."""
    if ended.status == 0:
        return ended.printed == whole and ended.errors == b""
    return ended.status == 4 and whole.startswith(ended.printed) and ended.errors in (b"wb: memory\n", b"")


@pytest.mark.parametrize("given", [LINES, JUDGED], ids=["any host", "a judged host"])
def test_each_growth_may_be_refused(tmp_path: Path, given: bytes) -> None:
    loaded = library(tmp_path)
    if loaded is None:
        pytest.skip("there is no command rt of the toolchain, which has the compiler of C")
    whole = run_refused(loaded, given, 0)[1].printed
    number = 1
    came, ended = run_refused(loaded, given, number)
    while came and is_right(ended, whole) and number < MOST:
        number += 1
        came, ended = run_refused(loaded, given, number)
    if number == 1 and not came and "WB_PROGRAM" in os.environ:
        pytest.skip("the program that WB_PROGRAM names takes its memory in another way")
    assert not came, f"growth {number} is refused, and then {ended}"
    assert number > len(given.splitlines())
