"""What people read: the help, and the example of a driver."""

from __future__ import annotations

import os
import subprocess
import sys

import pytest

from .program import PATIENCE, TOP, program

SENT = """\
0.000 s  member 1 send draw 1 1/1 1 0 frame 0 0 25 4 #
0.000 s  member 1 send draw 1 1/1 2 0 text 2 1 "Tuesday"
0.000 s  member 1 send draw 1 1/1 3 0 line 2 2 23 2 -  (lost)
0.000 s  member 1 send draw 1 1/1 4 0 text 2 3 "at three"
0.000 s  member 2 send draw 2 1/1 1 0 text 12 3 "I will come"
0.000 s  member 1 send session-message 1 0 1/1 1=4
0.000 s  member 2 send session-message 2 0 1/1 2=1
0.418 s  member 2 send request 2 1 1/1 3
0.542 s  member 1 send draw 1 1/1 3 0 line 2 2 23 2 -  (lost)
1.000 s  member 1 send session-message 1 1000000 1/1 1=4 2=1 2@0+980000
1.000 s  member 2 send session-message 2 1000000 1/1 1=4 2=1 1@0+980000
1.157 s  member 2 send request 2 1 1/1 3
1.211 s  member 1 send draw 1 1/1 3 0 line 2 2 23 2 -
"""
PAGE = """\
##########################
# Tuesday                #
# ---------------------- #
# at three  I will come  #
##########################
"""


def test_example() -> None:
    """Two hosts hold a session, and both show the page in the end. Its moments follow from the seeds of its boards."""
    environment = {**os.environ, "WB_PROGRAM": program()}
    command = [sys.executable, str(TOP / "examples" / "session.py")]
    ended = subprocess.run(command, env=environment, capture_output=True, text=True, timeout=PATIENCE, check=False)
    want = f"{SENT}both show\n{PAGE}"
    assert (ended.returncode, ended.stderr) == (0, ""), "examples/session.py"
    assert ended.stdout == want, "what examples/session.py prints"


@pytest.mark.parametrize("words", [["host", "--help"], ["--help"]], ids=" ".join)
def test_help_names_the_page(words: list[str]) -> None:
    told = subprocess.run([program(), *words], capture_output=True, text=True, check=False)
    assert "docs/HOST.md" in told.stdout + told.stderr
