"""Lines of README, CLASS and LIVE, typed as they stand, in a network and a folder of their own."""
from __future__ import annotations

import os
import re
import shlex
import shutil
import subprocess
import tempfile
from pathlib import Path
from typing import Iterator, List

import pytest

from ..documents.shell import shell_lines
from ..facts import Facts
from .inside import run_inside, way_inside
from .members import TOP, Process
from .test_guests import Window, rows_are


@pytest.fixture(autouse=True)
def empty_folder() -> Iterator[Path]:
    """The folder in which the lines are typed."""
    here = os.getcwd()
    with tempfile.TemporaryDirectory() as folder:
        os.chdir(folder)
        try:
            yield Path(folder)
        finally:
            os.chdir(here)


def typed(page: str, words: str) -> Process:
    """A start by the line of a page that has these words. The archive's `bin/wb-live` is the same program."""
    [line] = {it for it in shell_lines(page) if it.split(" ", 1)[-1] == words or it == words}
    command, *rest = shlex.split(line)
    assert command in ("./wb-live", "bin/wb-live"), line
    return Process(rest, web=False, environment={"XDG_STATE_HOME": os.getcwd()}, closed=True)


@pytest.mark.inside
def test_class(facts: Facts, empty_folder: Path) -> None:
    """A class draws, ends and goes on at its address; another one beside it shares nothing; and the first is shown as a film."""
    page, monday, other = "docs/CLASS.md", "--web 0.0.0.0:8050 --record monday.record", "--web 0.0.0.0:8051 --record other.record"
    one, two = typed(page, monday), typed(page, other)
    address = one.token
    facts("the class draws", Window(one).draw("1/1", "line 0 0 3 0 a")[0], 200)
    facts("and shows it", Window(one).look().wait_for(rows_are(["aaaa"])), True)
    facts("another class has nothing of it", Window(two).look().wait_for(rows_are(["aaaa"]), 2), False)
    facts("both end with 0", [one.end(), two.end()], [0, 0])
    facts("each has its file", sorted(path.name for path in empty_folder.glob("*.record")), ["monday.record", "other.record"])
    one = typed(page, monday)
    facts("the class goes on, at the same address", (Window(one).look().wait_for(rows_are(["aaaa"])), one.token == address), (True, True))
    facts("and ends with 0", one.end(), 0)
    film = typed("docs/LIVE.md", "--replay monday.record")
    facts("its film has scenes", film.wait_for(lambda states: states["scenes"]), True)
    facts("and ends with 0", film.end(), 0)


@pytest.mark.inside
def test_two_members(facts: Facts) -> None:
    """Two members draw with one another, one over a bad network, beside a class that hears neither."""
    starts: List[Process] = [typed("README.md", "bin/wb-live"), typed("docs/LIVE.md", "--lose 0.3 --delay 200 --twice 0.1 --mix --teach"), typed("docs/LIVE.md", "--web 0.0.0.0:8050")]
    try:
        facts("one draws", starts[0].draw("1/1", "line 0 0 3 0 a")[0], 200)
        facts("and the other shows it", starts[1].wait_for(rows_are(["aaaa"])), True)
        facts("a class beside them does not", Window(starts[2]).look().wait_for(rows_are(["aaaa"]), 2), False)
    finally:
        facts("each ends with 0", [start.end() for start in starts], [0] * len(starts))
    again = typed("README.md", "--web 0.0.0.0:8050")
    facts("the class of README draws", Window(again).draw("1/1", "line 0 0 3 0 b")[0], 200)
    facts("and ends with 0", again.end(), 0)


def test_service(tmp_path: Path) -> None:
    """The unit is one that systemd takes, with a program that is there."""
    checker = shutil.which("systemd-analyze")
    if not checker:
        pytest.skip("there is no systemd-analyze: apt-get install systemd")
    block = re.search("(?m)^    # /etc/systemd/system/wb-live.service\n((?:    .*\n)+)", (TOP / "docs" / "LIVE.md").read_text())
    assert block
    unit = tmp_path / "wb-live.service"
    unit.write_text(block[1].replace("    ", "").replace("/usr/local/bin/wb-live", str(TOP / "wb-live")))
    ran = subprocess.run([checker, "verify", "--man=no", str(unit)], capture_output=True, text=True, check=False)
    assert (ran.returncode, unit.name in ran.stderr) == (0, False), ran.stderr


def test_inside() -> None:
    way = way_inside()
    if not way:
        pytest.skip("no network of its own can be had here (unshare)")
    run_inside(__file__, way)
