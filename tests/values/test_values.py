"""The tests of tests/value_cases, in a workspace of their own to which tools/vendor copies what they stand on: they are built with checks while they
run, and not proved. Then each growth of memory, or each start of a thread, of those that are marked is refused.

`pytest tests/values --keep FILE` keeps the program of these tests, and where FILE is there already, takes it and builds nothing.
"""

from __future__ import annotations

import filecmp
import os
import re
import shutil
import subprocess
from pathlib import Path
from typing import NamedTuple

import pytest

from ..host.memory import library

TOP = Path(__file__).resolve().parents[2]
CASES = TOP / "tests/value_cases"
CRATES = "wb_script wb_commands wb_lines wb_filters wb_words wb_codec wb_gaps wb_display wb_recovery wb_history wb_board wb_keeper wb_feed wb_random wb_member wb_policy wb_keeping wb_judge wb_judging wb_names"
TESTS = "wb_value_tests"
PATIENCE = 60  # seconds of one run
SPARED = 20  # runs that come to nothing which is refused, until no further one is tried

pytestmark = [
    pytest.mark.xdist_group("values"),
    pytest.mark.timeout(3600),
    pytest.mark.skipif(not shutil.which("rt"), reason="there is no command rt of the toolchain"),
]

# before a test that accepts a refusal anywhere, checks that nothing changed, and calls again
MARK = re.compile(r"^// refused: (growth(?:, start)?)\n#\[test\]\nfn (\w+)", re.MULTILINE)
MARKED = [(kind.upper(), f"{file.relative_to(CASES).as_posix().replace('.rt.in', '').replace('/', '::')}::{name}")
          for file in sorted(CASES.rglob("*.rt.in")) for kinds, name in MARK.findall(file.read_text()) for kind in kinds.split(", ")]


class Built(NamedTuple):
    """The program of the tests, and what was printed of each while it was built; nothing if it was there already."""

    program: Path
    said: str


def make_workspace(room: Path) -> None:
    """A crate of tests has the files without their '.in'."""
    subprocess.run([TOP / "tools/vendor", room, *CRATES.split()], check=True, capture_output=True)
    with (room / "crates.txt").open("a") as crates:
        crates.write(f"{TESTS} tests_may=Threads+Wait: {CRATES} indexmap\n")
    for file in CASES.rglob("*.rt.in"):
        to = room / "crates" / TESTS / "src" / file.relative_to(CASES).with_suffix("")
        to.parent.mkdir(parents=True, exist_ok=True)
        shutil.copy(file, to)


@pytest.fixture(scope="module")
def workspace(tmp_path_factory: pytest.TempPathFactory) -> Path:
    room = tmp_path_factory.mktemp("values")
    make_workspace(room)
    return room


@pytest.fixture(scope="module")
def built(workspace: Path, request: pytest.FixtureRequest) -> Built:
    kept = request.config.getoption("--keep")
    program = Path(kept).resolve() if kept else workspace / "tests"
    if program.exists():
        return Built(program, "")
    ran = subprocess.run([TOP / "tools/unproved", "--of", workspace, "--tests", TESTS, program], capture_output=True, text=True, check=False)
    assert program.exists(), ran.stderr[-4000:]
    return Built(program, ran.stdout)


def test_layout(workspace: Path, tmp_path: Path) -> None:
    """The files are laid out as those of each crate."""
    shutil.copytree(workspace / "crates" / TESTS / "src", tmp_path / "src")
    shutil.copy(workspace / "crates.txt", tmp_path)
    subprocess.run(["rt", "fmt"], cwd=workspace / "crates" / TESTS, check=True, capture_output=True)
    files = [it.relative_to(tmp_path / "src") for it in (tmp_path / "src").rglob("*.rt")]
    assert [it for it in files if not filecmp.cmp(tmp_path / "src" / it, workspace / "crates" / TESTS / "src" / it, shallow=False)] == []


def test_values(built: Built) -> None:
    """Each test passed."""
    if not built.said:
        pytest.skip("the program of the tests was there already, so they were run when it was built")
    told = re.findall(r"^test (\S+) \.\.\. (.*)$", built.said, re.MULTILINE)
    assert len(told) > 150, built.said[-4000:]
    assert [name for name, end in told if end != "ok"] == [], built.said[-8000:]
    assert re.search(r"\b0 failed", built.said), built.said[-4000:]


@pytest.fixture(scope="module")
def refusing(tmp_path_factory: pytest.TempPathFactory) -> Path:
    found = library(tmp_path_factory.mktemp("refusing"))
    assert found
    return found


@pytest.fixture(scope="module")
def names(built: Built) -> list[str]:
    """The whole name of each test that is built."""
    listed = subprocess.run([built.program, "--list"], stdout=subprocess.PIPE, stderr=subprocess.DEVNULL, text=True, check=False).stdout
    return re.findall(r"^(.*): test$", listed, re.MULTILINE)


@pytest.mark.parametrize("kind, test", MARKED)
def test_refused(built: Built, refusing: Path, names: list[str], kind: str, test: str) -> None:
    """With its first, second, .. growth or start refused, one a run, until no run comes to the one that is to be refused."""
    name = next((it for it in names if it == test or it.endswith(f"::{test}")), None)
    assert name, "it is not built"
    last, number, spared = 0, 1, 0
    # of a test with threads not each run has as many, so that one which ends early decides nothing
    while spared < SPARED:
        environment = {**os.environ, f"REFUSED_{kind}": str(number), "LD_PRELOAD": str(refusing)}
        ran = subprocess.run([built.program, name], env=environment, stdin=subprocess.DEVNULL, stdout=subprocess.PIPE, stderr=subprocess.STDOUT,
                             timeout=PATIENCE, check=False)
        assert ran.returncode == 0, f"{kind} {number} is refused: {ran.stdout.decode(errors='replace')}"
        last, spared = (number, 0) if b"refused" in ran.stdout.splitlines() else (last, spared + 1)
        number += 1
    assert last > 0, "it comes to nothing that could be refused"
