"""The whole table of cases on the crate wb_judge. A small program over the crate is built with checks while it runs, and is not proved. It
reads a line for each step, and writes what the step gives.

`pytest tests/judging --keep FILE` keeps the program, and where FILE is there already, takes it and builds nothing.
"""

from __future__ import annotations

import shutil
import subprocess
from pathlib import Path
from typing import Any, Dict

import pytest

from .cases import cases
from .table import FACTS, each_of

TOP = Path(__file__).resolve().parents[2]
CRATES = ["wb_judge", "wb_words", "wb_codec", "wb_names"]

pytestmark = [
    pytest.mark.xdist_group("judging"),
    pytest.mark.skipif(not shutil.which("rt"), reason="there is no command rt of the toolchain"),
]

Step = Dict[str, Any]


class Numbers:
    """A number for each text: the program knows no texts."""

    def __init__(self) -> None:
        self.numbers: Dict[str, int] = {}

    def of(self, text: str) -> int:
        return self.numbers.setdefault(text, len(self.numbers) + 1)


class Spoken:
    """The lines of a case, and what each of them has to give."""

    def __init__(self) -> None:
        self.places, self.owners = Numbers(), Numbers()

    def owner(self, text: Any) -> str:
        return "-" if text is None else str(self.owners.of(text))

    def origin(self, text: str) -> str:
        if not text.startswith("kept/"):
            return "%d -" % self.places.of(text)
        return "%d %s" % (self.places.of(text), self.owner(text.split("/")[1]))

    def start(self, judge: Step) -> str:
        strangers = judge.get("strangers")
        most = "-" if strangers is None else str(strangers)
        return "judge %d %d %d %d %s %s" % (judge["now"], judge["me"], judge["cells"], judge["wall"], self.owner(judge.get("here")), most)

    def line(self, step: Step) -> str:
        """The kind of a step, its moment, and what it tells."""
        now = step["now"]
        if "came" in step:
            facts = [int(step.get(fact, 0)) for fact in FACTS]
            return "came %d %s %d %d %d %d %d %d | %s" % (now, self.origin(step["from"]), *facts, step["came"])
        if "add" in step:
            return "add %d %d %d" % (now, step["add"] == "drawing", step.get("held", 0))
        if "wall" in step:
            return "wall %d %d" % (now, step["wall"])
        for kind in ("known", "gone"):
            if kind in step:
                return "%s %d %s" % (kind, now, self.origin(step[kind]))
        if "heard" in step:
            return "heard %d %d" % (now, step["heard"])
        if "owner" in step:
            return "owner %d %d %s" % (now, int(step["owner"]), self.origin(step["from"]))
        if "record" in step:
            return "record %d %s" % (now, numbers_of(step["record"]))
        if "pages" in step:
            return "pages %d %s" % (now, " ".join(map(numbers_of, step["pages"])))
        return "%s %d" % (next(kind for kind in ("sent", "echo", "time", "strange") if kind in step), now)

    def want(self, step: Step) -> str:
        want = step.get("want", "ok")
        if isinstance(want, bool):
            return str(int(want))
        if isinstance(want, list):
            return " ".join(want)
        front, fetches, lacking = str(want).partition(", fetch ")
        return front if not fetches else "%s, fetch %d %s" % (front, self.places.of(step["from"]), lacking.split(" ")[-1])


def numbers_of(name: str) -> str:
    return name.replace("/", " ")


def build(room: Path) -> Path:
    """The program, in a workspace of its own."""
    folder, program = room / "crates" / "wb" / "src", room / "table"
    subprocess.run([str(TOP / "tools" / "vendor"), str(room), *CRATES], check=True, capture_output=True)
    folder.mkdir(parents=True)
    shutil.copy(TOP / "tests" / "judging" / "program" / "main.rt.in", folder / "main.rt")
    with open(room / "crates.txt", "a", encoding="utf-8") as crates:
        crates.write("wb: %s\n" % " ".join(CRATES))
    ran = subprocess.run([str(TOP / "tools" / "unproved"), "--of", str(room), str(program)], capture_output=True, text=True, check=False)
    assert program.exists(), ran.stderr[-4000:]
    return program


@pytest.fixture(scope="module")
def program(tmp_path_factory: pytest.TempPathFactory, request: pytest.FixtureRequest) -> Path:
    kept = request.config.getoption("--keep")
    if kept and Path(kept).exists():
        return Path(kept).resolve()
    built = build(tmp_path_factory.mktemp("judging"))
    return Path(shutil.copy(built, kept)) if kept else built


@pytest.mark.parametrize("case", cases(), ids=[case["name"] for case in cases()])
def test_case(program: Path, case: Dict[str, Any]) -> None:
    """Each step gives what the table says."""
    spoken = Spoken()
    steps = [one for step in case["steps"] for one in each_of(step)]
    lines = [spoken.start(case["judge"]), *map(spoken.line, steps)]
    wanted = ["ok", *map(spoken.want, steps)]
    said = "".join(line + "\n" for line in lines)
    ran = subprocess.run([str(program)], input=said, stdout=subprocess.PIPE, text=True, check=False, timeout=120)
    given = ran.stdout.split("\n")[:-1]
    wrong = [(line, gave, want) for line, gave, want in zip(lines, given, wanted) if gave != want]
    assert (wrong[:1], len(given), ran.returncode) == ([], len(wanted), 0)
