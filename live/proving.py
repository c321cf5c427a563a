"""The program that a member serves by. Until it is proved that is a build that is not, with the proof beside it; when the proof is
done, the member changes over to the proved program."""
from __future__ import annotations

import contextlib
import os
import subprocess
import sys
import threading
from dataclasses import dataclass
from pathlib import Path
from typing import Any, Callable, Dict, List, Tuple

from wbhost import LAUNCHER, prove_program

# seconds between two looks at how far the proof is
PAUSE = 0.5

# parts of the bar that a terminal shows
WIDTH = 20

UNPROVED = "NOT PROVED YET: this board runs by a build that is checked while it runs. "
BESIDE = "The proof goes on beside it; when it is done, this member changes over to the proved program."
ALONE = "./wb --where proves the program."
CHANGED = "The program is proved now, and this member has changed over to it from its record."


def find_now() -> Tuple[str, bool]:
    """A program that is there at once, and whether it is the proved one. The one that WB_PROGRAM names is its owner's to judge."""
    named = os.environ.get("WB_PROGRAM")
    if named:
        return named, True
    found = subprocess.run([str(LAUNCHER), "--now"], stdout=subprocess.PIPE, check=False)
    word, _, path = found.stdout.decode().strip().partition(" ")
    if found.returncode != 0 or word not in ("proved", "unproved"):
        # another toolchain may have no such build: then a start waits for the proof
        return prove_program(), True
    return path, word == "proved"


@dataclass(frozen=True)
class Stage:
    """What people see of the proof: which crates are proved, of how many, the minutes that it took so far, and what is at work."""

    program: str
    is_proved: bool
    crates: int = 0
    many: int = 0
    minutes: int = 0
    at: str = ""
    fault: str = ""
    has_changed: bool = False  # over to the proved program, while it ran
    is_beside: bool = True  # the proof goes on
    build: int = 0  # tells builds apart that have one path

    def text(self) -> str:
        if self.is_proved:
            return CHANGED if self.has_changed else ""
        if self.fault:
            return "NOT PROVED: %s. This board goes on by a build that is checked while it runs." % self.fault
        return UNPROVED + (BESIDE if self.is_beside else ALONE)

    def progress(self) -> str:
        """As `5 of 13 crates proved, 12 min: wb_board 34 of 128`."""
        if self.is_proved or self.fault or not self.many:
            return ""
        return "%d of %d crates proved, %d min%s" % (self.crates, self.many, self.minutes, self.at and ": " + self.at)

    def bar(self) -> str:
        filled = WIDTH * self.crates // max(1, self.many)
        return "[%s%s]" % ("#" * filled, "." * (WIDTH - filled))

    def told(self) -> Dict[str, Any]:
        """For views."""
        return {"proved": self.is_proved, "text": self.text(), "progress": self.progress(), "crates": self.crates, "many": self.many}


def read_progress(path: Path) -> Tuple[int, int, int, str]:
    """How far the proof is, as the launcher writes it: `5 13 12 wb_board 34 of 128`."""
    try:
        words = path.read_text().split(None, 3)
        return int(words[0]), int(words[1]), int(words[2]), words[3].strip() if len(words) > 3 else ""
    except (OSError, ValueError, IndexError):
        return 0, 0, 0, ""


def build_of(program: str) -> int:
    """A number that is another one where a build was replaced by a faster one."""
    try:
        return os.stat(program).st_ino
    except OSError:
        return 0


class Proof:
    """The proof beside a session, which ends with it. One thread looks how far it is, and tells each stage."""

    def __init__(self, program: str, tell: Callable[[Stage], None]) -> None:
        self.stage = Stage(program, False, build=build_of(program))
        self.tell = tell
        self.kept = LAUNCHER.parent / "out"
        self.said: List[str] = []
        self.process = subprocess.Popen(
            ["nice", "-n", "10", str(LAUNCHER), "--beside", "%d" % os.getpid()], stdin=subprocess.DEVNULL, stdout=subprocess.DEVNULL,
            stderr=subprocess.PIPE, text=True, start_new_session=True,
        )
        self.hearing = threading.Thread(target=self.hear, daemon=True)
        self.hearing.start()
        threading.Thread(target=self.watch, daemon=True).start()

    def hear(self) -> None:
        """Takes in what the launcher says, of which the last line tells a fault."""
        assert self.process.stderr is not None
        for line in self.process.stderr:
            self.said = [*self.said[-4:], line.strip()]

    def watch(self) -> None:
        """Tells each new stage, until the proof has ended."""
        while self.process.poll() is None:
            crates, many, minutes, at = read_progress(self.kept / "progress")
            stage = Stage(self.stage.program, False, crates, many, minutes, at, build=build_of(self.stage.program))
            if stage != self.stage:
                self.tell(stage)
            self.stage = stage
            try:
                self.process.wait(PAUSE)
            except subprocess.TimeoutExpired:
                pass
        # what it said last may still be on its way
        self.hearing.join(PAUSE)
        self.stage = self.last()
        self.tell(self.stage)

    def last(self) -> Stage:
        """How it ended."""
        if self.process.returncode == 0:
            return Stage(str(self.kept / "wb"), True, has_changed=True)
        fault = self.said[-1] if self.said else "its status is %d" % self.process.returncode
        return Stage(self.stage.program, False, fault=fault.replace("wb: ", "", 1), build=self.stage.build)

    def end(self) -> None:
        """Ends the proof; the crates that are proved stay so."""
        if self.process.poll() is None:
            self.process.terminate()


class Teller:
    """Tells stages on standard error: in a line that renews itself where that is a terminal, and else when a crate is proved."""

    def __init__(self, renews: bool, first: Stage) -> None:
        """The text of the first stage was shown already."""
        self.renews = renews
        self.told = first.text(), -1

    def tell(self, stage: Stage) -> None:
        if stage.text() != self.told[0]:
            self.write("wb-live: %s" % stage.text())
        if stage.progress() and self.renews:
            self.write("%.110s" % ("wb-live: %s %s" % (stage.bar(), stage.progress())), "")
        elif stage.progress() and (stage.text(), stage.crates) != self.told:
            self.write("wb-live: %s" % stage.progress())
        self.told = stage.text(), stage.crates

    def write(self, line: str, end: str = "\n") -> None:
        with contextlib.suppress(OSError):  # nobody may read it any more, and the session goes on
            print(("\r\x1b[K" if self.renews else "") + line, end=end, file=sys.stderr, flush=True)
