"""A copy of the repository's shape, with a stand-in for the toolchain's command rt that builds at once."""

from __future__ import annotations

import os
import shutil
import signal
import subprocess
import time
from collections.abc import Callable
from pathlib import Path
from typing import NamedTuple

HERE = Path(__file__).resolve().parent
TOP = HERE.parents[1]
PATIENCE = 240.0  # seconds until what does not come has failed

# A start obeys these signals, though who started the tests ignores them, as a shell does for what it starts in the background.
OBEYING = ["env", "--default-signal=INT,HUP"]

CRATES = """\
# a comment: here
low: thiserror
middle: low
other: low
wb: middle low clap
"""


class End(NamedTuple):
    """How a start ended: its status, what it printed and what it told."""

    status: int
    printed: str
    told: str


def wait_until(holds: Callable[[], bool]) -> None:
    end = time.monotonic() + PATIENCE
    while not holds():
        assert time.monotonic() < end, "it did not come"
        time.sleep(0.02)


class Checkout:
    """A program that stands on two crates."""

    def __init__(self, room: Path) -> None:
        self.room, self.top, self.bin, self.calls = room, room / "tree", room / "bin", room / "calls"
        self.started: list[subprocess.Popen[str]] = []
        self.bin.mkdir()
        self.stand_in("rt", HERE / "rt.sh")
        self.kit("kit one")
        for crate in ("wb", "low", "middle", "other"):
            (self.top / "crates" / crate / "src").mkdir(parents=True)
        shutil.copy(TOP / "wb", self.top)
        shutil.copytree(TOP / "tools", self.top / "tools", ignore=shutil.ignore_patterns("__pycache__"))
        self.stand_in("unproved", HERE / "unproved.sh")
        shutil.copy(self.bin / "unproved", self.top / "tools/unproved")
        (self.top / "crates.txt").write_text(CRATES)
        for crate in ("low", "middle", "other"):
            self.write(f"crates/{crate}/src/lib.rt", crate)
        self.main("one")
        self.forget()

    def stand_in(self, name: str, script: Path) -> None:
        shutil.copy(script, self.bin / name)
        (self.bin / name).chmod(0o755)

    def kit(self, name: str) -> None:
        """Names the toolchain."""
        (self.bin / "kit").write_text(f"{name}\n")

    def write(self, path: str, text: str) -> None:
        (self.top / path).parent.mkdir(parents=True, exist_ok=True)
        (self.top / path).write_text(f"{text}\n")

    def main(self, text: str) -> None:
        """Writes the program's source, which the program will print."""
        self.write("crates/wb/src/main.rt", text)

    def append(self, path: str) -> None:
        with (self.top / path).open("a") as file:
            file.write("more\n")

    def touch(self, path: str, moment: float | None = None) -> None:
        os.utime(self.top / path, None if moment is None else (moment, moment))

    def environment(self, **more: str) -> dict[str, str]:
        return {**os.environ, "PATH": f"{self.bin}:{os.environ['PATH']}", "CALLS": str(self.calls), **more}

    def wb(self, *words: str, by: Path | None = None, given: str = "", **more: str) -> End:
        """Starts it, and waits for its end. Paths of the folder of the test are left out of what it says."""
        ran = subprocess.run([by or "./wb", *words], cwd=self.top, env=self.environment(**more), input=given, capture_output=True, text=True,
                             timeout=PATIENCE, check=False)
        return End(ran.returncode, ran.stdout.replace(str(self.room), ""), ran.stderr.replace(str(self.room), ""))

    def start(self, *words: str, command: list[str] | None = None, own_group: bool = False, is_open: bool = False, **more: str) -> subprocess.Popen[str]:
        """Starts it, and goes on. What it tells stands in the file `told`. Its input is empty, or open until it is closed."""
        with (self.room / "told").open("w") as told:
            child = subprocess.Popen([*OBEYING, *(command or ["./wb", *words])], cwd=self.top, env=self.environment(**more), stdin=subprocess.PIPE if is_open else subprocess.DEVNULL, stdout=subprocess.PIPE,
                                     stderr=told, text=True, start_new_session=own_group)
        self.started.append(child)
        return child

    def told(self) -> str:
        """What the last start printed."""
        return (self.room / "told").read_text()

    def begun(self) -> list[str]:
        """What the stand-ins were called for."""
        return [line for line in self.calls.read_text().splitlines() if not line.startswith("end ")]

    def ended(self) -> list[str]:
        return [line for line in self.calls.read_text().splitlines() if line.startswith("end ")]

    def forget(self) -> None:
        self.calls.write_text("")

    def wait_for_call(self, call: str) -> None:
        wait_until(lambda: call in self.begun())

    def end(self) -> None:
        for child in self.started:
            if child.poll() is None:
                child.send_signal(signal.SIGTERM)
            if child.stdin:
                child.stdin.close()
            if child.stdout:
                child.stdout.close()
            child.wait(PATIENCE)
