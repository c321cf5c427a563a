#!/usr/bin/env python3
"""Times whole runs of the program over scripts that are the same each time: wb.py TOP [WORDS OF `wb run` ..]

Forty sources draw 60,000 drawops on four pages in turn: lines, frames and texts, at random places. A script is

    arrivals   a board, and the drawops
    repeated   the same, and then all drawops once more
    shows      the same as arrivals, with a page shown after each 1,000 drawops
    losses     the same as arrivals, of which each tenth is lost and comes 5,000 drawops later. After each 100 the clock
               goes on, and others ask for drawops and tell what they have; after each 1,000 a page is looked through

Each script is run so often, and the least and the median are printed, in nanoseconds a line: by the clock, and of
processors. The start of the program is in them. If there is a rustc, the same is done by a program in plain Rust that
knows arrivals alone (run_plain.rs); if there is a valgrind too, the instructions of both are counted.
"""

from __future__ import annotations

import os
import re
import shutil
import subprocess
import sys
import tempfile
import time
from collections.abc import Callable, Iterable, Iterator, Sequence
from pathlib import Path
from typing import Optional

ROUNDS = 25
COUNT = 60_000
LATER = 5_000


class Numbers:
    """Random numbers of a multiplicative generator with a fixed seed."""

    def __init__(self) -> None:
        self.state = 20260101

    def below(self, bound: int) -> int:
        self.state = self.state * 16807 % 2147483647
        return self.state % bound


def name(place: int) -> str:
    """Source, page and number of a drawop."""
    return f"{100 + place % 40} 7/{1 + place // 40 % 4} {1 + place // 160}"


def shape(numbers: Numbers) -> str:
    kind, x, y = numbers.below(10), numbers.below(160), numbers.below(80)
    if kind < 6:
        return f"line {x} {y} {numbers.below(160)} {numbers.below(80)} *"
    if kind < 8:
        return f"frame {x} {y} {x + numbers.below(20)} {y + numbers.below(10)} #"
    return f'text {x} {y} "meet at noon, room {1 + numbers.below(9)}"'


def drawops(numbers: Numbers) -> list[str]:
    return [f"draw {name(place)} {1000 + numbers.below(1_000_000)} {shape(numbers)}" for place in range(COUNT)]


def shows(lines: Iterable[str]) -> Iterator[str]:
    """The lines, with a page shown after each 1,000."""
    for place, line in enumerate(lines):
        yield line
        if place % 1_000 == 999:
            yield f"show 7 {1 + place // 1_000 % 4} 160 80"


def others(numbers: Numbers, place: int, moment: int) -> Iterator[str]:
    """What others send: requests for a drawop that most likely is held and for one that is lost, and what one has."""
    yield f"request 90 {name(numbers.below(place))}"
    yield f"request 91 {name(place - place % 10)}"
    mark = f"{100 + numbers.below(40)}={1 + place // 160}"
    yield f"session-message 92 {moment} 7/{1 + numbers.below(4)} {mark}"


def losses(numbers: Numbers, lines: Sequence[str]) -> Iterator[str]:
    for source in range(100, 140):
        yield f"distance {source} {10_000 + numbers.below(90_000)}"
    moment = 0
    for place, line in enumerate(lines):
        if place % 10 != 0:
            yield line
        elif place >= LATER:
            yield lines[place - LATER]
        if place % 100 == 99:
            moment += 20_000
            yield f"tick {moment}"
            yield from others(numbers, place, moment)
        if place % 1_000 == 999:
            yield f"look 7 {1 + numbers.below(4)}"


def script(kind: str) -> bytes:
    """The lines of a script, its datagrams in words."""
    numbers = Numbers()
    lines = drawops(numbers)
    made: dict[str, Callable[[], Iterable[str]]] = {
        "arrivals": lambda: lines,
        "repeated": lambda: lines + lines,
        "shows": lambda: shows(lines),
        "losses": lambda: losses(numbers, lines),
    }
    return "".join(f"{line}\n" for line in ["board 1 65535 1 42", *made[kind]()]).encode()


def time_once(command: Sequence[str], given: bytes) -> tuple[int, int]:
    """Nanoseconds of one run over these bytes, by the clock and of processors."""
    with tempfile.TemporaryFile() as standing:
        standing.write(given)
        standing.flush()
        standing.seek(0)
        start = time.perf_counter_ns()
        running = subprocess.Popen(command, stdin=standing, stdout=subprocess.DEVNULL)
        _, status, usage = os.wait4(running.pid, 0)
        taken = time.perf_counter_ns() - start
    if status != 0:
        sys.exit(f"{' '.join(command)}: status {os.waitstatus_to_exitcode(status)}")
    return taken, int((usage.ru_utime + usage.ru_stime) * 1_000_000_000)


def print_row(label: str, command: Sequence[str], given: bytes) -> None:
    lines = given.count(b"\n")
    rounds = [time_once(command, given) for _ in range(ROUNDS)]
    cells = []
    for times in zip(*rounds):
        ordered = sorted(times)
        cells += [ordered[0] // lines, ordered[len(ordered) // 2] // lines]
    print(f"{label:<20}{lines:>8}" + "".join(f"{cell:>10}" for cell in cells), flush=True)


def build_plain(room: str) -> Optional[str]:
    """The program in plain Rust, if there is a compiler."""
    if not shutil.which("rustc"):
        print("without a program in plain Rust beside it, for there is no rustc here (apt-get install rustc)")
        return None
    program = f"{room}/run_plain"
    subprocess.run(["rustc", "--edition", "2024", "-C", "opt-level=3", "-o", program, str(Path(__file__).resolve().parents[2] / "figures/run_plain.rs")], check=True)
    return program


def instructions(command: Sequence[str], given: bytes) -> float:
    """The instructions of a run, in millions."""
    tool = ["valgrind", "--tool=callgrind", "--callgrind-out-file=/dev/null"]
    told = subprocess.run([*tool, *command], input=given, stdout=subprocess.DEVNULL, stderr=subprocess.PIPE, check=True).stderr.decode()
    found = re.search(r"Collected : (\d+)", told)
    assert found, told
    return int(found.group(1)) / 1e6


def print_beside(label: str, command: Sequence[str], plain: str, given: bytes) -> None:
    """The same by the program in plain Rust, and the instructions of both."""
    print_row(f"plain, {label}", [plain], given)
    if shutil.which("valgrind"):
        ours, other = instructions(command, given), instructions([plain], given)
        print(f"  million instructions: {ours:.1f} by run, {other:.1f} by plain Rust, {ours / other:.2f} of these", flush=True)


def main() -> None:
    top, words = sys.argv[1], sys.argv[2:]
    subprocess.run([f"{top}/wb", "hex"], stdin=subprocess.DEVNULL, check=True)
    where = subprocess.run([f"{top}/wb", "--where"], stdout=subprocess.PIPE, text=True, check=True)
    program = where.stdout.rstrip("\n")
    print("nanoseconds a line: by the clock, least and median, and of processors, least and median")
    with tempfile.TemporaryDirectory() as room:
        plain = build_plain(room)
        for kind in ["arrivals", "repeated", "shows", "losses"]:
            told = script(kind)
            given = subprocess.run([program, "hex"], input=told, stdout=subprocess.PIPE, check=True).stdout
            print_row(f"run, {kind}", [program, "run", *words], given)
            if plain and kind in ("arrivals", "repeated"):
                print_beside(kind, [program, "run", *words], plain, given)
            if kind == "arrivals":
                print_row("check, arrivals", [program, "check"], given)
                print_row("hex, arrivals", [program, "hex"], told)
                print_row("words, arrivals", [program, "words"], given)


if __name__ == "__main__":
    main()
