#!/usr/bin/env python3
"""Times `wb host` as a driver meets it, beside an echo: host.py TOP

Forty sources draw 60,000 drawops on four pages in turn, as tests/figures/wb.py writes them. Their lines go

    round      one at a time: each is written, and its block read, before the next. The echo is `cat`
    stream     at once, from a file into a file, beside `cat`, and beside `wb check` of the same drawops

Rounds take turns with those of what stands beside them. The least and the median of them are printed, in nanoseconds a
line by the clock; for the stream also lines a second by the least. The start of the program is in the stream alone.
"""

from __future__ import annotations

import os
import statistics
import subprocess
import sys
import tempfile
import time
from collections.abc import Callable
from pathlib import Path

import wb

ROUNDS = 15
AT_A_TIME = 20_000  # lines of a round that are written one at a time
BOARD = b"board 1 65535 1 42\n"
CLOSING = (b"ok ", b"refused ")

Times = list[int]


def program(top: str) -> str:
    """The program that the environment names, or else the one that ./wb builds."""
    named = os.environ.get("WB_PROGRAM")
    if named:
        return named
    return subprocess.run([f"{top}/wb", "--where"], stdout=subprocess.PIPE, text=True, check=True).stdout.rstrip("\n")


def is_echoed(answer: bytes) -> bool:
    return answer.endswith(b"\n")


def is_closed(answer: bytes) -> bool:
    """Whether a block has come whole; that of an arrival has two lines."""
    return answer.endswith(b"\n") and answer[answer.rfind(b"\n", 0, -1) + 1 :].startswith(CLOSING)


def time_round(command: list[str], lines: list[bytes], is_whole: Callable[[bytes], bool]) -> int:
    """Nanoseconds a line, of lines that are written one at a time, each once the answer to the one before is whole."""
    child = subprocess.Popen(command, stdin=subprocess.PIPE, stdout=subprocess.PIPE, bufsize=0)
    assert child.stdin and child.stdout
    to, back = child.stdin.fileno(), child.stdout.fileno()
    start = 0
    for place, line in enumerate([BOARD, *lines]):
        if place == 1:
            start = time.perf_counter_ns()
        os.write(to, line)
        answer = os.read(back, 4096)
        while not is_whole(answer):
            answer += os.read(back, 4096)
    taken = time.perf_counter_ns() - start
    child.stdin.close()
    child.wait()
    return taken // len(lines)


def time_stream(command: list[str], given: Path) -> int:
    """Nanoseconds a line, of a file that is read at once."""
    with given.open("rb") as source, tempfile.TemporaryFile() as sink:
        lines = source.read().count(b"\n")
        source.seek(0)
        start = time.perf_counter_ns()
        subprocess.run(command, stdin=source, stdout=sink, check=True)
        return (time.perf_counter_ns() - start) // lines


def print_row(label: str, times: Times, with_rate: bool) -> None:
    least = min(times)
    rate = f"{1_000_000_000 // least:>14,}" if with_rate else ""
    print(f"{label:<24}{least:>10,}{int(statistics.median(times)):>10,}{rate}", flush=True)


def print_rounds(host: list[str], lines: list[bytes]) -> None:
    echoes, blocks = [], []
    for _ in range(ROUNDS):
        echoes.append(time_round(["cat"], lines, is_echoed))
        blocks.append(time_round(host, lines, is_closed))
    print_row("round, echo", echoes, False)
    print_row("round, host", blocks, False)


def print_streams(name: str, host: list[str], given: Path, arrivals: Path) -> None:
    commands = {"echo": (["cat"], given), "host": (host, given), "check": ([name, "check"], arrivals)}
    times: dict[str, Times] = {label: [] for label in commands}
    for _ in range(ROUNDS):
        for label, (command, file) in commands.items():
            times[label].append(time_stream(command, file))
    for label, taken in times.items():
        print_row(f"stream, {label}", taken, True)


def main() -> None:
    name = program(sys.argv[1])
    told = wb.script("arrivals")
    arrivals = subprocess.run([name, "hex"], input=told, stdout=subprocess.PIPE, check=True).stdout
    datagrams = arrivals.replace(b"arrive ", b"datagram ")
    print("nanoseconds a line, least and median; lines a second")
    print_rounds([name, "host"], datagrams.splitlines(keepends=True)[1 : AT_A_TIME + 1])
    with tempfile.TemporaryDirectory() as room:
        files = Path(room, "datagrams"), Path(room, "arrivals")
        for file, written in zip(files, (datagrams, arrivals)):
            file.write_bytes(written)
        print_streams(name, [name, "host"], *files)


if __name__ == "__main__":
    main()
