#!/usr/bin/env python3
"""Times claims and readings of several threads at one history, beside the same behind a lock: history_threads.py OURS LOCKED [ROUNDS]

OURS is the program of history_threads.rt.in, and LOCKED, which may be left out as `-`, that of history_threads.rs. Each run
has as many processors as threads, as far as there are so many (taskset). The programs take turns, a few rounds at a
time, so that all meet the same other work. Of each case are printed, by the clock and for a claim of all threads
together, the least and the median of the rounds; and the steps on shared words for a claim, in which lost exchanges
show. Of viewers: the nanoseconds of the writer for a claim, and of a turn of a viewer the mean of a round, its least
and its median, and the longest turn of all rounds. Where there is a valgrind, also the instructions of a claim: one
round more, less none, over the claims of that round.
"""

from __future__ import annotations

import os
import re
import shutil
import statistics
import subprocess
import sys
from pathlib import Path
from tempfile import TemporaryDirectory

COUNT = 60_000
TURNS = 6
CASES = [(case, threads) for case in ("new", "known") for threads in (1, 2, 4, 8)] + [("viewers", 4)]

Command = list[str]
Round = list[int]


def claims(case: str, threads: int) -> int:
    """How many claims a round of all threads has."""
    return COUNT * threads if case == "known" else COUNT


def pinned(threads: int) -> Command:
    """What keeps a program on the first processors, as many as it has threads."""
    last = min(threads, os.cpu_count() or 1) - 1
    return ["taskset", "-c", f"0-{last}"] if shutil.which("taskset") else []


def rounds_of(program: Command, case: str, threads: int, rounds: int) -> list[Round]:
    """Runs a number of rounds."""
    words = [program[0], case, str(threads), str(rounds), *program[1:]]
    printed = subprocess.run(pinned(threads) + words, stdout=subprocess.PIPE, text=True, check=True).stdout
    return [[int(word) for word in line.split()] for line in printed.splitlines()]


def instructions(program: Command, case: str, threads: int, rounds: int) -> int:
    """How many instructions the rounds take, with the start of the program."""
    with TemporaryDirectory() as room:
        tool = ["valgrind", "--tool=callgrind", f"--callgrind-out-file={Path(room) / 'out'}"]
        words = [program[0], case, str(threads), str(rounds), *program[1:]]
        told = subprocess.run(tool + words, stdout=subprocess.DEVNULL, stderr=subprocess.PIPE, text=True, check=True).stderr
    found = re.search(r"Collected : (\d+)", told)
    assert found, told
    return int(found.group(1))


def spread(times: list[float]) -> str:
    return f"{min(times):8.0f} {statistics.median(times):8.0f}"


def print_claims(label: str, case: str, threads: int, taken: list[Round]) -> None:
    number = claims(case, threads)
    times = [taken_round[0] / number for taken_round in taken]
    steps = statistics.median(taken_round[1] / number for taken_round in taken)
    print(f"{case:8} {threads} {label:8} {spread(times)} ns a claim, {steps:6.1f} steps", flush=True)


def print_views(label: str, threads: int, taken: list[Round]) -> None:
    writer = [taken_round[0] / COUNT for taken_round in taken]
    turns = [taken_round[2] / max(taken_round[3], 1) for taken_round in taken]
    longest = max(taken_round[4] for taken_round in taken)
    print(f"viewers  {threads} {label:8} {spread(writer)} ns a claim of the writer; a turn {spread(turns)} ns, longest {longest}", flush=True)


def main() -> None:
    ours, locked = sys.argv[1], sys.argv[2]
    rounds = int(sys.argv[3]) if len(sys.argv) > 3 else 42
    programs = {"no lock": [ours]}
    if locked != "-":
        programs |= {"Mutex": [locked, "mutex"], "RwLock": [locked, "rwlock"]}
    load = Path("/proc/loadavg").read_text(encoding="ascii").split()[0]
    print(f"least and median of {rounds} rounds, of {COUNT} names; processors {os.cpu_count()}, load at the start {load}")
    for case, threads in CASES:
        taken: dict[str, list[Round]] = {label: [] for label in programs}
        for _ in range(TURNS):
            for label, program in programs.items():
                taken[label] += rounds_of(program, case, threads, -(-rounds // TURNS))
        for label, all_rounds in taken.items():
            if case == "viewers":
                print_views(label, threads, all_rounds)
            else:
                print_claims(label, case, threads, all_rounds)
    if not shutil.which("valgrind"):
        print("instructions are not counted: apt-get install valgrind")
        return
    for case, threads in [("new", 1), ("new", 2), ("new", 4), ("known", 1)]:
        for label, program in programs.items():
            more = instructions(program, case, threads, 2) - instructions(program, case, threads, 1)
            print(f"{case:8} {threads} {label:8} {more / claims(case, threads):8.0f} instructions a claim", flush=True)


main()
