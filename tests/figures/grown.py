#!/usr/bin/env python3
"""Times what a host does with a large board: grown.py TOP [ROWS ..]

On one page each of ROWS sources (1,000, 4,000 and 16,000 without a word) has a drawop and lacks the one before it. A
self-managing host takes these in, and then a minute passes, two ticks a second. Milliseconds are printed of the slowest
tick, which sends a report of 64 marks and asks for what is missing, and of each question, the least of three. Then a
host with a driver of its own hears page states that name as many sources, 64 in each. Last come hosts that tick when
something is due: the medians of ticks that report, that answer with 64 pages, and that have a turn alone.
"""

from __future__ import annotations

import statistics
import subprocess
import sys
import time
from collections.abc import Iterable
from types import TracebackType
from typing import NamedTuple

from host import program

ROWS = [1_000, 4_000, 16_000]
MARKS = 64
BOARD = "board 7 65535 1 42"
KEEP = "keep 4000 1000"
TICK = 500_000
MINUTE = 60_000_000
QUESTIONS = ("next 7 1", "report 7 1", "gaps 7 1", "pages")
DUE_TICKS = 1_000
PAGES = 64
# how a session message and a page state begin, in hexadecimal digits
REPORT, STATE = "send 57420102", "send 57420105"


class Block(NamedTuple):
    """The answer to a line: milliseconds until it had come, what it sends, and the next moment at which something is due."""

    took: float
    sends: list[str]
    due: int


class Host:
    """A host at the other end of a pipe."""

    def __init__(self, path: str) -> None:
        self.child = subprocess.Popen([path, "host"], stdin=subprocess.PIPE, stdout=subprocess.PIPE, text=True, bufsize=1)
        self.line(BOARD)

    def __enter__(self) -> Host:
        return self

    def __exit__(self, kind: type[BaseException] | None, error: BaseException | None, trace: TracebackType | None) -> None:
        assert self.child.stdin
        self.child.stdin.close()
        self.child.wait()

    def line(self, line: str) -> float:
        """Milliseconds until the block of a line has come; a refused line ends the run."""
        return self.block(line).took

    def block(self, line: str) -> Block:
        """The block of a line; a refused line ends the run."""
        assert self.child.stdin and self.child.stdout
        sends: list[str] = []
        began = time.perf_counter()
        self.child.stdin.write(line + "\n")
        for last in self.child.stdout:
            if last.startswith("ok "):
                due = last.split()[1]
                return Block((time.perf_counter() - began) * 1e3, sends, 0 if due == "never" else int(due))
            if last.startswith("refused "):
                break
            sends.append(last)
        raise SystemExit(f"refused: {line}")


def digits(path: str, words: Iterable[str]) -> list[str]:
    """Datagrams in hexadecimal digits, of their words."""
    ran = subprocess.run([path, "hex"], input="".join(f"{it}\n" for it in words), stdout=subprocess.PIPE, text=True, check=True)
    return [line.split()[-1] for line in ran.stdout.splitlines()]


def time_rows(path: str, rows: int) -> list[float]:
    """Of a board with `rows` rows, each with a hole: a line that came, the slowest tick, and each question."""
    drawops = digits(path, (f"draw {100 + source} 7/1 2 1000 line 1 1 5 5 *" for source in range(rows)))
    with Host(path) as host:
        host.line(KEEP)
        came = sum(host.line(f"came {moment} {it}") for moment, it in enumerate(drawops, 1)) / rows
        ticks = [host.line(f"tick {rows + moment}") for moment in range(TICK, MINUTE, TICK)]
        return [came, max(ticks), *(min(host.line(question) for _ in range(3)) for question in QUESTIONS)]


def time_states(path: str, rows: int) -> list[float]:
    """Of page states that name `rows` sources: the mean of a line, and the last one."""
    groups = (range(first, first + MARKS) for first in range(100, 100 + rows, MARKS))
    states = digits(path, ("page-state 5 7/1 " + " ".join(f"{source}=3" for source in group) for group in groups))
    with Host(path) as host:
        taken = [host.line(f"hear {it}") for it in states]
        return [sum(taken) / len(taken), taken[-1]]


def time_due(path: str, drawops: list[str]) -> list[float]:
    """Of ticks at the moments at which something is due: the medians of those that report, that answer, and that have a turn alone."""
    (question,) = digits(path, ["ask-pages 5"])
    times: dict[str, list[float]] = {}
    with Host(path) as host:
        host.line(KEEP)
        for moment, it in enumerate(drawops, 1):
            host.line(f"came {moment} {it}")
        now = len(drawops)
        due = host.block(f"came {now} {question}").due
        for tick in range(DUE_TICKS):
            now = max(now, due)
            line = f"came {now} {question}" if tick % PAGES == 0 else f"tick {now}"
            took, sends, due = host.block(line)
            if line.startswith("tick"):
                times.setdefault(sends[0][: len(REPORT)] if sends else "turn", []).append(took)
    return [statistics.median(times.get(kind, [0.0])) for kind in (REPORT, STATE, "turn")]


def main(top: str, words: list[str]) -> None:
    path, counts = program(top), [int(word) for word in words] or ROWS
    print("rows  came  slowest tick  " + "  ".join(QUESTIONS) + "  page state: mean, last")
    for rows in counts:
        print(f"{rows}  " + "  ".join(f"{it:.3f}" for it in time_rows(path, rows) + time_states(path, rows)))
    print("one drawop each of  sources of a page: report, answer, turn  pages: the same")
    for rows in counts:
        sources = digits(path, (f"draw {100 + source} 7/1 1 1000 line 1 1 5 5 *" for source in range(rows)))
        pages = digits(path, (f"draw 5 7/{page} 1 1000 line 1 1 5 5 *" for page in range(1, rows + 1)))
        print(f"{rows}  " + "  ".join(f"{it:.3f}" for it in time_due(path, sources) + time_due(path, pages)))


if __name__ == "__main__":
    main(sys.argv[1], sys.argv[2:])
