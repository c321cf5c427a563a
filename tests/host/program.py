"""The program under test: run over a whole input, or spoken to line by line."""

from __future__ import annotations

import functools
import os
import select
import subprocess
import time
from dataclasses import dataclass
from pathlib import Path

TOP = Path(__file__).resolve().parents[2]
PATIENCE = 120.0  # seconds, after which a program that says nothing has failed


@functools.cache
def program() -> str:
    """The program that the environment names, or else the one that ./wb builds."""
    named = os.environ.get("WB_PROGRAM")
    if named:
        return named
    return subprocess.run([TOP / "wb", "--where"], stdout=subprocess.PIPE, text=True, check=True).stdout.rstrip("\n")


def command(words: list[str]) -> list[str]:
    """The program with these words. For `host` alone, the environment may name another program that answers lines, as one over the library."""
    other = os.environ.get("WB_HOST")
    return [other] if other and words == ["host"] else [program(), *words]


@dataclass(frozen=True)
class Ended:
    """How a run ended: its status, and the bytes at standard output and standard error."""

    status: int
    printed: bytes
    errors: bytes


def run(words: list[str], given: bytes, patience: float = PATIENCE) -> Ended:
    """Runs the program over an input."""
    try:
        ended = subprocess.run(command(words), input=given, capture_output=True, timeout=patience, check=False)
    except subprocess.TimeoutExpired:
        return Ended(-1, b"", b"it did not end")
    return Ended(ended.returncode, ended.stdout, ended.stderr)


def host(lines: str, *words: str) -> str:
    """What `wb host` prints for these lines, where it ends well; else how it ended."""
    ended = run(["host", *words], lines.encode())
    if ended.status != 0 or ended.errors:
        return f"status {ended.status}, {ended.errors!r}, after {ended.printed!r}"
    return ended.printed.decode()


def close(line: bytes) -> bool:
    """Whether a line closes a block."""
    return line.startswith((b"ok ", b"refused "))


class Dialog:
    """A host that is spoken to by one line at a time, through two pipes."""

    def __init__(self, *words: str) -> None:
        pipe = subprocess.PIPE
        self.child = subprocess.Popen(command(["host", *words]), stdin=pipe, stdout=pipe, stderr=pipe, bufsize=0)
        assert self.child.stdin and self.child.stdout and self.child.stderr
        self.given = self.child.stdin
        self.output = self.child.stdout
        self.pending = b""

    def give(self, given: bytes) -> None:
        self.given.write(given)

    def line(self) -> bytes:
        """The next line that it prints, or what there is of one where it says no more."""
        end = time.monotonic() + PATIENCE
        while b"\n" not in self.pending:
            ready, _, _ = select.select([self.output], [], [], max(0.0, end - time.monotonic()))
            block = self.output.read(65536) if ready else b""
            if not block:
                break
            self.pending += block
        line, feed, self.pending = self.pending.partition(b"\n")
        return line + feed

    def block(self) -> bytes:
        """The next block, up to the line that closes it, or what there is of one."""
        block = b""
        while True:
            line = self.line()
            block += line
            if not line.endswith(b"\n") or close(line):
                return block

    def ask(self, line: str) -> str:
        """Gives a line, and returns its block."""
        self.give(line.encode() + b"\n")
        return self.block().decode()

    def is_silent(self, seconds: float) -> bool:
        """Whether it says nothing for so long."""
        return not self.pending and not select.select([self.output], [], [], seconds)[0]

    def end(self) -> Ended:
        """Ends its input, and waits for its end: what it printed since the last block, and how it ended."""
        if not self.given.closed:
            self.given.close()
        assert self.child.stderr
        printed = b"" if self.output.closed else self.pending + self.output.read()
        errors = self.child.stderr.read()
        status = self.child.wait(PATIENCE)
        for stream in self.output, self.child.stderr:
            stream.close()
        return Ended(status, printed, errors)
