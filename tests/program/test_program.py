"""The program as its callers have it: its statuses, what it writes to each end, and what it leaves unread. Each want was written by hand."""

from __future__ import annotations

import os
import re
import subprocess
from pathlib import Path

import pytest

from ..host.memory import library
from ..host.program import TOP, Ended, program, run

ARRIVAL = b"board 1 16 1 42\narrive 574201010000002200000007000000070000000100000001000000000000000a0100000001000400012a\n"
BOARD = (TOP / "examples/board.txt").read_bytes()

# the words, what is given, and how it ends
RUNS: dict[str, tuple[list[str], bytes, Ended]] = {
    "an empty script": (["run"], b"", Ended(0, b"", b"")),
    "a script that shows an empty page": (["run", "--workers", "8"], b"board 1 16 1 42\nshow 9 9 3 1\n", Ended(0, b"   \n", b"")),
    "lines that parse": (["check"], b"pages\nlook 7 4\n", Ended(0, b"ok 2\n", b"")),
    "a datagram that is cut off": (["run"], b"board 1 16 1 42\narrive 57", Ended(1, b"", b"wb: line 2: datagram 1\n")),
    "a line that does not parse": (["check"], b"draws", Ended(1, b"", b"wb: line 1: unknown\n")),
    "a question before there is a board": (["run"], b"show 1 1 1 1", Ended(1, b"", b"wb: line 1: no board\n")),
    "words that become digits": (["hex"], b"ask-pages 8\r\npages", Ended(0, b"hear 574201040000000400000008\r\npages", b"")),
    "digits that become words": (["words"], b"pages\nsend 574201040000000400000008\n", Ended(0, b"pages\nsend ask-pages 8\n", b"")),
    "a word that is wrong": (["hex"], b"pages\ndraw 7 7 1\n", Ended(1, b"pages\n", b"wb: line 2: word 3: page\n")),
    "a comment for a word that is wrong": (["hex", "--keep-going"], b"draw 7 7 1\npages", Ended(0, b"# line 1: word 3: page\npages", b"")),
    "digits that are an odd number": (["words"], b"arrive 5\n", Ended(1, b"", b"wb: line 1: word 2: hex\n")),
}


@pytest.mark.parametrize("words, given, want", RUNS.values(), ids=RUNS)
def test_run(words: list[str], given: bytes, want: Ended) -> None:
    assert run(words, given) == want


def test_board_in_words() -> None:
    """It runs by eight workers, and goes to digits and back."""
    digits = run(["hex"], BOARD).printed
    assert run(["run", "--workers", "8"], digits).printed.splitlines()[0] == b"batch 5 0 0 0"
    assert run(["words"], digits).printed == BOARD


MISUSES = [[], ["--help"], ["--version"], ["run", "--help"], ["walk"], ["run", "--workers", "9"], ["run", "--workers", "0"], ["check", "--workers", "1"], [b"\xff"]]


def misuse(words: list[str | bytes]) -> tuple[int, bytes, bytes, bytes]:
    """The status, what it prints, what it tells, and what another reader then finds at standard input."""
    reading, writing = os.pipe()
    os.write(writing, b"draw")
    os.close(writing)
    with os.fdopen(reading, "rb") as given:
        ended = subprocess.run([program(), *words], stdin=given, capture_output=True, check=False)
        return ended.returncode, ended.stdout, ended.stderr, given.read()


@pytest.mark.parametrize("words", MISUSES, ids=str)
def test_misuse(words: list[str | bytes]) -> None:
    """Words that are not understood end with 2, are named, and leave the input unread."""
    status, printed, told, left = misuse(words)
    assert (status, printed, left) == (2, b"", b"draw") and told


def test_word_that_is_no_text() -> None:
    assert misuse(["run", b"\xff"])[2] == b"wb: a word of the command line is not UTF-8\n"


def test_version() -> None:
    newest = re.search(r"^## ([0-9.]+)", (TOP / "CHANGELOG.md").read_text(), re.MULTILINE)
    assert newest and misuse(["--version"])[2].decode() == f"wb {newest[1]}\n"


def test_usage_has_the_whole_command() -> None:
    assert b"Usage: wb run [OPTIONS]\n" in misuse(["run", "--help"])[2]


def test_source_that_fails() -> None:
    """A folder can't be read."""
    folder = os.open("/", os.O_RDONLY)
    ended = subprocess.run([program(), "run"], stdin=folder, capture_output=True, check=False)
    os.close(folder)
    assert (ended.returncode, ended.stdout, ended.stderr) == (3, b"", b"wb: read\n")


@pytest.mark.parametrize("end, given, status", [("stdout", b"pages", 3), ("stderr", b"draw", 1)])
def test_sink_that_fails(end: str, given: bytes, status: int) -> None:
    """/dev/full can't be written. A fault that can't be printed leaves its status."""
    with open("/dev/full", "wb") as full:
        ends = {"stdout": subprocess.PIPE, "stderr": subprocess.PIPE, end: full}
        ended = subprocess.run([program(), "check"], input=given, **ends, check=False)  # type: ignore[call-overload]
    assert (ended.returncode, ended.stderr or b"") == (status, b"wb: write\n" if end == "stdout" else b"")


def refusals(loaded: Path, kind: str, words: list[str], given: bytes, text: bytes, prints: bytes) -> int:
    """How often the program comes to a growth or to a start of a thread, where each, refused alone, ends with 4, this text at standard error and
    nothing printed, or changes nothing of what it prints."""
    number = 1
    while True:
        environment = {**os.environ, f"REFUSED_{kind}": str(number), "LD_PRELOAD": str(loaded)}
        ended = subprocess.run([program(), *words], input=given, env=environment, capture_output=True, check=False)
        if b"refused\n" not in ended.stderr:
            return number - 1
        told = ended.stderr.replace(b"refused\n", b"")
        assert (ended.returncode, ended.stdout, told) in ((4, b"", text), (4, b"", b""), (0, prints, b"")), f"{kind} {number} is refused"
        number += 1


def test_memory_and_threads_that_are_refused(tmp_path: Path) -> None:
    loaded = library(tmp_path)
    if loaded is None:
        pytest.skip("there is no command rt of the toolchain, which has the compiler of C")
    growths = refusals(loaded, "GROWTH", ["check"], b"pages\n", b"wb: memory\n", b"ok 1\n")
    if growths == 0 and "WB_PROGRAM" in os.environ:
        pytest.skip("the program that WB_PROGRAM names takes its memory in another way")
    assert growths > 3
    for workers, starts in [("1", 0), ("2", 2)]:
        assert refusals(loaded, "START", ["run", "--workers", workers], ARRIVAL, b"wb: start\n", b"batch 1 0 0 0\n") == starts


def shown_by_help(first: str) -> bytes:
    """The block of the help that begins with this line, without its indent."""
    lines = misuse(["--help"])[2].decode().splitlines()
    block = lines[lines.index(f"    {first}") :]
    end = next((at for at, line in enumerate(block) if not line.startswith("    ")), len(block))
    return "".join(f"{line[4:]}\n" for line in block[:end]).encode()


def test_script_of_the_help() -> None:
    """It prints what the help says."""
    wanted = shown_by_help("batch 2 0 0 0")
    assert run(["words"], run(["run"], run(["hex"], shown_by_help("board 1 16 1 42")).printed).printed).printed == wanted
    assert wanted.count(b"\n") == 7
