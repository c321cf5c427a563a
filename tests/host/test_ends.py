"""The input and the output of a host: lengths of lines, their ends, pipes, and ends that fail."""

from __future__ import annotations

import os
import socket
import struct
import subprocess
import threading
import time

import pytest

from .program import PATIENCE, Dialog, Ended, host, program, run

LONGEST = 65_536
BOARD = "board 1 16 1 42\n"
DRAW = "draw 7 7/1 1 10 line 0 1 4 1 *\n"

# a call of the library takes a whole line, so another program has ends of its own
of_the_program = pytest.mark.skipif("WB_HOST" in os.environ, reason="WB_HOST names another program, whose input and output end otherwise")


def test_lengths() -> None:
    """A line has at most 65,536 bytes before its line feed. A longer one is passed over to its end."""
    for name, line, block in [
        ("the longest line", "#" * LONGEST, "ok never\n"),
        ("the longest line, a carriage return among its bytes", "#" * (LONGEST - 1) + "\r", "ok never\n"),
        ("a byte more", "#" * (LONGEST + 1), "refused endless\n"),
        ("a carriage return more", "#" * LONGEST + "\r", "refused endless\n"),
        ("spaces alone", " " * (LONGEST + 1), "refused endless\n"),
        ("twice as long", "#" * 2 * LONGEST, "refused endless\n"),
        ("a good line behind too many spaces", " " * LONGEST + "pages", "refused endless\n"),
        ("ten million bytes", "say " * 2_500_000, "refused endless\n"),
    ]:
        assert host(f"{line}\n{BOARD}") == f"{block}ok never\n", f"{name}, without a board"
        assert host(f"{BOARD}{line}\npages\n") == f"ok never\n{block}pages 0\nok never\n", f"{name}, between two lines"
        assert host(f"{BOARD}pages\n{line}") == f"ok never\npages 0\nok never\n{block}", f"{name}, at the end"
        assert host(f"{line}\n{line}\n") == block * 2, f"{name}, twice"


@of_the_program
def test_line_ends() -> None:
    """Line feeds, carriage returns, and inputs that end without either."""
    drawn = "ok never\nbatch 1 0 0 0\nok never\nok never\npages 1\n7 1\nok never\n"
    lines = f"{BOARD}{DRAW}\npages\n"
    assert host(lines) == drawn, "line feeds"
    assert host(lines.replace("\n", "\r\n")) == drawn, "carriage returns and line feeds"
    assert host(lines[:-1]) == drawn, "a last line without a line feed"
    unknown = drawn.replace("pages 1\n7 1\nok never\n", "refused unknown\n")
    assert host(f"{lines[:-1]}\r") == unknown, "a last line with a carriage return alone"
    assert host(f"{BOARD}pages\r\r\n") == "ok never\nrefused unknown\n", "two carriage returns"
    assert host("") == "", "no line at all"
    assert host("\n") == "ok never\n", "an empty line alone"
    assert run(["host"], b"\xff\xfe\n\n") == Ended(0, b"refused unknown\nok never\n", b""), "bytes that are no text"


@of_the_program
def test_pipes() -> None:
    """Each block is written before more is read: when its line has ended, or is too long."""
    dialog = Dialog()
    assert dialog.ask(BOARD[:-1]) == "ok never\n", "the first block"
    dialog.give(b"draw 7 7/1 1 10 line")
    assert dialog.is_silent(0.2), "half a line gives nothing"
    dialog.give(b" 0 1 4 1 *\npages\nask 7 1 ")
    assert dialog.block() == b"batch 1 0 0 0\nok never\n", "the line in two parts"
    assert dialog.block() == b"pages 1\n7 1\nok never\n", "the line behind it"
    assert dialog.is_silent(0.2), "the third waits"
    dialog.give(b"7 2\n")
    assert dialog.block() == b"ask 1\nok 358760\n", "and then comes"
    dialog.give(b"#" * (LONGEST * 2))
    assert dialog.block() == b"refused endless\n", "a line is refused as soon as it is too long"
    dialog.give(b"#\n")
    assert dialog.is_silent(0.2), "and its rest gives no further block"
    dialog.give(b"stop 7 1 7 2")
    assert dialog.end() == Ended(0, b"stop 1\nok never\n", b""), "the end of the input ends the last line"


def test_slow_reader() -> None:
    """More than a pipe holds is printed while nobody reads; then it is read slowly, and nothing is lost."""
    given = (BOARD + DRAW + "show 7 1 200 100\n" * 40).encode()
    dialog = Dialog()
    writer = threading.Thread(target=write_all, args=(dialog, given))
    writer.start()
    time.sleep(0.3)
    read = b""
    while block := dialog.output.read(16_384):
        read += block
        time.sleep(0.005)
    writer.join(PATIENCE)
    ended = dialog.end()
    assert (ended.status, ended.errors) == (0, b""), "the end of one that is read slowly"
    assert read == run(["host"], given).printed, "what a slow reader reads"
    assert len(read) == len("ok never\nbatch 1 0 0 0\nok never\n") + 40 * (201 * 100 + len("ok never\n")), "is all of it"


@of_the_program
def test_sinks() -> None:
    """A host whose output fails ends with 3, at once or in mid-stream."""
    with open("/dev/full", "wb") as full:
        ended = subprocess.run([program(), "host"], input=BOARD.encode(), stdout=full, stderr=subprocess.PIPE, check=False)
    assert (ended.returncode, ended.stderr) == (3, b"wb: write\n"), "an output that can't be written"
    dialog = Dialog()
    dialog.ask(BOARD[:-1])
    dialog.output.close()
    dialog.give(b"pages\n")
    assert dialog.end() == Ended(3, b"", b"wb: write\n"), "an output that is closed"
    assert closed_after(1_000) == (3, b"wb: write\n"), "an output that is closed within a canvas"
    assert closed_after(500_000) == (3, b"wb: write\n"), "an output that is closed within a later one"


def closed_after(count: int) -> tuple[int, bytes]:
    """How a host ends whose output is closed once some bytes were read of much more: its status, and what it prints."""
    dialog = Dialog()
    writer = threading.Thread(target=write_all, args=(dialog, (BOARD + "show 7 1 200 100\n" * 100).encode()))
    writer.start()
    while count > 0:
        count -= len(dialog.output.read(min(count, 65_536)))
    dialog.output.close()
    writer.join(PATIENCE)
    ended = dialog.end()
    return ended.status, ended.errors


def write_all(dialog: Dialog, given: bytes) -> None:
    """Gives it all that it takes, and ends its input."""
    try:
        dialog.give(given)
    except BrokenPipeError:
        pass
    dialog.given.close()


def test_sources() -> None:
    """A host whose input fails ends with 3: a line that had ended has its block, and one that had not has none."""
    folder = os.open("/", os.O_RDONLY)
    ended = subprocess.run([program(), "host"], stdin=folder, capture_output=True, check=False)
    os.close(folder)
    assert (ended.returncode, ended.stdout, ended.stderr) == (3, b"", b"wb: read\n"), "an input that can't be read"
    reading, writing = os.pipe()
    os.set_blocking(reading, False)
    ended = subprocess.run([program(), "host"], stdin=reading, capture_output=True, check=False)
    os.close(reading)
    os.close(writing)
    assert (ended.returncode, ended.stdout, ended.stderr) == (3, b"", b"wb: read\n"), "an input that does not wait"
    for name, rest in [("at the end of a line", b""), ("within a line", b"pages")]:
        assert reset_after(rest) == Ended(3, b"", b"wb: read\n"), f"an input that fails {name}"


def reset_after(rest: bytes) -> Ended:
    """How a host ends whose input is a connection that is reset, once a line was answered and the rest was sent."""
    with socket.create_server(("127.0.0.1", 0)) as server:
        sender = socket.create_connection(server.getsockname())
        receiver, _ = server.accept()
    child = subprocess.Popen([program(), "host"], stdin=receiver.fileno(), stdout=subprocess.PIPE, stderr=subprocess.PIPE)
    receiver.close()
    assert child.stdout
    sender.sendall(BOARD.encode() + rest)
    answered = child.stdout.readline()
    time.sleep(0.1)
    sender.setsockopt(socket.SOL_SOCKET, socket.SO_LINGER, struct.pack("ii", 1, 0))
    sender.close()
    printed, errors = child.communicate(timeout=PATIENCE)
    if answered != b"ok never\n":
        printed = answered + printed
    return Ended(child.returncode, printed, errors)


def test_streams() -> None:
    """Inputs that are longer than any script may be."""
    drawn = "".join(f"draw {number % 40} 7/1 {1 + number // 40} {number} line 0 0 4 1 *\n" for number in range(20_000))
    told = host(f"board 1 65535 1 42\n{drawn}gaps 7 1\n")
    assert told == "ok never\n" + "batch 1 0 0 0\nok never\n" * 20_000 + "gaps 0\nok never\n", "a stream of 20,000 drawops"
    blank = 2**20 + 1
    ended = run(["host"], b"\n" * blank + BOARD.encode(), 4 * PATIENCE)
    assert ended == Ended(0, b"ok never\n" * (blank + 1), b""), "more lines than a script may have"
