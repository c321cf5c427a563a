"""A member in a terminal: what it paints, and the lines that are typed."""
from __future__ import annotations

import fcntl
import os
import pty
import re
import select
import struct
import subprocess
import sys
import tempfile
import termios
import time
from pathlib import Path
from typing import Callable, List, Optional

from live.terminal import Terminal
from ..facts import Facts
from .members import PATIENCE, TOP, Process, comes, opened
from .test_networks import hosts_of

FIRST_PORT = 26_200
ROWS, COLUMNS = 24, 80


class Screen:
    """A pseudo-terminal with a member in it, and what is painted on it: of escapes it knows what the member writes."""

    def __init__(self, words: List[str]) -> None:
        self.terminal, inner = pty.openpty()
        fcntl.ioctl(inner, termios.TIOCSWINSZ, struct.pack("HHHH", ROWS, COLUMNS, 0, 0))
        command = [sys.executable, str(TOP / "wb-live"), *opened(words)]
        environment = {name: value for name, value in os.environ.items() if name not in ("LINES", "COLUMNS")}
        self.folder = tempfile.TemporaryDirectory(prefix="wb-state-")
        environment["XDG_STATE_HOME"] = self.folder.name
        self.process = subprocess.Popen(command, stdin=inner, stdout=inner, stderr=inner, env=environment, start_new_session=True)
        os.close(inner)
        self.rows = [""] * (ROWS + 1)
        self.waiting = ""

    def type(self, line: str) -> None:
        os.write(self.terminal, line.encode() + b"\n")

    def read(self) -> None:
        """Takes in what was painted."""
        if select.select([self.terminal], [], [], 0.1)[0]:
            try:
                self.waiting += os.read(self.terminal, 65536).decode("latin-1")
            except OSError:
                return
        pieces = re.split(r"(?=\x1b\[\d+;1H)", self.waiting)
        for piece in pieces[:-1]:
            self.paint(piece)
        self.waiting = pieces[-1]

    def paint(self, piece: str) -> None:
        """One row, from its place to the end of the line."""
        found = re.match(r"\x1b\[(\d+);1H(.*?)\x1b\[K", piece, re.DOTALL)
        if found and int(found[1]) <= ROWS:
            self.rows[int(found[1])] = re.sub(r"\x1b\[\d*m", "", found[2])

    def wait_for(self, is_so: Callable[[List[str]], bool], seconds: float = PATIENCE) -> bool:
        end = time.monotonic() + seconds
        while not is_so(self.rows):
            if time.monotonic() > end:
                return False
            self.read()
        return True

    def asks(self, line: str, words: str) -> bool:
        """Whether the answer to a line has these words."""
        self.type(line)
        return self.wait_for(lambda rows: words in rows[23], 1.0)

    def end(self) -> int:
        self.type("quit")
        end = time.monotonic() + PATIENCE
        while self.process.poll() is None and time.monotonic() < end:
            self.read()
        self.process.kill()
        os.close(self.terminal)
        status = self.process.wait()
        self.folder.cleanup()
        return status


def test_gone(facts: Facts) -> None:
    """A member ends with its terminal, and its host with it."""
    screen = Screen(["--no-web", "--ports", str(FIRST_PORT + 40), "--speed", "10"])
    facts("a terminal is painted", screen.wait_for(lambda rows: rows[22].startswith("page 1/1")), True)
    os.write(screen.terminal, b"line \xff\xfe 0\n")
    facts("letters that are none are refused", screen.wait_for(lambda rows: rows[23] == "refused: unknown"), True)
    screen.type("line 0 0 4 0 *")
    facts("and one draws on", screen.wait_for(lambda rows: rows[1] == "*****"), True)
    hosts = hosts_of(screen.process.pid)
    os.close(screen.terminal)
    try:
        status: Optional[int] = screen.process.wait(PATIENCE)
    except subprocess.TimeoutExpired:
        status = None
        screen.process.kill()
    facts("with its terminal a member ends", status, 0)
    facts("and its host", (len(hosts), [host for host in hosts if Path("/proc/%d" % host).exists()]), (1, []))
    screen.process.wait()
    screen.folder.cleanup()


def test_another_page(facts: Facts) -> None:
    """The state line and `who` say it."""
    terminal = Terminal.__new__(Terminal)
    others = [{"member": 3, "delay": 1.5, "holds": "another"}, {"member": 4, "delay": None, "holds": None}, {"member": 5, "delay": None, "holds": "not-yet"}]
    terminal.state = {"members": {"members": others}}
    facts("who holds what", terminal.who(), "3 (1.5 ms, another page), 4, 5 (not yet the same page)")
    facts("a page that is another", [text.partition(":")[0] for text in terminal.differing()], ["ANOTHER PAGE AT 3"])
    terminal.state = {"members": {"members": others[1:]}}
    facts("none that is", terminal.differing(), [])


def test_screen(facts: Facts) -> None:
    screen = Screen(["--no-web", "--ports", str(FIRST_PORT), "--speed", "10"])
    other = Process(["--ports", str(FIRST_PORT), "--speed", "10"])
    try:
        facts("the foot says the page", screen.wait_for(lambda rows: rows[22].startswith("page 1/1")), True)
        screen.type("line 0 0 4 0 *")
        facts("a line is painted", screen.wait_for(lambda rows: rows[1] == "*****"), True)
        facts("the other shows it", other.wait_for(lambda states: states["board"]["rows"] == ["*****"]), True)
        other.draw("1/1", 'text 3 2 "hello \\"you\\""')
        facts("what the other draws is painted", screen.wait_for(lambda rows: rows[3] == '   hello "you"'), True)
        other.draw("1/1", 'text 0 4000 "~n?1!({!/&!6s!5VGr~#<~#%e~P!,~!=1"')
        facts("there is ink below", screen.wait_for(lambda rows: "1 ink below row 4000" in rows[22]), True)
        screen.type("inks")
        letters = ["1 with letters, 0 without", "member %d, note: Gr\u00f6\u00dfe" % other.me, "    ?1"]
        facts("its letters are listed", screen.wait_for(lambda rows: [row.encode("latin-1").decode() for row in rows[1:4]] == letters), True)
        screen.type("inks")
        facts("and the page is painted again", screen.wait_for(lambda rows: rows[3] == '   hello "you"'), True)
        facts("and that the other holds the same", comes(lambda: screen.asks("who", "same page")), True)
        screen.type("line 0 0 4 0")
        facts("a fault is told", screen.wait_for(lambda rows: rows[23] == "refused: word 6: missing"), True)
        screen.type("text 0 5 \"\u00e4\"")
        facts("another alphabet is refused", screen.wait_for(lambda rows: rows[23] == "refused: unknown"), True)
        screen.type("undo")
        facts("an undo takes it away", screen.wait_for(lambda rows: rows[1] == ""), True)
        screen.type("page 7/2")
        facts("a page is turned", screen.wait_for(lambda rows: rows[22].startswith("page 7/2") and rows[3] == ""), True)
        screen.type("page x")
        facts("a page that is none", screen.wait_for(lambda rows: rows[23] == "refused: page"), True)
        facts("somebody else is there", screen.wait_for(lambda rows: "1 other" in rows[22]), True)
        screen.type("who")
        facts("who is there", screen.wait_for(lambda rows: rows[23][:1].isdigit()), True)
    finally:
        facts("both end with 0", [screen.end(), other.end()], [0, 0])
