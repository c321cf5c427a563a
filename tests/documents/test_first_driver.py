"""docs/FIRST-DRIVER.md: its program is that of examples, and whoever does what it says sees what it shows."""

from __future__ import annotations

import os
import re
import select
import socket
import subprocess
import sys
import time
from collections.abc import Iterator

import pytest

from ..host.program import program
from .sources import TOP

PAGE = (TOP / "docs/FIRST-DRIVER.md").read_text()
EXAMPLE = TOP / "examples/first_driver.py"
PATIENCE = 60.0  # seconds

STEP = re.compile(
    r"^    python3 examples/first_driver\.py (?P<me>\d+) (?P<port>\d+) (?P<other>\d+)$"
    r"|In\s+terminal\s+(?P<typist>\d+),\s+(?:type\s+`(?P<typed>[^`]+)`|press\s+Enter)"
    r"|Terminal\s+(?P<viewer>\d+)\s+shows[^:]*:\n\n```\n(?P<shown>[^`]*)```$",
    re.MULTILINE,
)


def test_program() -> None:
    """The blocks of the page, one after the other, are the example after its first comment."""
    blocks = re.findall(r"^```python\n(.*?)^```$", PAGE, re.MULTILINE | re.DOTALL)
    example = EXAMPLE.read_text()
    assert "\n\n".join(blocks).split() == example[example.index("import os") :].split()


class Terminal:
    """A driver, and what it has shown so far."""

    def __init__(self, words: list[str]) -> None:
        environment = {**os.environ, "WB_PROGRAM": program(), "PYTHONUNBUFFERED": "1"}
        command = [sys.executable, str(EXAMPLE), *words]
        self.driver = subprocess.Popen(command, env=environment, cwd=TOP, stdin=subprocess.PIPE, stdout=subprocess.PIPE)
        assert self.driver.stdin and self.driver.stdout
        self.keyboard, self.screen = self.driver.stdin, self.driver.stdout
        self.shown = ""

    def type(self, line: str) -> None:
        self.keyboard.write(f"{line}\n".encode())
        self.keyboard.flush()

    def sees(self, rows: str) -> bool:
        """Whether it comes to show these rows last, within the time that a reader would wait."""
        end = time.monotonic() + PATIENCE
        while not self.shown.endswith(rows) and time.monotonic() < end:
            if select.select([self.screen], [], [], 1)[0]:
                read = os.read(self.screen.fileno(), 65536)
                if not read:
                    break
                self.shown += read.decode()
        return self.shown.endswith(rows)

    def end(self) -> None:
        self.driver.kill()
        self.driver.communicate()


@pytest.fixture
def terminals() -> Iterator[dict[str, Terminal]]:
    opened: dict[str, Terminal] = {}
    yield opened
    for terminal in opened.values():
        terminal.end()


def free_ports(count: int) -> list[str]:
    ways = [socket.socket(socket.AF_INET, socket.SOCK_DGRAM) for _ in range(count)]
    for way in ways:
        way.bind(("127.0.0.1", 0))
    ports = [str(way.getsockname()[1]) for way in ways]
    for way in ways:
        way.close()
    return ports


def test_steps(terminals: dict[str, Terminal]) -> None:
    steps = [it.groupdict() for it in STEP.finditer(PAGE)]
    named = sorted({step["port"] for step in steps if step["port"]})
    ports = dict(zip(named, free_ports(len(named))))
    assert len([step for step in steps if step["me"]]) == 3 and len([step for step in steps if step["viewer"]]) == 6
    for step in steps:
        if step["me"]:
            terminals[step["me"]] = Terminal([step["me"], ports[step["port"]], ports[step["other"]]])
        elif step["typed"]:
            terminals[step["typist"]].type(step["typed"])
        elif step["typist"]:
            terminals[step["typist"]].type("")
            assert terminals[step["typist"]].driver.wait(PATIENCE) == 0
        else:
            viewer = terminals[step["viewer"]]
            assert viewer.sees(step["shown"]), f"terminal {step['viewer']} showed\n{viewer.shown}and never\n{step['shown']}"
