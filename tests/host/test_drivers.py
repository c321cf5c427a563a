"""The smallest drivers of a self-managing host, over UDP on this machine, of which each third datagram is lost."""

from __future__ import annotations

import random
import shutil
import socket
import subprocess
import sys
import threading
import time
from pathlib import Path

from .program import TOP, host, program

DRAWINGS = 12
LOST = 1 / 3
PATIENCE = 60.0  # seconds
PYTHON = [sys.executable, str(TOP / "examples" / "keep.py")]


class Relay(threading.Thread):
    """Carries what each driver sends to another, and loses some of it."""

    def __init__(self, count: int) -> None:
        super().__init__(daemon=True)
        self.ports = [free_port() for _ in range(count)]
        self.ways = {(one, other): bound() for one in range(count) for other in range(count) if one != other}
        self.random = random.Random(50)
        self.carried = self.lost = 0
        self.open = True

    def others_of(self, one: int) -> list[str]:
        """The ports to which a driver sends."""
        return [str(way.getsockname()[1]) for (sender, _), way in self.ways.items() if sender == one]

    def run(self) -> None:
        while self.open:
            for (_, other), way in self.ways.items():
                self.carry(way, self.ports[other])
            time.sleep(0.001)

    def carry(self, way: socket.socket, port: int) -> None:
        while True:
            try:
                datagram = way.recv(65535)
            except BlockingIOError:
                return
            if self.random.random() < LOST:
                self.lost += 1
            else:
                self.carried += 1
                way.sendto(datagram, ("127.0.0.1", port))


def bound() -> socket.socket:
    way = socket.socket(socket.AF_INET, socket.SOCK_DGRAM)
    way.bind(("127.0.0.1", 0))
    way.setblocking(False)
    return way


def free_port() -> int:
    with bound() as way:
        return int(way.getsockname()[1])


def recording(folder: Path, number: int) -> Path:
    """A program that records what a host is given."""
    script = folder / f"host-{number}"
    script.write_text(f'#!/bin/bash\ntee {folder}/record-{number} | {program()} "$@"\n')
    script.chmod(0o755)
    return script


def shown(folder: Path, number: int) -> str:
    """What a host shows of the page after what it was given, as far as its record goes."""
    path = folder / f"record-{number}"
    record = path.read_text() if path.exists() else ""  # a driver may take long to start its host
    whole = record[: record.rfind("\n") + 1]
    printed = host(f"{whole}report 1 1\ngaps 1 1\nshow 1 1 40 12\n").rpartition("report ")[2]
    return "".join(line for line in printed.splitlines(keepends=True) if not line.startswith("ok "))


def test_drivers(tmp_path: Path) -> None:
    """They show the same in the end. The last of three is that for Node, where there is one."""
    node = shutil.which("node")
    commands = [PYTHON, PYTHON, [node, str(TOP / "examples" / "keep.js")] if node else PYTHON]
    relay = Relay(len(commands))
    relay.start()
    drivers: list[subprocess.Popen[bytes]] = []
    try:
        folder = tmp_path
        for number, command in enumerate(commands):
            words = [*command, str(recording(folder, number)), str(number + 1), str(relay.ports[number]), *relay.others_of(number)]
            drivers.append(subprocess.Popen(words, stdin=subprocess.PIPE, stderr=subprocess.PIPE))
        for drawing in range(DRAWINGS):
            pipe = drivers[drawing % len(drivers)].stdin
            assert pipe
            pipe.write(f'text 0 {drawing} "drawing {drawing}"\n'.encode())
            pipe.flush()
            time.sleep(0.05)
        whole, end = "", time.monotonic() + PATIENCE
        while time.monotonic() < end:
            time.sleep(0.5)
            shows = [shown(folder, number) for number in range(len(drivers))]
            if len(set(shows)) == 1 and all(f"drawing {drawing} " in shows[0] for drawing in range(DRAWINGS)):
                whole = shows[0]
                break
    finally:
        for driver in drivers:
            driver.kill()
            driver.communicate()
        relay.open = False
        relay.join()
    assert whole, "what they show goes apart"
    assert relay.lost > 0, "nothing that they sent was lost"


def test_page() -> None:
    """docs/HOST.md has the lines of the example in Python."""
    example = (TOP / "examples" / "keep.py").read_text()
    lines = example[example.index("def tell") :]
    assert f"```python\n{lines}```\n" in (TOP / "docs" / "HOST.md").read_text(), "docs/HOST.md has the lines of examples/keep.py"
