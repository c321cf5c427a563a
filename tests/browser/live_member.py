"""A member of `wb-live` in a session that a broker carries, beside those of browsers."""
from __future__ import annotations

import os
import shutil
import signal
import subprocess
import sys
import tempfile
from pathlib import Path
from typing import Optional

TOP = Path(__file__).resolve().parent.parent.parent
PATIENCE = 60.0


# what wb-live takes for a broker and a key, which not each Python of a machine has
TAKES = "import paho.mqtt.client, cryptography.hazmat.primitives.ciphers.aead"


def find_python() -> Optional[str]:
    """A Python that has what wb-live takes for a broker."""
    pythons = (sys.executable, "/usr/bin/python3")
    return next((python for python in pythons if shutil.which(python) and not subprocess.run([python, "-c", TAKES], capture_output=True, check=False).returncode), None)


def why_not() -> Optional[str]:
    """Why there is no such member here."""
    python = find_python()
    if not python:
        return "no Python here has paho.mqtt and cryptography (apt-get install python3-paho-mqtt python3-cryptography)"
    told = subprocess.run([python, str(TOP / "wb-live"), "--help"], stdout=subprocess.PIPE, text=True, check=False, timeout=PATIENCE).stdout
    return None if "--broker" in told else "wb-live has no --broker"


class LiveMember:
    """Started by an invitation, with a state of its own; `page` is the address of its page, or empty where it did not start."""

    def __init__(self, program: str, invitation: str) -> None:
        self.room = tempfile.mkdtemp(prefix="wb-state-")
        self.log = Path(self.room) / "log"
        environment = {**os.environ, "WB_PROGRAM": program, "XDG_STATE_HOME": self.room}
        with self.log.open("w") as log:
            self.process = subprocess.Popen([str(find_python()), str(TOP / "wb-live"), invitation, "--no-terminal"], stdin=subprocess.DEVNULL,
                                            stdout=subprocess.PIPE, stderr=log, text=True, env=environment)
        assert self.process.stdout
        self.page = next((line.split()[1] for line in self.process.stdout if line.startswith("page ")), "")

    def fault(self) -> str:
        return self.log.read_text()[-600:]

    def end(self) -> None:
        self.process.send_signal(signal.SIGTERM)
        try:
            self.process.wait(10)
        except subprocess.TimeoutExpired:
            self.process.kill()
            self.process.wait()
        shutil.rmtree(self.room, ignore_errors=True)
