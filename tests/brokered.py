"""A mosquitto of one's own at 127.0.0.1, which can be ended and begun again."""
from __future__ import annotations

import shutil
import socket
import subprocess
import tempfile
import time
from pathlib import Path
from typing import Optional

PATIENCE = 20.0


def find_mosquitto() -> Optional[str]:
    return shutil.which("mosquitto") or next((path for path in ("/usr/sbin/mosquitto",) if Path(path).exists()), None)


class Mosquitto:
    def __init__(self, program: str, port: int) -> None:
        self.room = tempfile.mkdtemp(prefix="wb-mosquitto-")
        self.words = [program, "-c", self.room + "/conf"]
        self.port = port
        Path(self.room, "conf").write_text("listener %d 127.0.0.1\nallow_anonymous true\npersistence false\n" % port)
        self.begin()

    def begin(self) -> None:
        self.process = subprocess.Popen(self.words, stdout=subprocess.DEVNULL, stderr=subprocess.DEVNULL)
        end = time.monotonic() + PATIENCE
        while time.monotonic() < end:
            with socket.socket() as found:
                if found.connect_ex(("127.0.0.1", self.port)) == 0:
                    return
            time.sleep(0.05)
        raise OSError("mosquitto does not answer")

    def stop(self) -> None:
        self.process.kill()
        self.process.wait()

    def end(self) -> None:
        self.stop()
        shutil.rmtree(self.room, ignore_errors=True)
