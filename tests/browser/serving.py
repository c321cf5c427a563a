"""Serves the folder to a browser, under a path of its own, and a broker to carry a session."""
from __future__ import annotations

import functools
import http.server
import shutil
import signal
import subprocess
import tempfile
import threading
import time
from pathlib import Path
from typing import Optional

SUB_PATH = "some/where"
BROKER_PORT = 9001


class Quiet(http.server.SimpleHTTPRequestHandler):
    """Files as any plain server gives them, without a log. Modules go by a type that says nothing, as from servers that know no better."""

    extensions_map = {**http.server.SimpleHTTPRequestHandler.extensions_map, ".wasm": "application/octet-stream"}

    def log_message(self, format: str, *words: object) -> None:
        pass


class Folder:
    """A server of a copy of the folder at a path of 127.0.0.1, which can be stopped and started again."""

    def __init__(self, page: Path) -> None:
        self.room = tempfile.mkdtemp(prefix="wb-served-")
        shutil.copytree(page, Path(self.room) / SUB_PATH)
        self.port = 0
        self.start()

    def start(self) -> None:
        handler = functools.partial(Quiet, directory=self.room)
        self.server = http.server.ThreadingHTTPServer(("127.0.0.1", self.port), handler)
        self.port = self.server.server_address[1]
        self.thread = threading.Thread(target=self.server.serve_forever, daemon=True)
        self.thread.start()

    def stop(self) -> None:
        self.server.shutdown()
        self.server.server_close()
        self.thread.join()

    def address(self, fragment: str = "") -> str:
        return "http://127.0.0.1:%d/%s/%s" % (self.port, SUB_PATH, fragment)

    def end(self) -> None:
        self.stop()
        shutil.rmtree(self.room, ignore_errors=True)


class Broker:
    """A mosquitto of this test's own. Its WebSockets are for every interface, so it runs where there is none but the loopback."""

    def __init__(self, program: str) -> None:
        self.room = tempfile.mkdtemp(prefix="wb-broker-")
        self.program = program
        self.process: Optional[subprocess.Popen[bytes]] = None
        # a broker of this version does not start with a listener for WebSockets alone
        (Path(self.room) / "conf").write_text("listener 1883 127.0.0.1\nlistener %d\nprotocol websockets\nallow_anonymous true\nuser root\n" % BROKER_PORT)
        self.start()

    def start(self) -> None:
        self.process = subprocess.Popen([self.program, "-c", "conf"], cwd=self.room, stdin=subprocess.DEVNULL,
                                        stdout=subprocess.DEVNULL, stderr=subprocess.DEVNULL)
        time.sleep(0.3)

    def stop(self) -> None:
        if self.process:
            self.process.terminate()
            self.process.wait(10)
            self.process = None

    def freeze(self, is_frozen: bool) -> None:
        """Its connections stand, and nothing comes by them: as on a network that is dead and tells no fault."""
        if self.process:
            self.process.send_signal(signal.SIGSTOP if is_frozen else signal.SIGCONT)

    @property
    def address(self) -> str:
        return "ws://127.0.0.1:%d/mqtt" % BROKER_PORT

    def end(self) -> None:
        self.stop()
        shutil.rmtree(self.room, ignore_errors=True)
