"""Debian's mosquitto, as docs/LIVE.md has its file, in a network and with folders of its own, so that nothing of the machine changes."""
from __future__ import annotations

import os
import re
import shutil
import socket
import subprocess
import tempfile
import time
from pathlib import Path
from typing import Dict, List, Optional

from .inside import way_inside
from .members import PATIENCE, TOP

ETC = "/etc/mosquitto"
TLS_PORT = 8883
WEB_PORT = 9001
PLAIN_PORT = 1883

NAMES = ["m%d" % number for number in range(1, 9)] + ["mallory", "stranger"]


def found(program: str) -> Optional[str]:
    return shutil.which(program) or shutil.which("/usr/sbin/" + program)


def way_to_etc() -> List[str]:
    """The command that runs another in a network of its own, with its own files of the broker."""
    return way_inside("mount", "-t", "tmpfs", "tmpfs", ETC) if os.path.isdir(ETC) else []


def documented() -> Dict[str, str]:
    """The files of docs/LIVE.md for a broker, by their paths."""
    block = re.search("(?m)^    # /etc/mosquitto/conf.d/.*\n(?:    .*\n)+", (TOP / "docs" / "LIVE.md").read_text())
    files: Dict[str, str] = {}
    path = ""
    for line in (block[0] if block else "").split("\n"):
        line = line[4:]
        if line.startswith("# /"):
            path = line[2:]
            files[path] = ""
        elif path:
            files[path] += line + "\n"
    return files


def make_certificate(folder: Path, name: str, host: str) -> Path:
    """A certificate that vouches for itself, and its key."""
    made = folder / ("%s.pem" % name)
    subprocess.run(
        ["openssl", "req", "-x509", "-newkey", "ec", "-pkeyopt", "ec_paramgen_curve:prime256v1", "-nodes", "-days", "2", "-subj", "/CN=wb test",
         "-addext", "subjectAltName=" + host, "-keyout", str(folder / ("%s.key" % name)), "-out", str(made)],
        check=True, capture_output=True)
    return made


class Mosquitto:
    """A broker that can be stopped and started again."""

    def __init__(self, configuration: Path, port: int) -> None:
        self.configuration = configuration
        self.port = port
        self.process: Optional["subprocess.Popen[bytes]"] = None
        self.start()

    def start(self) -> None:
        self.process = subprocess.Popen([str(found("mosquitto")), "-c", str(self.configuration)], cwd=self.configuration.parent,
                                        stdin=subprocess.DEVNULL, stdout=subprocess.DEVNULL, stderr=subprocess.DEVNULL)
        end = time.monotonic() + PATIENCE
        while time.monotonic() < end:
            try:
                socket.create_connection(("127.0.0.1", self.port), timeout=1).close()
                return
            except OSError:
                time.sleep(0.05)

    def stop(self) -> None:
        if self.process:
            self.process.terminate()
            self.process.wait(PATIENCE)
            self.process = None


class BrokerFiles:
    """The files of brokers, and of those who come to them."""

    def __init__(self) -> None:
        self.folder = tempfile.TemporaryDirectory(prefix="wb-broker-")
        self.path = Path(self.folder.name)
        self.path.chmod(0o755)
        self.brokers: List[Mosquitto] = []
        for name, host in (("own", "IP:127.0.0.1,DNS:broker.example.org"), ("other", "IP:127.0.0.1")):
            make_certificate(self.path, name, host)
        for name in NAMES:
            self.login(name, "secret of " + name)
        self.login("wrong", "no secret", "m1")

    def login(self, file: str, password: str, name: str = "") -> None:
        path = self.path / ("%s.login" % file)
        path.touch(0o600)
        path.write_text("%s:%s\n" % (name or file, password))

    def sealed(self) -> Mosquitto:
        """The broker of docs/LIVE.md, as it stands there."""
        subprocess.run(["mount", "-t", "tmpfs", "tmpfs", ETC], check=True)
        files = documented()
        files[ETC + "/certs/wb.pem"] = (self.path / "own.pem").read_text()
        files[ETC + "/certs/wb.key"] = (self.path / "own.key").read_text()
        for path, text in files.items():
            Path(path).parent.mkdir(parents=True, exist_ok=True)
            Path(path).write_text(text)
        passwords = ETC + "/wb.passwords"
        for number, name in enumerate(NAMES):
            subprocess.run([str(found("mosquitto_passwd")), "-b", *([] if number else ["-c"]), passwords, name, "secret of " + name], check=True, capture_output=True)
        for path in [*files, passwords]:
            os.chmod(path, 0o644)
        return self.begin(Mosquitto(Path(next(iter(files))), TLS_PORT))

    def open(self) -> Mosquitto:
        """A broker that asks for no name, for browsers too."""
        configuration = self.path / "open.conf"
        configuration.write_text("listener %d 127.0.0.1\nlistener %d\nprotocol websockets\nallow_anonymous true\nuser root\n" % (PLAIN_PORT, WEB_PORT))
        return self.begin(Mosquitto(configuration, PLAIN_PORT))

    def begin(self, broker: Mosquitto) -> Mosquitto:
        self.brokers.append(broker)
        return broker

    def end(self) -> None:
        for broker in self.brokers:
            broker.stop()
        self.folder.cleanup()
