"""The board after this one. When a board is full, people go on in a session of another name, beside this one: on the same network, with the
same key. This program starts a second one that joins that session, or begins it, and serves its page."""
from __future__ import annotations

import hashlib
import os
import re
import subprocess
import sys
import threading
from typing import IO, Callable, Dict, List, Optional, Tuple
from urllib.parse import urlsplit

from .carriers.udp import PORTS
from .options import FIRST_PORT, Options

# the name of a session that a board goes on in
NAME = re.compile("[A-Za-z0-9._-]{1,40}")

# Boards that one run begins at most, together with those that these begin, and seconds that one may take to tell its address.
MOST = 4
PATIENCE = 30.0

# The variable that hands on the two ends of a pipe: it has a byte for each board that may still be begun.
LEFT = "WB_LIVE_BOARDS_LEFT"

# so many places that ports of this machine, or a group, have for sessions beside one another: a name is at one of them
PORT_PLACES, GROUP_PLACES = 256, 8_000
FIRST_GROUP_PORT = 24_300

# what the program prints when its page is served
ADDRESS = re.compile(r"^page (https?://\S+)$", re.MULTILINE)


class CannotFollow(Exception):
    """The next board is not begun, and why."""


def place_of(name: str, places: int) -> int:
    """The place of a session by its name: everyone who goes there finds the same."""
    return int.from_bytes(hashlib.sha256(name.encode()).digest()[:8], "big") % places


def network_words(options: Options, name: str) -> List[str]:
    """The words that name the network of a session beside ours."""
    if options.listen:
        raise CannotFollow("peers are named one by one: the next board is begun by hand")
    if options.broker:
        return ["--broker", options.broker.text + ("" if options.broker.scheme.startswith("ws") else "/" + name), *(["--ca", options.ca] if options.ca else [])]
    if options.lan:
        return ["--lan", "%s:%d" % (options.lan[0], FIRST_GROUP_PORT + place_of(name, GROUP_PLACES)), "--interface", options.interface]
    return [] if options.is_alone else ["--ports", "%d" % (FIRST_PORT + PORTS * (1 + place_of(name, PORT_PLACES)))]


def seen_words(options: Options) -> List[str]:
    """The words that say where its page is served: at the same address, on another port."""
    if options.origin:
        raise CannotFollow("this page stands behind a proxy: the next board is begun by hand")
    web = ["--web", "%s:0" % options.web[0], "--guests", "%d" % options.guests] if options.web and options.web[2] else []
    worse = [word for name, value in options.worse().items() if value for word in (["--" + name] if value is True else ["--" + name, "%s" % value])]
    return [*web, "--no-terminal", "--rate", "%d" % options.rate, *worse, *(["--teach"] if options.teach else [])]


def secret(text: str) -> int:
    """A text behind a number that a program is given in the place of a file: it stands in no list of processes, and on no disk."""
    reader, writer = os.pipe()
    os.write(writer, text.encode())
    os.close(writer)
    return reader


def boards_left() -> Tuple[int, int]:
    """The ends of the pipe: those of the program that began this one, or of a new one."""
    given = re.fullmatch("([0-9]{1,6}) ([0-9]{1,6})", os.environ.get(LEFT, ""))
    if given:
        return int(given[1]), int(given[2])
    reader, writer = os.pipe()
    os.set_blocking(reader, False)
    os.write(writer, bytes(MOST))
    return reader, writer


def told_address(told: IO[str]) -> Optional[str]:
    """The address that a program prints at its start; None if it ends before."""
    return next((found[1] for found in map(ADDRESS.match, told) if found), None)


class Following:
    """The boards that go on from this one, by their names."""

    def __init__(self, options: Options, is_full: Callable[[], bool]) -> None:
        self.options = options
        self.is_full = is_full
        self.left = boards_left()
        self.changed = threading.Lock()
        self.begun: Dict[str, Tuple[subprocess.Popen[str], str]] = {}

    def go_on(self, name: str, host: str) -> str:
        """The address of the page of a session, for a browser that calls this machine `host`. It is begun unless it runs already."""
        if not NAME.fullmatch(name):
            raise CannotFollow("no name of a session")
        with self.changed:
            found = self.begun.get(name)
            if found is None or found[0].poll() is not None:
                found = self.begun[name] = self.begin(name)
        address = urlsplit(found[1])
        return address._replace(netloc="%s:%d" % ("[%s]" % host if ":" in host else host, address.port or 80)).geturl()

    def begin(self, name: str) -> Tuple[subprocess.Popen[str], str]:
        """A program that holds the session, and the address of its page. CannotFollow while this board has room, and if too many were begun."""
        if not self.is_full():
            raise CannotFollow("this board has room")
        self.give_back([each for each, (program, _) in self.begun.items() if program.poll() is not None])
        try:
            os.read(self.left[0], 1)
        except BlockingIOError:
            raise CannotFollow("%d boards were begun already" % MOST) from None
        try:
            return self.start(name)
        except BaseException:
            os.write(self.left[1], b"\0")
            raise

    def give_back(self, names: List[str]) -> None:
        """In the place of each of these boards another may be begun."""
        for name in names:
            del self.begun[name]
            os.write(self.left[1], b"\0")

    def start(self, name: str) -> Tuple[subprocess.Popen[str], str]:
        options = self.options
        words = ["--session", name, *network_words(options, name), *seen_words(options), *(["--open"] if options.is_open else [])]
        secrets = [("--key", options.key or ""), ("--password-file", "%s:%s" % (options.login.name, options.login.password) if options.login else "")]
        given = [(word, secret(text)) for word, text in secrets if text]
        words += [part for word, number in given for part in (word, "/dev/fd/%d" % number)]
        program = subprocess.Popen([sys.executable, os.path.abspath(sys.argv[0]), *words], stdin=subprocess.DEVNULL, stdout=subprocess.PIPE, text=True,
                                   pass_fds=[number for _, number in given] + list(self.left), env={**os.environ, LEFT: "%d %d" % self.left})
        for _, number in given:
            os.close(number)
        guard = threading.Timer(PATIENCE, program.kill)
        guard.start()
        address = told_address(program.stdout) if program.stdout else None
        guard.cancel()
        if address is None:
            program.kill()
            raise CannotFollow("the next board was not begun: what it said stands where this program was started")
        # it prints no more than a few lines, which are of no use here
        threading.Thread(target=program.stdout.read, daemon=True).start()  # type: ignore[union-attr]
        return program, address

    def end(self) -> None:
        """The boards that were begun end with this one."""
        for program, _ in self.begun.values():
            program.terminate()
        self.give_back(list(self.begun))
