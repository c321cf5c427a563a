"""What moves a member's bytes, from docs/PROTOCOL.md alone: the ports of one machine, and streams at their numbers."""

from __future__ import annotations

import os
import select
import socket
import threading
import time
from collections.abc import Callable, Hashable, Iterator
from random import Random
from typing import Optional

from .codec import Operation, Page
from .envelope import FRESH, QUESTION, Seal, asks, piece
from .member import Member

HERE = "127.0.0.1"
PORTS = 32
LONGEST = 65_536
PATIENCE = 30.0
HEADER = 8


class Station:
    """A member at a port of this machine, in a thread of its own, until it ends. It loses a share of what comes in. For tests its clock may run faster."""

    def __init__(self, member: Member, first_port: int, random: Random, seal: Optional[Seal] = None, lose: float = 0.0, speed: float = 1.0) -> None:
        self.member, self.random, self.seal, self.lose, self.speed = member, random, seal, lose, speed
        self.began = time.monotonic()
        self.lock = threading.Lock()
        self.is_open = True
        self.streams_given = 0
        self.origins: dict[tuple[str, int], Hashable] = {}  # of each address the origin of what came last
        self.socket, self.port = first_free(first_port)
        self.others = [(HERE, port) for port in range(first_port, first_port + PORTS) if port != self.port]
        self.listening = socket.create_server((HERE, self.port))
        self.threads = [threading.Thread(target=run, daemon=True) for run in (self.run, self.give_streams)]
        for thread in self.threads:
            thread.start()

    def now(self) -> int:
        return int((time.monotonic() - self.began) * self.speed * 1e6)

    def send(self, datagrams: list[bytes]) -> None:
        for datagram in datagrams:
            data = self.seal.wrap(datagram) if self.seal else datagram
            for other in self.others:
                self.socket.sendto(data, other)

    def run(self) -> None:
        while self.is_open:
            wait = max(0.0, (self.member.due() - self.now()) / 1e6 / self.speed)
            ready, _, _ = select.select([self.socket], [], [], min(wait, 0.1))
            with self.lock:
                if ready:
                    self.take(*self.socket.recvfrom(LONGEST))
                if self.member.due() <= self.now():
                    self.send(self.member.tick(self.now()))

    def take(self, data: bytes, address: tuple[str, int]) -> None:
        if self.random.random() < self.lose:
            return
        origin, datagram = self.seal.unwrap(data) if self.seal else (address, data)
        if datagram:
            self.origins[address] = origin
            self.member.come(self.now(), datagram, origin)

    def draw(self, page: Page, operation: Operation) -> None:
        with self.lock:
            self.send([self.member.draw(self.now(), page, operation)])

    def ask(self, look: Callable[[Member], bool]) -> bool:
        with self.lock:
            return look(self.member)

    def end(self) -> None:
        self.is_open = False
        self.listening.shutdown(socket.SHUT_RDWR)
        self.listening.close()
        for thread in self.threads:
            thread.join()
        self.socket.close()

    # ---- streams

    def give_streams(self) -> None:
        while self.is_open:
            try:
                stream, _ = self.listening.accept()
            except OSError:
                return
            with stream:
                stream.settimeout(1.0)
                self.streams_given += self.give(stream)

    def give(self, stream: socket.socket) -> bool:
        """Whether a stream was asked for, and given to its end."""
        with self.lock:
            data = self.member.stream()
        try:
            return self.give_sealed(stream, data, self.seal) if self.seal else give_plain(stream, data)
        except OSError:
            return False

    def give_sealed(self, stream: socket.socket, data: bytes, seal: Seal) -> bool:
        fresh = os.urandom(FRESH)
        stream.sendall(fresh)
        said = seal.open(next_piece(stream), fresh) or b""
        is_asked = said[FRESH:] == QUESTION
        for at in range(0, len(data) if is_asked else 0, LONGEST):
            stream.sendall(piece(seal.close(data[at:at + LONGEST], fresh + said[:FRESH])))
        return is_asked

    def trusts(self, port: int) -> bool:
        with self.lock:
            return self.member.trusts(self.now(), self.origins.get((HERE, port), port))

    def take_stream(self, port: int) -> int:
        """Takes all drawops of the member at a port, and gives how many bytes came."""
        with socket.create_connection((HERE, port), timeout=PATIENCE) as stream:
            data = b"".join(self.parts(stream))
        with self.lock:
            for datagram in datagrams_in(data):
                self.member.come(self.now(), datagram, self.origins[HERE, port])
        return len(data)

    def parts(self, stream: socket.socket) -> Iterator[bytes]:
        if not self.seal:
            stream.sendall(QUESTION)
            while data := stream.recv(LONGEST):
                yield data
            return
        given, ours = exactly(stream, FRESH), os.urandom(FRESH)
        stream.sendall(asks(self.seal, given, ours))
        while sealed := next_piece(stream):
            opened = self.seal.open(sealed, given + ours)
            if opened is None:
                return
            yield opened


def first_free(first: int) -> tuple[socket.socket, int]:
    for port in range(first, first + PORTS):
        made = socket.socket(socket.AF_INET, socket.SOCK_DGRAM)
        try:
            made.bind((HERE, port))
            return made, port
        except OSError:
            made.close()
    raise OSError("no port is free")


def give_plain(stream: socket.socket, data: bytes) -> bool:
    is_asked = exactly(stream, len(QUESTION)) == QUESTION
    stream.sendall(data if is_asked else b"")
    return is_asked


def exactly(stream: socket.socket, size: int) -> bytes:
    """As many bytes, or fewer at the end of the stream."""
    data = b""
    while len(data) < size and (part := stream.recv(size - len(data))):
        data += part
    return data


def next_piece(stream: socket.socket) -> bytes:
    return exactly(stream, int.from_bytes(exactly(stream, 4), "big"))


def datagrams_in(data: bytes) -> Iterator[bytes]:
    """Each datagram says how long it is."""
    at = 0
    while at + HEADER <= len(data):
        size = HEADER + int.from_bytes(data[at + 4:at + HEADER], "big")
        yield data[at:at + size]
        at += size
