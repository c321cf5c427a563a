"""A broker that means harm: names that move a cursor, and packets without end. It speaks as much MQTT 5 as that takes."""
from __future__ import annotations

import contextlib
import socket
import threading
from typing import Callable, List, Optional, Tuple

import pytest

from live.carriers.carrier import Origin
from live.carriers.mqtt import MOST_NAME, Broker, BrokerSession, MqttCarrier
from live.sockets import acceptance
from ...facts import Facts
from ..test_carriers import Kept

SESSION = "class-7"

# bytes that are offered of a packet that has more, and those that a connection may take: what waits in the system of both ends
OFFERED, TAKEN = 64 << 20, 16 << 20


def packet(kind: int, body: bytes, told: Optional[int] = None) -> bytes:
    """A packet, which may tell another length than it has."""
    size, digits = len(body) if told is None else told, b""
    while True:
        size, digit = size >> 7, size & 127
        digits += bytes([digit | (128 if size else 0)])
        if not size:
            return bytes([kind]) + digits + body


def published(name: str, payload: bytes, told: Optional[int] = None) -> bytes:
    topic = ("wb/%s/%s" % (SESSION, name)).encode()
    return packet(0x30, len(topic).to_bytes(2, "big") + topic + b"\0" + payload, told)


class Liar:
    """A broker that does what a test says to each that comes: in plain TCP, or by a WebSocket."""

    def __init__(self, is_web: bool, lies: List[Callable[["Liar"], None]]) -> None:
        self.is_web = is_web
        self.lies = lies
        self.came = 0
        self.taken = 0
        self.go = threading.Event()  # somebody hears it
        self.listening = socket.create_server(("127.0.0.1", 0))
        threading.Thread(target=self.run, daemon=True).start()

    @property
    def broker(self) -> Broker:
        return Broker("ws" if self.is_web else "mqtt", "127.0.0.1", self.listening.getsockname()[1], "/mqtt" if self.is_web else "")

    def run(self) -> None:
        with contextlib.suppress(OSError):
            while True:
                self.link = self.listening.accept()[0]
                self.stream = self.link.makefile("rb")
                self.came += 1
                with contextlib.suppress(OSError, IndexError):
                    self.welcome()
                    self.go.wait(20)
                    self.lies[min(self.came, len(self.lies)) - 1](self)

    def welcome(self) -> None:
        """Lets somebody in, and to the session."""
        if self.is_web:
            head = b""
            while not head.endswith(b"\r\n\r\n"):
                head += self.stream.readline()
            key = [line.split(b": ")[1] for line in head.split(b"\r\n") if line.lower().startswith(b"sec-websocket-key")][0]
            self.link.sendall(("HTTP/1.1 101 Switching Protocols\r\nUpgrade: websocket\r\nConnection: Upgrade\r\nSec-WebSocket-Protocol: mqtt\r\n"
                               "Sec-WebSocket-Accept: %s\r\n\r\n" % acceptance(key.decode())).encode())
        self.hear()
        self.say(packet(0x20, b"\0\0\0"))
        self.say(packet(0x90, self.hear()[:2] + b"\0\0"))

    def hear(self) -> bytes:
        """The body of the next packet; each has a frame of its own."""
        if self.is_web:
            size = self.stream.read(2)[1] & 127
            size = int.from_bytes(self.stream.read(2), "big") if size == 126 else size
            mask = self.stream.read(4)
            return bytes(byte ^ mask[n % 4] for n, byte in enumerate(self.stream.read(size)))[2:]
        size = self.stream.read(2)[1]
        return self.stream.read(size)

    def say(self, data: bytes) -> None:
        self.link.sendall(self.frame(len(data)) + data)

    def frame(self, size: int) -> bytes:
        """The head of a frame of this many bytes, or nothing if there are no frames."""
        return b"\x82\x7f" + size.to_bytes(8, "big") if self.is_web else b""

    def pour(self, head: bytes, more: bytes) -> None:
        """What begins so, and goes on for as long as it is taken."""
        self.link.settimeout(5)
        self.link.sendall(head)
        while self.taken < OFFERED:
            self.taken += self.link.send(more)


def carrier_of(liar: Liar) -> Tuple[MqttCarrier, Kept]:
    carrier, kept = MqttCarrier(BrokerSession(liar.broker, SESSION, "1", None, None), b"x"), Kept()
    carrier.begin(kept)
    liar.go.set()
    return carrier, kept


def check_names(facts: Facts, is_web: bool) -> None:
    """A name that people can't be shown is nobody's."""
    good = ["anna", "\u00e4nne b", "n" * MOST_NAME, "last"]
    bad = ["\x1b[2J\x1b[31mroot", "a\nb", "\u202egnirts", "n" * (MOST_NAME + 1), "n" * 60_000, "", "\x00"]
    names = [*good[:3], *bad, good[3]]

    def lie(liar: Liar) -> None:
        for name in names:
            liar.say(published(name, name.encode()))

    liar = Liar(is_web, [lie])
    carrier, kept = carrier_of(liar)
    facts("the last name comes", kept.wait_for(b"last"), Origin("last"))
    facts("and those that can be shown", [origin.text for _, origin in kept.came], good)
    facts("all others are counted as none of the session's", kept.missed, len(bad))
    carrier.end()


def check_long(facts: Facts, is_web: bool) -> None:
    """A packet that is longer than was agreed ends the connection before it is held, and the next one carries again."""
    def endless(liar: Liar) -> None:
        head = published("anna", b"", 200 << 20)
        liar.pour(liar.frame(200 << 20) + head, bytes(1 << 16))

    def small(liar: Liar) -> None:
        """Small packets, of which a frame has no end."""
        liar.pour(liar.frame(200 << 20), 1_000 * published("anna", b"small"))

    def good(liar: Liar) -> None:
        liar.say(published("anna", b"again"))

    for name, lie in (("a packet without end", endless), ("a frame without end", small)):
        if lie is small and not is_web:
            continue
        liar = Liar(is_web, [lie, good])
        carrier, kept = carrier_of(liar)
        facts("after %s the next connection carries" % name, (kept.wait_for(b"again", 120), liar.came), (Origin("anna"), 2))
        facts.holds("%s is not taken: of %d MB %d" % (name, OFFERED >> 20, liar.taken >> 20), liar.taken < TAKEN, liar.taken)
        carrier.end()


@pytest.mark.parametrize("is_web", [False, True])
def test_names(facts: Facts, is_web: bool) -> None:
    check_names(facts, is_web)


@pytest.mark.parametrize("is_web", [False, True])
def test_long(facts: Facts, is_web: bool) -> None:
    check_long(facts, is_web)
