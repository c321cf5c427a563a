"""A member of NORM in a session of the comparison: norm_member.py NUMBER PORT MEMBERS PARITY

PORT is its place at the hub, PARITY how many datagrams of parity go with each drawing before anybody asks. Each drawing is an object of 42 bytes,
as long as a line of wb. group.py tells what it reads and prints.

The constants are chosen for this network: no control of congestion, 10 Mbit a second, a round trip of 50 ms, which nobody probes, and a group as
large as it is. Debian's header of the library is C++, so its few calls are declared here, for Python's ctypes.
"""

from __future__ import annotations

import ctypes
import os
import select
import socket
import struct
import sys
import time
from typing import Any

from . import needs

RATE, ROUND_TRIP, BACK_OFF = 10e6, 0.05, 4.0
SPACE = 1 << 20
SEGMENT, DATA, PARITY = 512, 16, 8  # bytes of a segment, and segments and parity of a block
CACHED = 4_096  # objects that may be asked for
COMPLETED = 20  # NORM_RX_OBJECT_COMPLETED
SYNC_ALL = 2  # NORM_SYNC_ALL: objects from before the first that was heard, too
NAME = struct.Struct(">II34x")

POINTER, WORD, REAL = ctypes.c_void_p, ctypes.c_uint, ctypes.c_double
SHORT, FLAG, TEXT = ctypes.c_uint16, ctypes.c_bool, ctypes.c_char_p
CALLS: dict[str, tuple[Any, list[Any]]] = {
    "NormCreateInstance": (POINTER, [FLAG]),
    "NormGetDescriptor": (ctypes.c_int, [POINTER]),
    "NormGetNextEvent": (FLAG, [POINTER, POINTER, FLAG]),
    "NormCreateSession": (POINTER, [POINTER, TEXT, SHORT, WORD]),
    "NormSetDefaultSyncPolicy": (None, [POINTER, ctypes.c_int]),
    "NormSetCongestionControl": (None, [POINTER, FLAG, FLAG]),
    "NormSetTxRate": (None, [POINTER, REAL]),
    "NormSetGrttEstimate": (None, [POINTER, REAL]),
    "NormSetGrttProbingMode": (None, [POINTER, ctypes.c_int]),
    "NormSetBackoffFactor": (None, [POINTER, REAL]),
    "NormSetGroupSize": (None, [POINTER, WORD]),
    "NormSetAutoParity": (None, [POINTER, ctypes.c_uint8]),
    "NormSetTxCacheBounds": (None, [POINTER, ctypes.c_long, ctypes.c_uint32, ctypes.c_uint32]),
    "NormSetRxCacheLimit": (None, [POINTER, ctypes.c_ushort]),
    "NormStartReceiver": (FLAG, [POINTER, ctypes.c_uint32]),
    "NormStartSender": (FLAG, [POINTER, SHORT, ctypes.c_uint32, SHORT, SHORT, SHORT, ctypes.c_uint8]),
    "NormChangeDestination": (FLAG, [POINTER, TEXT, SHORT, FLAG]),
    "NormDataEnqueue": (POINTER, [POINTER, TEXT, ctypes.c_uint32, TEXT, WORD]),
    "NormObjectGetSize": (ctypes.c_long, [POINTER]),
    "NormDataAccessData": (POINTER, [POINTER]),
    "NormStopInstance": (None, [POINTER]),
    "NormDestroyInstance": (None, [POINTER]),
}


class Event(ctypes.Structure):
    """`NormEvent`."""

    _fields_ = [("kind", ctypes.c_int), ("session", POINTER), ("sender", POINTER), ("object", POINTER)]


def load() -> ctypes.CDLL:
    library = needs.norm()
    for name, (result, arguments) in CALLS.items():
        call = getattr(library, name)
        call.restype, call.argtypes = result, arguments
    return library


def free_port() -> int:
    with socket.socket(socket.AF_INET, socket.SOCK_DGRAM) as found:
        found.bind(("127.0.0.1", 0))
        return int(found.getsockname()[1])


class Member:
    """A sender and a receiver, which hears at a port of its own and sends to the hub."""

    def __init__(self, number: int, place: int, members: int, parity: int) -> None:
        self.number = number
        self.objects: list[bytes] = []  # the library does not copy what it is given
        self.norm = norm = load()
        self.instance = norm.NormCreateInstance(False)
        self.port = free_port()
        self.session = session = norm.NormCreateSession(self.instance, b"127.0.0.1", self.port, number)
        norm.NormSetDefaultSyncPolicy(session, SYNC_ALL)
        norm.NormSetCongestionControl(session, False, False)
        norm.NormSetTxRate(session, RATE)
        norm.NormSetGrttEstimate(session, ROUND_TRIP)
        norm.NormSetGrttProbingMode(session, 0)
        norm.NormSetBackoffFactor(session, BACK_OFF)
        norm.NormSetGroupSize(session, members)
        norm.NormSetAutoParity(session, parity)
        norm.NormSetTxCacheBounds(session, SPACE, 1, CACHED)
        norm.NormSetRxCacheLimit(session, CACHED)
        if not norm.NormStartReceiver(session, SPACE) or not norm.NormStartSender(session, number, SPACE, SEGMENT, DATA, PARITY, 0):
            raise OSError("NORM does not start")
        norm.NormChangeDestination(session, b"127.0.0.1", place, False)

    def draw(self) -> None:
        drawn, now = len(self.objects) + 1, time.monotonic_ns()
        self.objects.append(NAME.pack(self.number, drawn))
        if not self.norm.NormDataEnqueue(self.session, self.objects[-1], NAME.size, None, 0):
            raise OSError("NORM takes no object")
        print("drew", self.number, drawn, now, flush=True)

    def hear(self) -> None:
        """Takes all events that there are."""
        event = Event()
        while self.norm.NormGetNextEvent(self.instance, ctypes.byref(event), False):
            if event.kind == COMPLETED:
                data = ctypes.string_at(self.norm.NormDataAccessData(event.object), self.norm.NormObjectGetSize(event.object))
                print("has", *NAME.unpack(data), time.monotonic_ns(), flush=True)

    def run(self) -> None:
        """Draws once for each line of its input, until that ends."""
        events = self.norm.NormGetDescriptor(self.instance)
        print("hears", self.port, flush=True)
        while True:
            ready, _, _ = select.select([sys.stdin, events], [], [])
            if events in ready:
                self.hear()
            if sys.stdin in ready:
                lines = os.read(sys.stdin.fileno(), 4_096)
                if not lines:
                    break
                for _ in range(lines.count(b"\n")):
                    self.draw()
        self.norm.NormStopInstance(self.instance)
        self.norm.NormDestroyInstance(self.instance)


if __name__ == "__main__":
    Member(*map(int, sys.argv[1:])).run()
