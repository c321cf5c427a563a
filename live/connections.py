"""The connections of the page's server: a limited number at a time, each with a time for its request. The oldest idle one goes first, and then whoever
does not read what it asked for."""
from __future__ import annotations

import socket
import threading
import time
from collections import Counter
from typing import Dict, List, Set, Tuple

# connections of all kinds, and seconds from the beginning of one to the end of its request: a browser on a busy machine opens some, and asks much later
MOST_CONNECTIONS = 512
REQUEST_TIME = 20.0
PAUSE = 0.5

# requests of one browser that are answered at a time, beside its streams
MOST_ANSWERED = 8


class Connections:
    """Those that have not asked yet, those that are answered, each with its address and its cookie, and streams; the oldest first."""

    def __init__(self) -> None:
        self.lock = threading.Lock()
        self.idle: Dict[socket.socket, float] = {}
        self.answered: Dict[socket.socket, Tuple[str, str]] = {}
        self.streams: Set[socket.socket] = set()

    def begin(self) -> None:
        threading.Thread(target=self.watch, daemon=True).start()

    def watch(self) -> None:
        """Ends those whose request takes too long, byte by byte as it may come."""
        while True:
            time.sleep(PAUSE)
            with self.lock:
                last = time.monotonic() - REQUEST_TIME
                for connection in [each for each, began in self.idle.items() if began < last]:
                    self.drop(connection)

    def count(self) -> int:
        return len(self.idle) + len(self.answered) + len(self.streams)

    def admit(self, connection: socket.socket) -> bool:
        """Whether there is room for a connection. The oldest that has not asked yet makes room for it; if all have, the oldest of the address of which
        most are answered."""
        with self.lock:
            if self.count() >= MOST_CONNECTIONS:
                leaving = list(self.idle) or self.crowd()
                if not leaving:
                    return False
                self.drop(leaving[0])
            self.idle[connection] = time.monotonic()
            return True

    def crowd(self) -> List[socket.socket]:
        counts = Counter(address for address, _ in self.answered.values())
        return [each for each, (address, _) in self.answered.items() if counts[address] == max(counts.values())]

    def drop(self, connection: socket.socket) -> None:
        self.forget(connection)
        try:
            connection.shutdown(socket.SHUT_RDWR)
        except OSError:
            pass

    def forget(self, connection: socket.socket) -> bool:
        """Whether it was there."""
        self.streams.discard(connection)
        return self.idle.pop(connection, None) is not None or self.answered.pop(connection, None) is not None

    def rest(self, connection: socket.socket) -> None:
        """A request was answered: its connection may have another one, and is idle until then."""
        with self.lock:
            if self.forget(connection):
                self.idle[connection] = time.monotonic()

    def asked(self, connection: socket.socket, address: str = "", cookie: str = "") -> bool:
        """A whole request came. Whether its connection is still there. The oldest of too many of one browser goes."""
        with self.lock:
            if not self.forget(connection):
                return False
            same = [each for each, (_, of) in self.answered.items() if of == cookie] if cookie else []
            if len(same) >= MOST_ANSWERED:
                self.drop(same[0])
            self.answered[connection] = address, cookie
            return True

    def stream(self, connection: socket.socket) -> None:
        """It is a stream from now on, of which others have the bound."""
        with self.lock:
            if self.forget(connection):
                self.streams.add(connection)

    def end(self, connection: socket.socket) -> None:
        """A connection's thread is at its end."""
        with self.lock:
            self.forget(connection)
