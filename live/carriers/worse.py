"""Any carrier, made worse on purpose where datagrams come in: they are lost, delayed, doubled, and come out of order."""
from __future__ import annotations

import random
from typing import TYPE_CHECKING

from ..inbox import Arrival, Inbox
from .carrier import Carrier, Origin, Over

if TYPE_CHECKING:
    from ..options import Options

# the least milliseconds over which datagrams are mixed
LEAST_MIX = 20.0


class Worse(Over):
    """The words say how much worse, and may come to say otherwise at any time."""

    inbox: Inbox

    def __init__(self, under: Carrier, words: Options) -> None:
        super().__init__(under)
        self.words = words

    def arrive(self, data: bytes, origin: Origin) -> None:
        if random.random() < self.words.lose:
            self.inbox.put(Arrival(data, origin, is_lost=True), 0.0)
            return
        self.inbox.put(Arrival(data, origin), self.delay())
        if random.random() < self.words.twice:
            self.inbox.put(Arrival(data, origin, is_second=True), self.delay())

    def delay(self) -> float:
        words = self.words
        spread = random.uniform(0.0, max(words.delay, LEAST_MIX)) if words.mix else 0.0
        return (words.delay + spread) / 1000 / words.speed
