"""The clock of a session: moments in microseconds that never go back; and the time of day."""
from __future__ import annotations

import time

SECOND = 1_000_000


def wall() -> int:
    """The time of day of this machine, in microseconds: the later drawing lies on top."""
    return time.time_ns() // 1000


class Clock:
    """Moments count from a start that lies above every moment of the record. A test's clock may run faster."""

    def __init__(self, start: int = 0, speed: float = 1.0) -> None:
        self.start = start
        self.speed = speed
        self.began = time.monotonic_ns()

    def now(self) -> int:
        """The present moment, in microseconds of the session."""
        return self.start + int((time.monotonic_ns() - self.began) * self.speed) // 1000

    def seconds_until(self, moment: int) -> float:
        """How many seconds of a person's time pass until a moment; 0 where it is past."""
        return max(0, moment - self.now()) / 1e6 / self.speed
