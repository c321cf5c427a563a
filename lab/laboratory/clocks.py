"""The clocks of members: each begins at a moment of its own, and may run fast or slow."""
from __future__ import annotations

from dataclasses import dataclass

MILLION = 1_000_000


@dataclass(frozen=True)
class Clock:
    """Shows `ahead` microseconds at the session's moment 0, and gains `fast` microseconds in each million."""

    ahead: int = 0
    fast: int = 0

    def local(self, moment: int) -> int:
        """What it shows at a moment of the session."""
        return self.ahead + moment + moment * self.fast // MILLION

    def when(self, shown: int) -> int:
        """The first moment of the session at which it shows this or more."""
        if not self.fast:
            return max(0, shown - self.ahead)
        moment = max(0, (shown - self.ahead) * MILLION // (MILLION + self.fast) - 2)
        while self.local(moment) < shown:
            moment += 1
        return moment
