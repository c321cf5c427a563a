"""Tells on standard error how far a start is that takes long."""
from __future__ import annotations

import contextlib
import sys
import time
from typing import TextIO

# seconds until the first line, and from then on between two lines; in a terminal, where a line renews itself
FIRST = 2.0
PAUSE, SHORT_PAUSE = 5.0, 0.2


class Waiting:
    """What takes long, and since when."""

    def __init__(self, what: str, out: TextIO = sys.stderr) -> None:
        self.what = what
        self.out = out
        self.renews = out.isatty()
        self.next_at = time.monotonic() + FIRST
        self.has_told = False

    def tell(self, done: int, many: int) -> None:
        """So much of it is done."""
        if time.monotonic() >= self.next_at:
            line = "wb-live: %s: %d percent" % (self.what, 100 * done // max(1, many))
            self.write("\r\x1b[K" + line if self.renews else line + "\n")
            self.next_at = time.monotonic() + (SHORT_PAUSE if self.renews else PAUSE)
            self.has_told = True

    def end(self) -> None:
        """A line that renewed itself is taken away."""
        if self.has_told and self.renews:
            self.write("\r\x1b[K")

    def write(self, text: str) -> None:
        with contextlib.suppress(OSError):  # nobody may read it any more
            self.out.write(text)
            self.out.flush()
