"""Warnings: each is shown for a time, and then goes."""
from __future__ import annotations

import time
from typing import Dict, List

# seconds for which a warning is shown after it was last given, and how many are shown
LASTS = 60.0
MOST_TOLD = 8


class Alarms:
    def __init__(self) -> None:
        self.given: Dict[str, float] = {}

    def warn(self, text: str) -> None:
        self.given.pop(text, None)
        self.given[text] = time.monotonic()

    def told(self) -> List[str]:
        """The warnings of the last minute, the latest at the end."""
        end = time.monotonic() - LASTS
        self.given = {text: at for text, at in self.given.items() if at > end}
        return list(self.given)[-MOST_TOLD:]
