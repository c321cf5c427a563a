"""The table of cases of a member's judgement. README.md says what a step is. What each hand-written step gives stands in it; what a step of a walk
gives, the reference says."""

from __future__ import annotations

import functools
from typing import Any, Dict, List

from . import attacks, numbers, walks


@functools.lru_cache(maxsize=None)
def cases() -> List[Dict[str, Any]]:
    return [*attacks.cases(), *numbers.cases(), *walks.cases()]
