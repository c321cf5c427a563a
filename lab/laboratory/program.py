"""The program under study, which is looked for once."""
from __future__ import annotations

import functools

from wbhost import find_program

__all__ = ["program"]

program = functools.cache(find_program)
