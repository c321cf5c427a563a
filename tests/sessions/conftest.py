"""The library, over which hosts of a session stand."""

from __future__ import annotations

from ..library.conftest import library

__all__ = ["library"]
