"""What the tests of the live board share: the program, which the environment names, or else the one that ./wb builds."""

from __future__ import annotations

from collections.abc import Iterator

import pytest

from ..host.program import program


# tests of other folders tell a program that the environment names from one of ./wb, and one process may run both
@pytest.fixture(autouse=True, scope="module")
def named_program() -> Iterator[None]:
    """The environment names the program, for members are started with it, and tests ask it."""
    with pytest.MonkeyPatch.context() as patch:
        patch.setenv("WB_PROGRAM", program())
        yield
