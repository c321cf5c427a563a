"""What the tests of the package for Python share: the two ways to a host, and how calls end."""

from __future__ import annotations

from collections.abc import Callable
from typing import Any

import pytest
import wb

from ..host.program import TOP, program

HOME = TOP / "python"

Start = Callable[[], Any]


def by_library() -> Start:
    """The way by the library, or the test is skipped."""
    if not wb.find_library():
        pytest.skip("there is no library here (./wb --library DIR builds it, and WB_LIBRARY names another)")
    return wb.LibraryHost


def by_program() -> Start:
    return lambda: wb.ChildHost(program())


@pytest.fixture(params=[by_program, by_library], ids=["program", "library"])
def start(request: pytest.FixtureRequest) -> Start:
    """What starts a host by one of the two ways."""
    return request.param()  # type: ignore[no-any-return]


@pytest.fixture(autouse=True)
def of_program(monkeypatch: pytest.MonkeyPatch) -> None:
    """The package takes the program under test, where it is not told of one."""
    monkeypatch.setenv("WB_PROGRAM", program())


def raised(call: Callable[[], Any]) -> str:
    """The name of the fault that a call ends with."""
    try:
        call()
    except Exception as fault:
        return type(fault).__name__
    return "nothing"


def refused(call: Callable[[], Any]) -> str:
    """Why a call is refused."""
    try:
        call()
    except wb.Refused as fault:
        return fault.fault
    return "nothing"
