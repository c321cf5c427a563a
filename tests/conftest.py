"""What all tests share: options, and facts that are gathered where one flow shows many."""

from __future__ import annotations

import fcntl
import os
import random
import sys
from collections.abc import Generator
from typing import Any

import pytest

from .facts import Facts
from .seeds import first_seed

sys.dont_write_bytecode = True

# What is tested writes as it does where people start it: without this, which some machines set, a fault at its end was hidden.
os.environ.pop("PYTHONUNBUFFERED", None)


@pytest.fixture
def facts() -> Facts:
    return Facts()


@pytest.hookimpl(hookwrapper=True)  # type: ignore[misc]
def pytest_runtest_makereport(item: pytest.Item) -> Generator[None, Any, None]:
    """A test whose facts were not all as wanted has failed, and one that looked at none."""
    outcome = yield
    report = outcome.get_result()
    gathered = getattr(item, "funcargs", {}).get("facts")
    if report.when == "call" and gathered and gathered.wrong:
        wrong = "\n".join(f"- {line}" for line in gathered.wrong)
        before = f"{report.longreprtext}\n" if report.failed else ""
        report.outcome, report.longrepr = "failed", f"{before}{len(gathered.wrong)} of {gathered.count} facts are wrong:\n{wrong}"
    elif report.when == "call" and gathered and report.passed and not gathered.count:
        report.outcome, report.longrepr = "failed", "no fact was looked at"


def pytest_addoption(parser: pytest.Parser) -> None:
    parser.addoption("--fresh", action="store_true", help="random tests take new seeds, which are told")
    parser.addoption("--build-page", action="store_true", help="the page of ./wb --page is built if that is due")
    parser.addoption("--prove", action="store_true", help="proves the example of embedding, too")
    parser.addoption("--tried", metavar="LOG", help="what tests/try-edits printed")
    parser.addoption("--keep", metavar="FILE", help="the program of tests/value_cases, which is built if it is not there")


def pytest_configure(config: pytest.Config) -> None:
    config.addinivalue_line("markers", "measures: judges by the clock, and is skipped unless WB_MEASURE is set")
    config.addinivalue_line("markers", "timeout(seconds): of a test that takes longer than others may, for pytest-timeout")
    config.addinivalue_line("markers", "inside: runs in a network of its own, where a test of its file has it run")
    if config.getoption("--fresh"):
        os.environ.setdefault("WB_FRESH", str(random.randrange(100, 2**31)))


def pytest_report_header() -> str:
    return f"random tests begin at seed {first_seed()}"


# folders whose tests share what a file starts, so that one process has all of a file
BY_FILE = ("live", "attacks", "ui", "browser")


# the folders whose tests take the program that is built beside them, as `./test --quick` names them
OVER_PROGRAM = [tuple(name.split("/")) for name in os.environ.get("WB_OVER_PROGRAM", "").split()]


# before xdist reads the groups
@pytest.hookimpl(tryfirst=True)  # type: ignore[misc]
def pytest_collection_modifyitems(config: pytest.Config, items: list[pytest.Item]) -> None:
    if not os.environ.get("WB_INSIDE"):
        inside = [item for item in items if item.get_closest_marker("inside")]
        config.hook.pytest_deselected(items=inside)
        items[:] = [item for item in items if item not in inside]
    for item in items:
        if item.path.parent.name in BY_FILE:
            item.add_marker(pytest.mark.xdist_group(item.path.stem))
    if not os.environ.get("WB_MEASURE"):
        for item in items:
            if item.get_closest_marker("measures"):
                item.add_marker(pytest.mark.skip(reason="it judges by the clock, where WB_MEASURE is set"))


@pytest.hookimpl(tryfirst=True)  # type: ignore[misc]
def pytest_runtest_setup(item: pytest.Item) -> None:
    """`./test --quick` builds a program beside the tests. Those that take it wait until it is there, and no other sees it."""
    building, program = os.environ.get("WB_QUICK_BUILDING"), os.environ.get("WB_QUICK_PROGRAM", "")
    if building is None:
        return
    if item.path.relative_to(item.config.rootpath).parts[:2] not in OVER_PROGRAM:
        os.environ.pop("WB_PROGRAM", None)
        return
    with open(building) as lock:
        fcntl.flock(lock, fcntl.LOCK_SH)
    if not os.path.exists(program + ".of"):
        pytest.fail("the program was not built: ./test --quick said why", pytrace=False)
    os.environ["WB_PROGRAM"] = program


def pytest_terminal_summary(terminalreporter: Any) -> None:
    """Prints what tests measured and printed, though they passed."""
    for report in terminalreporter.getreports("passed"):
        if report.when == "call" and report.capstdout:
            terminalreporter.write_line(report.capstdout.rstrip("\n"))
