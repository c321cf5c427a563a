"""The scripts of the page: their types by tsc, and what they do by themselves under Node."""

from __future__ import annotations

import subprocess
from pathlib import Path

import pytest

from ..host.program import TOP
from ..node import run_tests
from .conftest import found

HERE = Path(__file__).resolve().parent
CHECKS = ["--noEmit", "--allowJs", "--checkJs", "--strict", "--target", "es2022", "--module", "es2022", "--moduleResolution", "node"]


@pytest.mark.parametrize("start, names", [("worker.js", "es2022,webworker,webworker.iterable"), ("page.js", "es2022,dom,dom.iterable")])
def test_types(start: str, names: str) -> None:
    """Those of the worker, and those of the page."""
    words = [found("node-typescript", "tsc"), *CHECKS, "--lib", names, str(TOP / "web/member" / start), str(HERE / "newer.d.ts")]
    ran = subprocess.run(words, stdout=subprocess.PIPE, text=True, check=False)
    assert ran.stdout == ""


def test_units() -> None:
    run_tests(HERE / "units.test.mjs")


def test_keeping(module: Path) -> None:
    """Members over the module, and their records."""
    run_tests(HERE / "keeping.test.mjs", WB_MODULE=str(module))
