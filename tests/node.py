"""Tests that Node's own runner runs."""

from __future__ import annotations

import os
import re
import shutil
import subprocess
from pathlib import Path

import pytest

LONGEST = 300  # seconds


def find_node() -> str:
    """Node, or the test is skipped."""
    found = shutil.which("node") or shutil.which("nodejs")
    if not found:
        pytest.skip("there is no node here (apt-get install nodejs)")
    return found


def run_tests(file: Path, **environment: str) -> None:
    """Runs the tests of a file, and ends what timers of theirs would keep alive."""
    node = find_node()
    known = subprocess.run([node, "--help"], stdout=subprocess.PIPE, text=True, check=True).stdout
    if "--test-force-exit" not in known:
        pytest.skip("this needs Node 20.14 or later")
    ran = subprocess.run([node, "--test", "--test-force-exit", file], env={**os.environ, **environment}, stdin=subprocess.DEVNULL, stdout=subprocess.PIPE,
                         stderr=subprocess.STDOUT, text=True, timeout=LONGEST, check=False)
    if ran.returncode != 0:
        pytest.fail(failed_in(ran.stdout)[-20_000:], pytrace=False)


def failed_in(printed: str) -> str:
    """What Node's runner printed of the tests that failed."""
    each = re.split(r"^(?=# Subtest: )", printed, flags=re.MULTILINE)
    return "".join(part for part in each if re.search(r"^not ok ", part, re.MULTILINE)) or printed
