"""Records as scripts: what a host prints for one, `wb run` prints with any number of workers."""

from __future__ import annotations

import pytest

from ..seeds import seeds
from .program import Ended, close, run
from .scripts import Writer


@pytest.mark.parametrize("seed", seeds(8))
def test_run_prints_what_a_host_prints(seed: int) -> None:
    """But for the lines that close its blocks."""
    script = "".join(f"{line}\n" for line in Writer(seed).script(120)).encode()
    ended = run(["host"], script)
    assert b"refused" not in ended.printed and ended.status == 0
    printed = b"".join(line for line in ended.printed.splitlines(keepends=True) if not close(line))
    for workers in "1", "2", "8":
        assert run(["run", "--workers", workers], script) == Ended(0, printed, b""), f"{workers} workers"
