"""Conversations that hypothesis makes up, and makes shorter where one goes wrong: each line is answered as the host in plain Python answers it."""

from __future__ import annotations

import os
import random

import pytest

from ..transcripts import first_difference
from .program import host
from .sessions import Session
from .test_judged import JudgedSession
from .test_kept import KeptSession

pytest.importorskip("hypothesis", reason="there is no hypothesis here (apt-get install python3-hypothesis)")

from hypothesis import given, settings, strategies  # noqa: E402

# the same conversations each time, but with --fresh
fixed = settings(max_examples=60, derandomize="WB_FRESH" not in os.environ, deadline=None, database=None)
numbers, counts = strategies.randoms(use_true_random=False), strategies.integers(1, 60)


@fixed
@given(numbers, counts)
def test_lines(numbers: random.Random, count: int) -> None:
    lines, printed = Session(numbers).conversation(count)
    assert first_difference(lines, host(lines), printed) == ""


@fixed
@given(numbers, counts)
def test_lines_of_a_host_that_keeps_itself(numbers: random.Random, count: int) -> None:
    lines, printed = KeptSession(numbers).conversation(count)
    assert first_difference(lines, host(lines), printed) == ""


@fixed
@given(numbers, counts, strategies.integers(0, 3))
def test_lines_of_a_judged_host(numbers: random.Random, count: int, held: int) -> None:
    lines, printed = JudgedSession(numbers, held).conversation(count)
    assert first_difference(lines, host(lines), printed) == ""
