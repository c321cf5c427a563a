"""Sessions at random, each line of which is answered as the host in plain Python answers it."""

from __future__ import annotations

import random

import pytest

from ..seeds import seeds
from .program import close, host, run
from .sessions import Session, spoiled

SPOILED = 3_000


def test_spoiled() -> None:
    """Each line is answered by one block, whatever it is, and the host goes on."""
    given, _ = Session(random.Random(99)).conversation()
    first, *lines = given.encode().splitlines()
    numbers = random.Random(99)
    spoilt = [spoiled(numbers, numbers.choice(lines)) for _ in range(SPOILED)]
    ended = run(["host"], b"".join(line + b"\n" for line in [first, *spoilt]))
    closing = [line for line in ended.printed.splitlines(keepends=True) if close(line)]
    assert (ended.status, ended.errors) == (0, b""), "spoiled lines end no host"
    assert len(closing) == 1 + SPOILED, "spoiled lines have a block each"
    assert 100 < sum(line.startswith(b"ok") for line in closing) < SPOILED - 100, "many of them are refused, and many are not"


@pytest.mark.parametrize("seed", seeds(12))
def test_session(seed: int) -> None:
    given, printed = Session(random.Random(seed)).conversation()
    assert host(given) == printed
