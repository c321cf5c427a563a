"""The program is held to docs/PROTOCOL.md: a codec and a painter that were written from that page alone, the vectors of docs/vectors, and the
program say the same of datagrams and pages at random.

`python3 -m tests.protocol.vectors` writes the vectors anew, by the codec and the painter.
"""

from __future__ import annotations

import json
import subprocess
from random import Random
from typing import Any

import pytest

from ..host.program import TOP, program
from ..seeds import first_seed
from . import codec, painting, random_values
from .codec import Drawop, Page
from .words import words_of

VECTORS = TOP / "docs/vectors"
DATAGRAMS, MUTANTS, PAGES = 4_000, 6_000, 60
SECONDS = 120
WIDTH, HEIGHT = random_values.WIDTH, random_values.HEIGHT


def random_of(subject: str) -> Random:
    return Random(f"{first_seed()} {subject}")


def asked(words: list[str], lines: list[str]) -> list[str]:
    """What the program prints for these lines."""
    done = subprocess.run([program(), *words], input="".join(line + "\n" for line in lines), capture_output=True, text=True, timeout=SECONDS, check=False)
    return done.stdout.splitlines()


def line_of(data: bytes) -> str:
    """The line that carries bytes: a drawop arrives, anything else is heard."""
    return ("arrive " if data[3:4] == b"\x01" else "hear ") + data.hex()


def script_of(page: Page, came: list[Drawop], workers: int) -> list[str]:
    """The life of a member to which these drawops came, and what it is asked."""
    asked_of = f"{page.creator} {page.number}"
    return [f"board 1 1000 {workers} 1", *(line_of(codec.write(it)) for it in came), f"show {asked_of} {WIDTH} {HEIGHT}", f"report {asked_of}", f"gaps {asked_of}", f"digest {asked_of}"]


def told_by_program(page: Page, came: list[Drawop], workers: int = 1) -> dict[str, object]:
    """The rows, the marks and what is missing. One line answers a script's arrivals."""
    lines = iter(asked(["run"], script_of(page, came, workers))[1:])
    rows = [next(lines) for _ in range(HEIGHT)]
    marks = [next(lines) for _ in range(int(next(lines).split()[1]))]
    ranges = [list(map(int, next(lines).split())) for _ in range(int(next(lines).split()[1]))]
    missing = [f"{source} {seq}" for source, first, last in ranges for seq in range(first, last + 1)]
    return {"rows": rows, "marks": marks, "missing": missing, "digest": next(lines).removeprefix("digest ")}


def told_here(page: Page, came: list[Drawop]) -> dict[str, object]:
    held = painting.held(came)
    return {
        "rows": painting.canvas(held, page, WIDTH, HEIGHT),
        "marks": [f"{source} {high}" for source, high in painting.marks(held, page).items()],
        "missing": [f"{source} {seq}" for source, seq in painting.missing(held, page)],
        "digest": painting.digest(held, page),
    }


def test_datagrams() -> None:
    """Each reads as it was written, and the program says it in the same words and writes the same bytes."""
    random = random_of("datagrams")
    datagrams = [random_values.datagram(random) for _ in range(DATAGRAMS)]
    words, lines = [words_of(it) for it in datagrams], [line_of(codec.write(it)) for it in datagrams]
    assert [codec.read(codec.write(it)) for it in datagrams] == datagrams
    assert asked(["words"], lines) == words
    assert asked(["hex"], words) == lines


def test_mutants() -> None:
    """What is nearly a datagram is one for both, or for neither."""
    random = random_of("mutants")
    mutants = [random_values.mutated(random, random_values.datagram(random)) for _ in range(MUTANTS)]
    said = asked(["words", "--keep-going"], [line_of(data) for data in mutants])
    here = [words_of(read) if (read := codec.read(data)) else "none" for data in mutants]
    assert ["none" if line.startswith("# ") else line for line in said] == here
    assert 0 < sum(line != "none" for line in here) < MUTANTS // 2, "some of them are datagrams, and most are none"


@pytest.mark.parametrize("number", range(PAGES))
def test_page(number: int) -> None:
    """It is the same by the program; and by eight workers, which read each other's rows, if each name comes once: of two drawops either may come first."""
    page, came = random_values.session(random_of(f"page {number}"))
    here = told_here(page, came)
    assert told_by_program(page, came) == here
    assert told_by_program(page, painting.held(came), 8) == here


def vectors(file: str, kind: str, name: str) -> list[Any]:
    return [pytest.param(it, id=it[name]) for it in json.loads((VECTORS / file).read_text())[kind]]


@pytest.mark.parametrize("vector", vectors("datagrams.json", "datagrams", "words"))
def test_vector(vector: dict[str, str]) -> None:
    """Both ways, as it comes in and as it is sent; without its last bytes, and with one more."""
    data, words = bytes.fromhex(vector["hex"]), vector["words"]
    read = codec.read(data)
    assert read and words_of(read) == words and codec.write(read) == data
    assert asked(["words"], [line_of(data), f"send {data.hex()}"]) == [words, f"send {words}"]
    assert asked(["hex"], [words, f"send {words}"]) == [line_of(data), f"send {data.hex()}"]
    other = [*(data[:size] for size in range(1, len(data))), data + b"\0"]
    assert [codec.read(it) for it in other] == [None] * len(other)
    told = asked(["words", "--keep-going"], [f"hear {it.hex()}" for it in other])
    assert told == [f"# line {number}: word 2: datagram {1 if number < len(other) else 5}" for number in range(1, len(other) + 1)]


@pytest.mark.parametrize("vector", vectors("datagrams.json", "not datagrams", "why"))
def test_vector_that_is_no_datagram(vector: dict[str, str]) -> None:
    data = bytes.fromhex(vector["hex"])
    assert codec.read(data) is None
    assert asked(["words", "--keep-going"], [line_of(data)]) == [f"# line 1: word 2: datagram {vector['fault']}"]


@pytest.mark.parametrize("vector", vectors("datagrams.json", "not words", "words"))
def test_vector_that_is_no_datagram_in_words(vector: dict[str, str]) -> None:
    assert asked(["host"], ["board 1 1 1 1", f"say {vector['words']}"]) == ["ok never", f"refused {vector['fault']}"]


@pytest.mark.parametrize("vector", vectors("pages.json", "pages", "shows"))
def test_vector_of_a_page(vector: dict[str, Any]) -> None:
    """By the painter, and by the program."""
    page = Page(*map(int, vector["page"].split("/")))
    read = [codec.read(bytes.fromhex(line.split()[1])) for line in asked(["hex"], vector["came"])]
    came = [it for it in read if isinstance(it, Drawop)]
    rows = [row.ljust(WIDTH) for row in vector["rows"]]
    wanted = {"rows": rows + [" " * WIDTH] * (HEIGHT - len(rows)), "marks": vector["marks"], "missing": vector["missing"], "digest": vector["digest"]}
    assert (told_here(page, came), told_by_program(page, came)) == (wanted, wanted)
