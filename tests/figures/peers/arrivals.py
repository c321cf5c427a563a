"""What it costs a member that drawings come in: the processor's milliseconds for 60,000 of them, in order, out of order, and twice."""

from __future__ import annotations

import json
import os
import random
import statistics
import subprocess
import tempfile
from collections.abc import Callable, Iterator, Sequence
from dataclasses import dataclass
from pathlib import Path
from typing import Any, NamedTuple

from .. import wb as scripts
from . import needs
from .in_browser import measure, opened
from .measuring import Table, least_and_median

HERE = Path(__file__).resolve().parent
WITHIN = 64  # a drawing comes fewer places than this too early or too late
SEED = 1
LIMIT = 60  # seconds of processor after which a round in Node is given up
BOARD = "board 1 65535 1 42"
PACE = 20  # microseconds from one arrival to the next, by the clock of a self-managing host


class Drawings(NamedTuple):
    """The same drawings in words and as datagrams in hexadecimal, in the order in which they were drawn."""

    words: Sequence[str]
    digits: Sequence[str]


class Result(NamedTuple):
    """Milliseconds of processor for each round; without any, why. And the least, the mean and the greatest bytes of a drawing."""

    milliseconds: Sequence[float]
    size: tuple[float, float, float] | None = None
    fault: str = ""


@dataclass(frozen=True)
class Way:
    """A way to take drawings in: its name, what it needs, and how it is measured, from the drawings, their order and the number of rounds."""

    name: str
    measure: Callable[[Drawings, Sequence[int], int], Result]


def drawings() -> Drawings:
    """The drawings of tests/figures/wb.py, of forty sources on four pages."""
    given = scripts.script("arrivals")
    told = subprocess.run([needs.program(), "hex"], input=given, stdout=subprocess.PIPE, check=True).stdout
    return Drawings(given.decode().splitlines()[1:], [line.split()[1] for line in told.decode().splitlines()[1:]])


def reordered(count: int) -> list[int]:
    """Places of which none stands WITHIN or more from its own."""
    numbers = random.Random(SEED)
    return sorted(range(count), key=lambda place: place + WITHIN * numbers.random())


def orders(count: int) -> dict[str, list[int]]:
    return {"in order": list(range(count)), f"reordered within {WITHIN}": reordered(count), "in order, twice": [*range(count), *range(count)]}


def size_of(sizes: Sequence[int]) -> tuple[float, float, float]:
    return min(sizes), statistics.mean(sizes), max(sizes)


# ---- the program


def run_lines(digits: Iterator[str]) -> Iterator[str]:
    yield BOARD
    for each in digits:
        yield f"arrive {each}"


def host_lines(digits: Iterator[str]) -> Iterator[str]:
    yield BOARD
    for each in digits:
        yield f"datagram {each}"


def kept_lines(digits: Iterator[str]) -> Iterator[str]:
    yield BOARD
    yield "keep 4000 0"
    for place, each in enumerate(digits):
        yield f"came {PACE * place} {each}"


def by_program(word: str, lines: Callable[[Iterator[str]], Iterator[str]]) -> Callable[[Drawings, Sequence[int], int], Result]:
    """Whole runs of the program, its start among them, over a file with all lines."""

    def measure(made: Drawings, order: Sequence[int], rounds: int) -> Result:
        program = needs.program()
        given = "".join(f"{line}\n" for line in lines(made.digits[place] for place in order)).encode()
        taken = [scripts.time_once([program, word], given)[1] / 1e6 for _ in range(rounds)]
        return Result(taken, size_of([len(digits) // 2 for digits in made.digits]))

    return measure


# ---- Node and a browser


def result_of(told: dict[str, Any], name: str, count: int) -> Result:
    """The result that taking.mjs told. A member that does not hold all is a fault."""
    least, mean, greatest = told["size"]
    size = (least, mean, greatest)
    if "applied" in told:
        return Result([], size, f"given up after {LIMIT} s, at {told['applied']:,}")
    if told["held"] != count:
        raise ValueError(f"{name} holds {told['held']} of {count} drawings")
    return Result(told["milliseconds"], size)


def by_node(job: dict[str, Any], given: Sequence[str], order: Sequence[int], **environment: str) -> Result:
    """One process for all rounds. Its start, and what it makes before the first drawing comes in, are not counted."""
    with tempfile.TemporaryDirectory(prefix="wb-peers-") as name:
        room = Path(name)
        (room / "drawings").write_text("\n".join(given))
        (room / "order").write_text(json.dumps(order))
        words = json.dumps({**job, "drawings": str(room / "drawings"), "order": str(room / "order"), "limit": LIMIT})
        ran = subprocess.run([needs.node(), str(HERE / "node.mjs"), words], env={**os.environ, **environment}, stdout=subprocess.PIPE, text=True, check=True)
    return result_of(json.loads(ran.stdout), str(job), len(given))


def by_yjs(kind: str, at_once: int) -> Callable[[Drawings, Sequence[int], int], Result]:
    def measure(made: Drawings, order: Sequence[int], rounds: int) -> Result:
        return by_node({"kind": kind, "atOnce": at_once, "rounds": rounds}, made.words, order, NODE_PATH=str(needs.yjs()))

    return measure


def by_module(way: str) -> Callable[[Drawings, Sequence[int], int], Result]:
    def measure(made: Drawings, order: Sequence[int], rounds: int) -> Result:
        return by_node({"folder": str(needs.modules()), "pace": PACE, "way": way, "rounds": rounds}, made.digits, order)

    return measure


WAYS = [
    Way("Yjs, maps", by_yjs("map", 1)),
    Way("Yjs, maps, 100 in a transaction", by_yjs("map", 100)),
    Way("Yjs, arrays", by_yjs("array", 1)),
    Way("`wb run`", by_program("run", run_lines)),
    Way("`wb host`, driven", by_program("host", host_lines)),
    Way("`wb host`, kept", by_program("host", kept_lines)),
    Way("the page's module, kept, by lines", by_module("lines")),
    Way("the page's module, kept, by bytes", by_module("bytes")),
    Way("the page's module, judged, by bytes", by_module("judged by bytes")),
]

# the same in a browser: what is handed in, as words or as datagrams, and how
IN_BROWSER: dict[str, tuple[str, dict[str, Any]]] = {
    "Yjs, maps": ("words", {"kind": "map", "atOnce": 1}),
    "Yjs, maps, 100 in a transaction": ("words", {"kind": "map", "atOnce": 100}),
    "Yjs, arrays": ("words", {"kind": "array", "atOnce": 1}),
    "the page's module, `wb-any.wasm`, kept, by lines": ("digits", {"pace": PACE, "way": "lines", "wide": False}),
    "the page's module, `wb-any.wasm`, kept, by bytes": ("digits", {"pace": PACE, "way": "bytes", "wide": False}),
    "the page's module, `wb-any.wasm`, judged, by bytes": ("digits", {"pace": PACE, "way": "judged by bytes", "wide": False}),
    "the page's module, `wb.wasm`, kept, by bytes": ("digits", {"pace": PACE, "way": "bytes", "wide": True}),
    "the page's module, `wb.wasm`, judged, by bytes": ("digits", {"pace": PACE, "way": "judged by bytes", "wide": True}),
}


def cells(results: Sequence[Result]) -> list[str]:
    times = [least_and_median(result.milliseconds) if result.milliseconds else result.fault for result in results]
    size = next((result.size for result in results if result.size), None)
    return [*times, f"{size[0]:.0f} to {size[2]:.0f}, {size[1]:.0f}" if size else "-"]


def head(what: str, rounds: int, made: Drawings) -> Table:
    title = f"{len(made.words):,} arrivals{what}, the least and (the median) of {rounds}"
    return Table(title, "", *orders(len(made.words)), "bytes of a drawing: from, to, mean")


def compare(rounds: int, count: int) -> None:
    """Prints the tables, and a line for what is not there."""
    try:
        made = drawings()
    except needs.Missing as fault:
        return print(f"peers: no arrivals: {fault}")
    made = Drawings(made.words[:count], made.digits[:count])
    table = head(": milliseconds of processor", rounds, made)
    for way in WAYS:
        try:
            table.row(way.name, *cells([way.measure(made, order, rounds) for order in orders(len(made.words)).values()]))
        except needs.Missing as fault:
            print(f"peers: {way.name} is left out: {fault}")
    try:
        compare_in_browser(rounds, made)
    except needs.Missing as fault:
        print(f"peers: no arrivals in a browser: {fault}")


def compare_in_browser(rounds: int, made: Drawings) -> None:
    asked = orders(len(made.words))
    with opened({"words": made.words, "digits": made.digits, **{f"order{place}": order for place, order in enumerate(asked.values())}}) as page:
        table = head(f" in {page.browser.name()}: milliseconds by the clock", rounds, made)
        for name, (given, job) in IN_BROWSER.items():
            told = [measure(page, {**job, "given": given, "order": f"order{place}", "rounds": rounds, "limit": LIMIT}) for place in range(len(asked))]
            table.row(name, *cells([result_of(each, name, len(made.words)) for each in told]))
