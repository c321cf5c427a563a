"""Beside the native program: the module, which answers the same lines with the same bytes, also where calls by bytes take their place; and what
the page reads by itself of a datagram. Beside the model of a judged host: the lines that the page's member tells the module."""
from __future__ import annotations

import json
import os
import random
import re
import subprocess
import sys
from pathlib import Path

from ..figures.peers import arrivals
from ..node import find_node
from ..host.program import TOP, program
from ..facts import Facts
from ..host import faults
from ..host.scripts import Writer
from ..host.sessions import Session, spoiled
from ..host.test_judged import TRANSCRIPTS as JUDGED
from ..host.test_judged import JudgedSession
from ..host.test_kept import DRAWING, KeptSession
from ..seeds import seeds
from ..transcripts import first_difference, parted

HERE = Path(__file__).resolve().parent

LINES = 10_000
CONVERSATIONS = 40  # of self-managing hosts
JUDGED_SESSIONS = 24
SPOILED = 1_000
READ = 5_000
PATIENCE = 300

# the files of tests/host that a module can pass: others need ends of a process. Lines that are refused stand in a conversation, since a start
# of Node for each takes minutes
FILES = [f"tests/host/test_{name}.py" for name in ("transcripts", "lines", "sessions", "records")]


def conversations() -> list[str]:
    """Conversations of over 10,000 lines in all: sessions and records at random, lines that are spoiled, and each line that is refused."""
    made = [Session(random.Random(seed)).conversation()[0] for seed in range(100, 121)]
    made += ["".join(line + "\n" for line in Writer(seed).script(120)) for seed in range(1, 9)]
    first, *lines = Session(random.Random(99)).conversation()[0].encode().splitlines()
    numbers = random.Random(59)
    spoilt = [spoiled(numbers, numbers.choice(lines)).replace(b"\n", b"").decode("latin-1") for _ in range(SPOILED)]
    # the page's lines are of ASCII
    made.append("".join(line + "\n" for line in [first.decode(), *spoilt] if line.isascii()))
    refused = [line for line in {**faults.mistyped(), **faults.no_datagrams(), **faults.wrong_words()} if line.isascii()]
    made.append(faults.BEFORE + "".join(f"{line}\n" for line in refused) + faults.AFTER)
    return made


def native(program: str, given: str) -> str:
    return subprocess.run([program, "host"], input=given.encode(), stdout=subprocess.PIPE, timeout=PATIENCE, check=True).stdout.decode("latin-1")


def by_module(node: str, module: Path, given: str, *way: str) -> tuple[str, dict[str, float]]:
    """What the module prints where it is asked line by line, as the page asks it, and what that took."""
    ran = subprocess.run([node, str(HERE / "ask.mjs"), str(module), *way], input=given.encode(), capture_output=True, timeout=PATIENCE, check=False)
    if ran.returncode:
        return ran.stderr.decode(), {}
    return ran.stdout.decode("latin-1"), json.loads(ran.stderr)


def check_lines(facts: Facts, program: str, node: str, module: Path) -> None:
    count, took, differ = 0, [], []
    for given in conversations():
        printed, figures = by_module(node, module, given)
        count += given.count("\n")
        took.append(figures.get("line", 0.0))
        if printed != native(program, given):
            differ.append(given[:200])
    facts.holds("over 10,000 lines are asked", count >= LINES, count)
    facts("the module prints what the native program prints", differ, [])
    print(f"{count} lines by the native program and by the module: the same bytes; {sorted(took)[len(took) // 2]:.0f} microseconds a line in the median of {len(took)} conversations")


def kept_conversations() -> list[str]:
    """Conversations of self-managing hosts, at random and with values that were worked out."""
    made = [KeptSession(random.Random(seed)).conversation(200)[0] for seed in range(CONVERSATIONS)]
    return [*made, *(parted(it.text)[0] for it in DRAWING)]


def check_bytes(facts: Facts, program: str, node: str, module: Path) -> None:
    """The same by calls by bytes."""
    given = kept_conversations()
    differ = [each[:200] for each in given if by_module(node, module, each, "bytes")[0] != native(program, each)]
    facts("calls by bytes give what the native program prints for the lines", differ, [])
    facts.holds("there are conversations enough", len(given) > CONVERSATIONS, len(given))


def judged_conversations() -> list[tuple[str, str]]:
    """Conversations of judged hosts, at random and with values that were worked out, and what each is to print by the model."""
    made = [JudgedSession(random.Random(seed), held=seed % 4).conversation() for seed in seeds(JUDGED_SESSIONS)]
    return [*made, *(parted(it.text) for it in JUDGED)]


def check_judged(facts: Facts, node: str, module: Path) -> None:
    """The judgement of the page is that of the model which `wb host` is compared with."""
    conversations_ = judged_conversations()
    differ = [first_difference(given, by_module(node, module, given)[0], printed) for given, printed in conversations_]
    facts("the module judges as the model does", [each for each in differ if each], [])
    differ = [first_difference(given, by_module(node, module, given, "bytes")[0], printed) for given, printed in conversations_]
    facts("and so it does by bytes", [each for each in differ if each], [])
    dropped = {why for _, printed in conversations_ for why in re.findall("^dropped (.*)", printed, re.MULTILINE)}
    facts.holds("nearly each reason to drop a datagram is among them", len(dropped) > 8, dropped)


def check_memory(facts: Facts, node: str, module: Path) -> None:
    """A member that has taken in 60,000 drawings by bytes has no more memory than one that took them in by lines."""
    lines = [f"came {place} {digits}" for place, digits in enumerate(arrivals.drawings().digits)]
    given = "".join(f"{line}\n" for line in ["board 1 65535 1 42", "keep 4000 0", *lines])
    (told, by_bytes), (wanted, by_lines) = by_module(node, module, given, "bytes"), by_module(node, module, given)
    facts("60,000 drawings by bytes and by lines: the same blocks", (len(lines), told == wanted), (60_000, True))
    facts.holds("no more memory", by_bytes["memory"] <= by_lines["memory"], (by_bytes, by_lines))
    print(f"60,000 drawings: {by_bytes['memory']:,} bytes of memory by bytes, {by_lines['memory']:,} by lines")


def spoilt(numbers: random.Random, digits: str) -> str:
    """A datagram with a byte that is another one, or that is cut off, or goes on."""
    data, at = bytearray.fromhex(digits), numbers.randrange(len(digits) // 2)
    if numbers.random() < 0.7:
        data[at] = numbers.randrange(256)
        return data.hex()
    return data[:at].hex() if numbers.random() < 0.5 else data.hex() + "00"


def check_reading(facts: Facts, program: str, node: str) -> None:
    """What the page reads of a datagram is what `wb words` says. Of what is none, numbers out of their range and the order of sources are for the host."""
    numbers = random.Random(61)
    found = sorted({digits for given in conversations() for digits in re.findall("5742(?:[0-9a-f]{2})+", given + native(program, given))})
    chosen = [*numbers.sample(found, min(len(found), READ)), *(spoilt(numbers, numbers.choice(found)) for _ in range(READ))]
    given = "".join("send %s\n" % digits for digits in chosen)
    said = subprocess.run([program, "words", "--keep-going"], input=given, stdout=subprocess.PIPE, text=True, timeout=PATIENCE, check=False).stdout.splitlines()
    read = subprocess.run([node, str(HERE / "reading.mjs")], input="".join(it + "\n" for it in chosen), stdout=subprocess.PIPE, text=True,
                          timeout=PATIENCE, check=True).stdout.splitlines()
    facts("each datagram is said, and read", [len(said), len(read)], [len(chosen)] * 2)
    datagrams = [(one, other) for one, other in zip(said, read) if one.startswith("send ")]
    facts("over a thousand datagrams are compared, and as many that are none", (len(datagrams) > 1_000, len(said) - len(datagrams) > 1_000), (True, True))
    facts("the page reads what the program says", [pair for pair in datagrams if pair[0][5:] != pair[1]], [])
    none = [(one, other) for one, other in zip(said, read) if one.startswith("# ")]
    facts("what is none but for its fields it does not read", [pair for pair in none if pair[1] != "none" and not re.search("datagram [789]$", pair[0])], [])
    print(f"{len(datagrams)} datagrams read as the program says them, and {len(none)} that are none")


def test_what_is_read(facts: Facts) -> None:
    check_reading(facts, program(), find_node())


def test_lines_by_the_module(facts: Facts, module: Path) -> None:
    check_lines(facts, program(), find_node(), module)


def test_judged_lines(facts: Facts, module: Path) -> None:
    check_judged(facts, find_node(), module)


def test_calls_by_bytes(facts: Facts, module: Path) -> None:
    check_bytes(facts, program(), find_node(), module)


def test_memory_by_bytes(facts: Facts, module: Path) -> None:
    check_memory(facts, find_node(), module)


def test_host_by_the_module(module: Path) -> None:
    """tests/host with the module in place of `wb host`."""
    environment = {**os.environ, "WB_HOST": str(HERE / "module.sh"), "WB_MODULE": str(module)}
    ran = subprocess.run([sys.executable, "-B", "-m", "pytest", "-q", *FILES], cwd=TOP, stdout=subprocess.PIPE, text=True, timeout=900, check=False, env=environment)
    assert ran.returncode == 0, ran.stdout[-4000:]
