"""Sessions of self-managing hosts in virtual time, over a network that loses, doubles and delays: all become whole, also beside forgers."""

from __future__ import annotations

import random
from typing import Callable

import pytest

from . import datagrams
from .network import PATIENCE, SECOND, Member, Network

PAGES = [(1, 1), (1, 2), (2, 1), (3, 7)]
SESSIONS = 14
FORGING = 15  # simulated seconds


def lossy(seed: int) -> tuple[float, list[str]]:
    """A session of 3 to 12 members that draw for 20 seconds, of whom one or two join late: when it is whole, and what was refused."""
    network = Network(seed)
    members = 3 + seed % 10
    for _ in range(members - 1 - seed % 2):
        network.join()
    pages = PAGES[: 1 + seed % 4]
    for moment in sorted(network.random.randrange(20 * SECOND) for _ in range(80)):
        if len(network.members) < members and moment > 12 * SECOND:
            network.join()
        network.until(moment)
        network.draw(network.random.choice(network.members), pages)
    return network.whole_after(), network.end()


@pytest.mark.parametrize("seed", range(SESSIONS))
def test_lossy(seed: int) -> None:
    """It becomes whole, and nothing is refused."""
    whole, refused = lossy(seed)
    assert (whole <= PATIENCE, refused) == (True, []), f"whole {whole} s after the last drawing"


def between_outages(stretch: int, lost: int, seed: int) -> float:
    """Two members hold three stretches of a row, and nobody holds what is between them: how soon one that joins shows the same."""
    network = Network(seed, lost=0.0)
    for _ in range(2):
        network.join()
    step = stretch + lost
    for number in [first + more for first in (1, 1 + step, 1 + 2 * step) for more in range(stretch)]:
        for member in network.members:
            network.come(member, datagrams.drawop(900, PAGES[0], number, 5, datagrams.text(number % 60, number // 60, "x")))
    network.until(20 * SECOND)
    network.join()
    whole = whole_but_forged(network)
    network.end()
    return whole


@pytest.mark.parametrize("stretch", [60, 20])
def test_outages(stretch: int) -> None:
    """A newcomer soon finds what others hold between two stretches of 70 numbers that nobody holds."""
    whole = sorted(between_outages(stretch, 70, seed) for seed in range(1, 8))
    print(f"two outages, stretches of {stretch}: whole after {whole} s")
    assert whole[-1] <= 30


def test_unheld() -> None:
    """What nobody holds is asked for ever more rarely."""
    network = Network(700, lost=0.0)
    for _ in range(2):
        network.join()
    for member in network.members:
        network.come(member, datagrams.drawop(900, PAGES[0], 200, 5, datagrams.text(0, 0, "x")))
    rates = []
    for minutes in (1, 45):
        network.until(minutes * 60 * SECOND)
        for member in network.members:
            member.sent.clear()
        network.until(network.now + 120 * SECOND)
        rates.append(max(member.sent.get(datagrams.REQUEST, 0) for member in network.members) / 120)
    print(f"199 names that nobody holds: {rates[0]:.2f} requests a second of a member after one minute, {rates[1]:.2f} after 45")
    assert 0 < rates[1] <= 1
    assert network.end() == []


def test_full() -> None:
    """Full boards: no timer stands, and nothing but reports and questions is sent."""
    network = Network(77, cells=30)
    for _ in range(4):
        network.join()
    for _ in range(60):
        network.until(network.now + SECOND // 10)
        network.draw(network.random.choice(network.members), PAGES)
    network.until(network.now + 30 * SECOND)
    for member in network.members:
        member.sent.clear()
    network.until(network.now + 60 * SECOND)
    held = [sum(int(line.split()[1]) for line in network.shown(member) if line.startswith("view ") and len(line.split()) == 2) for member in network.members]
    assert all(count > 0 for count in held), "full boards: something is shown"
    kinds = {kind for member in network.members for kind in member.sent}
    assert kinds <= {datagrams.SESSION, datagrams.ASK_PAGES, datagrams.PAGE_STATE}, "full boards: what is sent"
    network.end()


# ---- who forges

Forger = Callable[[int, random.Random], str]


def own_marks(high: int) -> Forger:
    return lambda turn, numbers: datagrams.session(900, 5, numbers.choice(PAGES), [(source, high) for source in range(1, 6)], [])


def strangers(turn: int, numbers: random.Random) -> str:
    marks = [(7_000 + 8 * turn + more, 1 + numbers.randrange(2**32 - 1)) for more in range(8)]
    return datagrams.page_state(901, numbers.choice(PAGES), marks)


def crowd(turn: int, numbers: random.Random) -> str:
    return datagrams.session(10_000 + turn % 1_700, turn, numbers.choice(PAGES), [], [])


def rising(turn: int, numbers: random.Random) -> str:
    return datagrams.session(902, turn, (1, 1), [(8_000 + more, 1 + turn) for more in range(32)], [])


def many_marks(turn: int, numbers: random.Random) -> str:
    return datagrams.session(903, turn, (9, 9), [(100_000 + 4_000 * turn + more, 3) for more in range(4_000)], [])


def questions(turn: int, numbers: random.Random) -> str:
    return datagrams.ask_pages(904 + turn % 50)


def requests(turn: int, numbers: random.Random) -> str:
    return datagrams.request(905, 1 + numbers.randrange(5), numbers.choice(PAGES), 1 + numbers.randrange(50))


def of_ours(turn: int, numbers: random.Random) -> str:
    return datagrams.drawop(1 + numbers.randrange(5), numbers.choice(PAGES), 2**31 + numbers.randrange(2**31), 5, datagrams.text(0, 0, "forged"))


def holes(turn: int, numbers: random.Random) -> str:
    return datagrams.drawop(20_000 + turn, numbers.choice(PAGES), 10, 5, datagrams.text(0, 0, "forged"))


# Forged members make reports rare: each member's come every 32 to 96 seconds then, and tell one page at a time.
RARE = "1,700 members"

# each with how many datagrams a second it sends to each member
FORGERS: dict[str, tuple[Forger, int]] = {
    "own marks of 2^31 - 1": (own_marks(2**31 - 1), 20),
    "own marks of 2^32 - 1": (own_marks(2**32 - 1), 20),
    "marks of strangers": (strangers, 20),
    RARE: (crowd, 100),
    "3,200 rising marks a second": (rising, 100),
    "160,000 marks of one page": (many_marks, 3),
    "50 questions a second": (questions, 50),
    "requests": (requests, 50),
    "60 drawops with holes a second": (holes, 60),
}


@pytest.mark.parametrize("name", FORGERS)
def test_forged(name: str) -> None:
    """While one forges, five members draw: no drawing is refused, few names are asked for, and all are whole soon after."""
    forger, rate = FORGERS[name]
    network = Network(500 + list(FORGERS).index(name), lost=0.1)
    for _ in range(5):
        network.join()
    network.until(2 * SECOND)
    for turn in range(FORGING * rate):
        network.until(network.now + SECOND // rate)
        digits = forger(turn, network.random)
        for member in network.members:
            network.come(member, digits)
        if turn % rate == 0:
            network.draw(network.random.choice(network.members), PAGES)
    asked = max(member.sent.get(datagrams.REQUEST, 0) for member in network.members)
    whole = whole_but_forged(network)
    print(f"forged {name}: whole {whole} s after the last drawing, {asked / FORGING:.1f} requests/s of a member at most")
    assert whole <= (PATIENCE if name == RARE else 60)
    assert asked <= 30 * FORGING
    assert network.end() == []


def echoed_by(digits: str) -> set[int]:
    """The sources that a report echoes."""
    data = bytes.fromhex(digits)
    first = 32 + 8 * int.from_bytes(data[28:30], "big")
    return {int.from_bytes(data[at : at + 4], "big") for at in range(first, len(data), 20)}


def test_newcomer() -> None:
    """Beside 250 numbers that are made up, a newcomer and a member soon echo one another, and from then on do so in each report."""
    network = Network(41, lost=0.0)
    reports: dict[int, list[bool]] = {}

    def send(sender: Member, digits: str) -> None:
        if int(digits[6:8], 16) == datagrams.SESSION:
            reports.setdefault(sender.number, []).append(3 - sender.number in echoed_by(digits))
        Network.send(network, sender, digits)

    setattr(network, "send", send)
    network.join()
    for turn in range(100 * 60):
        network.until(network.now + SECOND // 10)
        if turn == 100:
            network.join()
        for member in network.members:
            network.come(member, datagrams.session(10_000 + turn % 250, turn, PAGES[0], [], []))
        if all(len(them) > 3 and all(them[-3:]) for them in reports.values()) and len(reports) == 2:
            break
    print(f"beside 250 made-up numbers: known to one another in three reports {network.now / SECOND:.0f} s after the start")
    assert network.now < 100 * 6 * SECOND, "they echo one another in three reports in a row"
    before = {number: len(them) for number, them in reports.items()}
    for turn in range(30 * 60):
        network.until(network.now + SECOND // 10)
        for member in network.members:
            network.come(member, datagrams.session(10_000 + turn % 250, turn, PAGES[0], [], []))
    assert all(all(them[before[number] :]) and len(them) > before[number] for number, them in reports.items()), "and in each from then on"
    assert network.end() == []


def whole_but_forged(network: Network) -> float:
    """When all show the same: names that nobody holds may be missing."""
    begun = network.now
    while network.now - begun <= PATIENCE * SECOND:
        if all(network.shown(member) == network.shown(network.members[0]) for member in network.members):
            break
        network.until(network.now + SECOND // 2)
    return (network.now - begun) / SECOND


def test_of_ours() -> None:
    """Forged drawops of a member's own number that it would never come to are refused by it, and lock nothing."""
    network = Network(600, lost=0.0)
    for _ in range(3):
        network.join()
    network.until(2 * SECOND)
    for turn in range(60):
        digits = of_ours(turn, network.random)
        for member in network.members:
            network.come(member, digits)
        network.until(network.now + SECOND // 20)
    refused = [line for member in network.members for line in member.refused]
    assert refused != [] and all(line.endswith("refused ours") for line in refused), "forged drawops of ours are refused"
    for member in network.members:
        before = len(member.refused)
        network.tell(member, f"add {network.clock(member)} 5 1/1 line 0 0 4 0 *")
        assert len(member.refused) == before, "and a drawing is not"
    network.end()
