"""Members of each kind in a session of a few drawings over a network that loses nothing, and each way to take drawings in."""

from __future__ import annotations

from collections.abc import Callable

import pytest

from ..figures.peers import needs, sessions
from ..figures.peers.arrivals import PACE, WAYS, WITHIN, Drawings, Way, drawings, host_lines, kept_lines, orders, reordered, run_lines
from ..figures.peers.group import KINDS, Ended, Group, Kind, Name, Network
from ..host.program import run

MEMBERS, EACH = 3, 2
ALL = {Name(source, number) for source in range(1, MEMBERS + 1) for number in range(1, EACH + 1)}
PATIENCE = 60.0
FEW = 200


def find(what: Callable[[], object]) -> None:
    """The test is skipped where something is not there."""
    try:
        what()
    except needs.Missing as fault:
        pytest.skip(str(fault))


@pytest.mark.parametrize("kind", KINDS, ids=[kind.name for kind in KINDS])
def test_members_have_all(kind: Kind) -> None:
    find(kind.find)
    with Group(kind, Network(MEMBERS, 0.0, 5.0, 1)) as group:
        last = sessions.draw_all(group, len(ALL))
        assert group.wait(lambda: all(len(has) == len(ALL) for has in group.has), PATIENCE), group.has
        datagrams, size = group.count()
        children = [process.child for process in group.processes]
    assert last == Name(MEMBERS, EACH)
    assert [has.keys() for has in group.has] == [ALL] * MEMBERS
    assert all(time >= 5.0 for time in sessions.times(group.drew, group.has))
    assert datagrams >= len(ALL) and size >= 42 * len(ALL)
    assert all(child.returncode is not None for child in children)


@pytest.mark.parametrize("kind", KINDS[-1:], ids=[KINDS[-1].name])
def test_others_go_on_without_one_that_was_killed(kind: Kind) -> None:
    find(kind.find)
    with Group(kind, Network(MEMBERS, 0.0, 5.0, 1)) as group:
        group.kill(2)
        group.draw(0)
        assert group.wait(lambda: Name(1, 1) in group.has[1], PATIENCE)


def test_a_member_that_ends_ends_the_session(capsys: pytest.CaptureFixture[str]) -> None:
    """A line says so, and the comparison goes on."""
    nobody, network = Kind("nobody", lambda: None, lambda number, place, members: ["false"]), Network(2, 0.0, 5.0, 1)
    with pytest.raises(Ended):
        Group(nobody, network)
    assert sessions.each_seed(2, nobody, network, lambda given: Group(nobody, given)) == []
    assert capsys.readouterr().out.count("peers: nobody, session") == 2


def test_orders() -> None:
    mixed = reordered(1_000)
    assert sorted(mixed) == list(range(1_000)) and mixed != list(range(1_000))
    assert WITHIN / 2 < max(abs(place - at) for at, place in enumerate(mixed)) < WITHIN
    assert list(orders(3).values())[0] == [0, 1, 2] and list(orders(3).values())[2] == [0, 1, 2, 0, 1, 2]


def test_lines_of_hosts() -> None:
    """Each line is taken, and each drawing is new."""
    made = drawings().digits[:3]
    assert list(kept_lines(iter(["aa", "bb"]))) == ["board 1 65535 1 42", "keep 4000 0", "came 0 aa", f"came {PACE} bb"]
    for word, lines in ("run", run_lines), ("host", host_lines), ("host", kept_lines):
        told = run([word], "".join(f"{line}\n" for line in lines(iter(made))).encode())
        assert (told.status, told.errors) == (0, b"")
        printed = told.printed.decode().splitlines()
        assert not [line for line in printed if line.startswith("refused")]
        assert "batch 3 0 0 0" in printed or printed.count("batch 1 0 0 0") == 3, printed


@pytest.mark.parametrize("way", WAYS, ids=[way.name for way in WAYS])
def test_ways(way: Way) -> None:
    """Each takes a few drawings in, in each order. The programs of Node say themselves how many they hold."""
    made = drawings()
    few = Drawings(made.words[:FEW], made.digits[:FEW])
    for order in orders(FEW).values():
        try:
            found = way.measure(few, order, 1)
        except needs.Missing as fault:
            pytest.skip(str(fault))
        assert len(found.milliseconds) == 1 and found.milliseconds[0] > 0 and not found.fault
        assert found.size and 20 < found.size[0] <= found.size[1] <= found.size[2] < 100
