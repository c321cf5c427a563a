"""Networks: their links, what is lost on them, queues and clocks."""

from __future__ import annotations

import math
import random
from collections import Counter
from types import SimpleNamespace
from typing import Any

from laboratory.clocks import Clock
from laboratory.losses import Bursts, Cut, NoLoss, OnceEach, Same, Sending, Share, ShareIn
from laboratory.network import Network
from laboratory.program import program
from laboratory.queues import Hop, Queues
from laboratory.reading import Datagram
from laboratory.runs import Settings, make_plan, run
from laboratory.session import Session
from laboratory.shapes import Link, Tree, bounded_pairs, labelled_pairs, make_tree
from .checking import is_within, must_be, one_loss


# Six nodes: 0-1-2 in a row, 1-3, and 0-4-5. Members 1 to 4 are at 0, 2, 3 and 5, and node 4 has nobody.
SMALL = Tree(6, [Link(0, 1, 10), Link(1, 2, 20), Link(1, 3, 30), Link(0, 4, 40), Link(4, 5, 50)], [0, 2, 3, 5])


class At:
    """Loses at given places of the way."""

    def __init__(self, places: list[int]) -> None:
        self.given = places

    def places(self, way: object, sending: Sending) -> list[int]:
        return self.given


def test_a_link_that_loses_cuts_off_all_behind_it() -> None:
    cases: list[tuple[list[int], list[tuple[int, int]], list[int]]] = [
        ([], [(2, 30), (3, 40), (4, 90)], []),
        ([0], [(4, 90)], [2, 3]),
        ([0, 1], [(4, 90)], [2, 3]),
        ([1], [(3, 40), (4, 90)], [2]),
        ([3], [(2, 30), (3, 40)], [4]),
        ([2, 4], [(2, 30)], [3, 4]),
    ]
    for places, given, lost in cases:
        network = Network(SMALL, At(places))
        groups = [(delay, (member,)) for member, delay in given]
        assert network.receivers(Sending(1, 0, 1)) == (groups, lost)
    assert Network(SMALL, NoLoss()).distance(3, 4) == 130, "30 and 10 to node 0, 40 and 50 to node 5"
    assert len(Network(Tree(6, SMALL.links, [0, 2]), NoLoss()).way(1)) == 2, "links behind which nobody is are left out"


def test_a_share_of_the_links_loses() -> None:
    """Of 20,000 links a share of a tenth: the count is within five standard deviations, of 42 each."""
    way = Network(SMALL, NoLoss()).way(1) * 4_000
    lost = Share(random.Random(1), 0.1, False).places(way, Sending(1, 0, 0))
    assert abs(len(lost) - 2_000) < 212 and lost == sorted(set(lost)), len(lost)
    assert Share(random.Random(1), 0.1, True).places(way, Sending(1, 0, 0)) == [], "only first drawops are lost"
    assert len(Share(random.Random(1), 1.0, True).places(way, Sending(1, 0, 1))) == len(way), "all are lost"
    outage = Share(random.Random(1), 1.0, False, (10, 20))
    assert [len(outage.places(way, Sending(1, moment, 0))) for moment in (9, 10, 19, 20)] == [0, len(way), len(way), 0], "between two moments"


def reached(pairs: list[tuple[int, int]], nodes: int) -> set[int]:
    """The nodes that are reached from node 0."""
    found = {0}
    for _ in range(nodes):
        found |= {node for pair in pairs if found & set(pair) for node in pair}
    return found


def test_trees_have_the_links_they_should() -> None:
    assert bounded_pairs(8, 4) == [(0, 1), (0, 2), (0, 3), (0, 4), (1, 5), (1, 6), (1, 7)]
    for nodes in (1, 2, 3, 50):
        pairs = labelled_pairs(nodes, random.Random(nodes))
        assert len(pairs) == nodes - 1 and reached(pairs, nodes) == set(range(nodes)), pairs


def test_domains_have_long_links_between_them() -> None:
    """Of 12 members: 2 transit nodes with 3 stub domains of 4 nodes each, so 26 nodes, of whose links 1 is between transit nodes, 6 lead to
    a stub domain and 18 are inside one, a quarter as long. Members are in stub domains alone."""
    tree = make_tree("domains", 12, 0, 0, (10_000, 10_000), random.Random(1))
    assert tree.nodes == 26 and Counter(link.delay for link in tree.links) == {10_000: 7, 2_500: 18}, tree
    assert reached([(link.one, link.other) for link in tree.links], 26) == set(range(26)), "all nodes are reached"
    assert len(set(tree.places)) == 12 and min(tree.places) >= 2, tree.places


def test_one_link_loses_in_all_rounds() -> None:
    """From member 3 of the six nodes to member 1 the way goes over the links 1-3 and 0-1: of these, numbers 2 and 0, one loses, in one
    run the one and in another the other, and in all rounds of a run the same."""
    way = Network(SMALL, NoLoss()).way(3)
    found = set()
    for seed in range(20):
        loss = Same(random.Random(seed))
        rounds = [[way[at].link for at in loss.places(way, Sending(3, 0, first))] for first in (1, 2, 3, 5)]
        assert rounds[1] == [] and rounds[0] == rounds[2] == rounds[3], rounds
        found.add(tuple(rounds[0]))
    assert found == {(0,), (2,)}


def test_halves_are_joined_by_one_link() -> None:
    """Members 1 and 3 are at one hub, 2 and 4 at the other. While the link between the hubs is cut, each half gets the other's drawops not."""
    tree = make_tree("halves", 4, 0, 0, (10, 10), random.Random(1))
    network = Network(tree, Cut(0, (5, 15)))
    assert network.receivers(Sending(1, 4, 1)) == ([(20, (3,)), (30, (2, 4))], [])
    assert network.receivers(Sending(2, 5, 1)) == ([(20, (4,))], [1, 3])


def test_what_comes_to_a_member_is_lost_by_itself() -> None:
    """In a star the link of the sender loses nothing, and each other link its share: of 4,000 datagrams to three others 1,200 each, within five
    standard deviations, of 29."""
    way = Network(Tree(5, [Link(0, member, 10) for member in range(1, 5)], [1, 2, 3, 4]), NoLoss()).way(1)
    loss = ShareIn(random.Random(1), 0.3)
    lost = Counter(way[at].member for _ in range(4_000) for at in loss.places(way, Sending(1, 0, 0)))
    assert set(lost) == {2, 3, 4} and all(abs(count - 1_200) < 145 for count in lost.values()), lost


def test_losses_fall_on_links_in_turn() -> None:
    """Drawops 1, 3 and 5 are lost, on the links 0, 1 and 0 in turn."""
    way = Network(SMALL, NoLoss()).way(1)
    loss = OnceEach(random.Random(1), (0, 1))
    assert [loss.places(way, Sending(1, 0, first)) for first in range(6)] == [[], [0], [], [1], [], [0]], "in turn"


def test_a_cut_parts_two_halves() -> None:
    way = Network(SMALL, NoLoss()).way(1)
    cut = Cut(3, (10, 20))
    assert [cut.places(way, Sending(1, moment, 0)) for moment in (9, 10, 19, 20)] == [[], [3], [3], []]


def test_bursts_last_as_long_as_they_should() -> None:
    """A link that is bad for a fifth of the time, for 100 milliseconds in the mean: of 400,000 milliseconds 80,000, in 800 bursts. The
    bounds are five standard deviations of these, of 3,200 and 23."""
    bursts = Bursts(random.Random(1), 0.2, 100_000, 1.0)
    states = [bursts.is_bad(0, moment * 1_000) for moment in range(400_000)]
    begun = sum(now and not before for before, now in zip(states, states[1:]))
    assert abs(sum(states) - 80_000) < 16_000 and abs(begun - 800) < 117, (sum(states), begun)
    half = Bursts(random.Random(1), 1 - 1e-9, 1e12, 0.5)
    lost = sum(len(half.places(Network(SMALL, NoLoss()).way(1), Sending(1, 0, 0))) for _ in range(4_000))
    assert abs(lost - 10_000) < 350


def test_a_queue_delays_and_drops() -> None:
    """A star of two, links of 1,000 bytes a second and 5 milliseconds, with room for 200 bytes. A datagram of 72 bytes takes 100 with its
    header, so 100 milliseconds on each link: three at once reach the hub after 105, 205 and not at all."""
    network = Network(Tree(3, [Link(0, 1, 5_000), Link(0, 2, 5_000)], [1, 2]), NoLoss())
    queues = Queues(network, 1_000, 200)
    datagram = Datagram("drawop", 1, (1, 1), ((1, 1),), 72)
    hop = queues.enter(Sending(1, 0, 1), datagram)
    found = [queues.pass_on(0, hop) for _ in range(3)]
    assert [[moment for moment, _ in onward] for onward, _ in found] == [[105_000], [205_000], []]
    assert [lost for _, lost in found] == [[], [], [2]]
    assert queues.fullest == 100, "bytes that waited"
    [(moment, at_hub)], _ = found[0]
    assert at_hub == Hop(datagram, True, 0, 0, frozenset())
    [(moment, there)], _ = queues.pass_on(moment, at_hub)
    assert (moment, there.node, queues.pass_on(moment, there)) == (210_000, 2, ([], []))
    queues.pass_on(1_000_000, hop)
    assert queues.fullest == 100, "the most that ever waited"


def test_nothing_is_given_to_a_deaf_member() -> None:
    """Of four members around a hub the third hears nothing."""
    tree = Tree(5, [Link(0, member, 1_000 * member) for member in range(1, 5)], [1, 2, 3, 4])
    sending = Sending(1, 0, 1)
    assert Network(tree, NoLoss(), deaf=3).receivers(sending) == ([(3_000, (2,)), (5_000, (4,))], [3])
    assert Network(tree, NoLoss()).receivers(sending) == ([(3_000, (2,)), (4_000, (3,)), (5_000, (4,))], [])


def test_an_implosion_costs_where_links_are_narrow() -> None:
    """Nine members at one distance lack a drawop. On links of 1,000 bytes a second each request takes 56 milliseconds a link, so that a
    repair, which takes 70, comes behind them."""
    wide, narrow = (
        run(Settings(members=10, loss="link:0-1", draws=2, every=20, bandwidth=rate, queue=2_000, tuning="2,1,1,1"), program()).rows[0]
        for rate in (1_000_000, 1_000)
    )
    assert is_within(wide.seconds, 0, 0.13) and is_within(narrow.seconds, 0.3, math.inf), (wide, narrow)


def test_clocks_go_there_and_back() -> None:
    """A clock that gains 10 in 1,000 shows 3 + 1,010 after 1,000 microseconds; what it shows is reached at that moment and none before."""
    assert Clock(3, 10_000).local(1_000) == 1_013
    for clock in (Clock(), Clock(7), Clock(3, 10_000), Clock(5, -10_000)):
        for shown in range(clock.ahead + 1, 5_000, 37):
            moment = clock.when(shown)
            assert clock.local(moment) >= shown > clock.local(moment - 1), (clock, shown, moment)


def test_a_wrong_clock_changes_little() -> None:
    """A member's timers go by its own clock. With clocks that are wrong by at most 1 in 100 a first request still waits 1 to 2 trips."""
    for seed in range(1, 4):
        row, _ = one_loss(Settings(shape="chain", members=4, loss="link:0-1", seed=seed, fast=10_000))
        must_be(row, 3, 1, 1)
        assert is_within(row.first_request, 0.99, 2.03), row


def test_who_goes_and_comes_lacks_what_was_drawn_meanwhile() -> None:
    """Member 3 is away from 2 to 4 and from 6 to 8 seconds. Of drawops at 2, 3, .. 9 seconds it does not get those at 2, 3, 6 and 7."""
    settings = Settings(members=3, coming=1, gone=2, start=2, draws=8, loss="none", session=1)
    assert make_plan(settings).away == {3: ((2_000_000, 4_000_000), (6_000_000, 8_000_000))}
    assert [(row.number, row.lost) for row in run(settings, program()).rows] == [(1, 1), (2, 1), (5, 1), (6, 1)], "four"
    session: Any = SimpleNamespace(plan=make_plan(settings))
    assert [Session.is_there(session, 3, moment) for moment in (1_999_999, 2_000_000, 3_999_999, 4_000_000)] == [True, False, False, True]
