"""Networks: nodes joined by links without a circle. Each shape says at which nodes the members are."""
from __future__ import annotations

import heapq
import random
from dataclasses import dataclass

SHAPES = ("chain", "star", "tree", "random", "domains", "halves")
STUBS = 3  # stub domains at each node between domains
STUB_NODES = 4
NEAR = 4  # a link inside a stub domain has this part of the delay of one between domains


@dataclass(frozen=True)
class Link:
    """A link between two nodes, with its delay in microseconds."""

    one: int
    other: int
    delay: int


@dataclass(frozen=True)
class Tree:
    """A network. Member i stands at `places[i - 1]`; nodes are numbered from 0."""

    nodes: int
    links: list[Link]
    places: list[int]


def chain_pairs(members: int) -> list[tuple[int, int]]:
    return [(i, i + 1) for i in range(members - 1)]


def star_pairs(members: int) -> list[tuple[int, int]]:
    """Node 0 is the hub, and no member."""
    return [(0, i) for i in range(1, members + 1)]


def halves_pairs(members: int) -> list[tuple[int, int]]:
    """Two hubs, nodes 0 and 1, with a link between them; members stand at the one and the other in turn."""
    return [(0, 1), *((i % 2, i + 2) for i in range(members))]


def bounded_pairs(nodes: int, degree: int) -> list[tuple[int, int]]:
    """Each node inside has `degree` links: node 0 has as many below it, each other node one fewer."""
    return [(0 if i <= degree else 1 + (i - degree - 1) // (degree - 1), i) for i in range(1, nodes)]


def labelled_pairs(nodes: int, chance: random.Random) -> list[tuple[int, int]]:
    """Each labelled tree of this many nodes is equally likely: the links are read off a random sequence of nodes, as Pruefer did."""
    if nodes < 2:
        return []
    sequence = [chance.randrange(nodes) for _ in range(nodes - 2)]
    links_left = counts(sequence, nodes)
    leaves = [node for node in range(nodes) if links_left[node] == 1]
    heapq.heapify(leaves)
    pairs = []
    for node in sequence:
        pairs.append((heapq.heappop(leaves), node))
        links_left[node] -= 1
        if links_left[node] == 1:
            heapq.heappush(leaves, node)
    pairs.append((heapq.heappop(leaves), heapq.heappop(leaves)))
    return pairs


def counts(sequence: list[int], nodes: int) -> list[int]:
    links_left = [1] * nodes
    for node in sequence:
        links_left[node] += 1
    return links_left


def domain_links(members: int, delays: tuple[int, int], chance: random.Random) -> tuple[int, list[Link], list[int]]:
    """Transit and stub domains: a random tree of transit nodes with long links, at each of them stub domains, each a random tree with
    short links, and the members in these. There are twice as many nodes in stub domains as members."""
    transit = max(2, -(-2 * members // (STUBS * STUB_NODES)))
    links = [Link(a, b, chance.randint(*delays)) for a, b in labelled_pairs(transit, chance)]
    near = max(1, delays[0] // NEAR), max(1, delays[1] // NEAR)
    nodes = transit
    for home in range(transit):
        for _ in range(STUBS):
            links.append(Link(home, nodes, chance.randint(*delays)))
            links += [Link(nodes + a, nodes + b, chance.randint(*near)) for a, b in labelled_pairs(STUB_NODES, chance)]
            nodes += STUB_NODES
    return nodes, links, chance.sample(range(transit, nodes), members)


def make_tree(shape: str, members: int, nodes: int, degree: int, delays: tuple[int, int], chance: random.Random) -> Tree:
    """A network of the shape. Each link's delay is drawn between the two given; `nodes` and `degree` are for trees.

    Where a tree has more nodes than members, chance says where they are; else member i is at node i - 1.
    """
    if shape == "domains":
        return Tree(*domain_links(members, delays, chance))
    if shape == "chain":
        pairs, count, places = chain_pairs(members), members, list(range(members))
    elif shape == "star":
        pairs, count, places = star_pairs(members), members + 1, list(range(1, members + 1))
    elif shape == "halves":
        pairs, count, places = halves_pairs(members), members + 2, list(range(2, members + 2))
    else:
        pairs = bounded_pairs(nodes, degree) if shape == "tree" else labelled_pairs(nodes, chance)
        count, places = nodes, list(range(nodes)) if members == nodes else chance.sample(range(nodes), members)
    return Tree(count, [Link(a, b, chance.randint(*delays)) for a, b in pairs], places)
