"""Shapes of networks, and the decks made from them.

A shape is a list of pairs of nodes.  Node 0 is where the head stands unless a
deck says otherwise.
"""

from __future__ import annotations

from collections.abc import Callable, Iterable
from itertools import combinations

from sample import branch, cards
from scales import Rating

Pair = tuple[int, int]
Ratings = Callable[[int], Rating]

ONE_IN_100: Rating = (10_000_000, 9)
ONE_IN_10: Rating = (100_000_000, 9)
NEVER: Rating = (0, 9)
ALWAYS: Rating = (1_000_000_000, 9)


def deck_of(
    nodes: int,
    pairs: Iterable[Pair],
    doors: Iterable[int],
    *,
    head: int = 0,
    rating: Rating | Ratings = ONE_IN_100,
    failed: Iterable[int] = (),
    working: Iterable[int] = (),
) -> bytes:
    """A deck, with the failed marks before the working ones."""
    rated = rating if callable(rating) else lambda k: rating
    return cards(
        f"NODES {nodes} {head}",
        *(branch(*pair, *rated(k)) for k, pair in enumerate(pairs)),
        *(f"FAILED {k}" for k in failed),
        *(f"WORKING {k}" for k in working),
        *(f"DOOR {door}" for door in doors),
    )


def mixed(k: int) -> Rating:
    """A rating of its own for each branch, of at most one in five."""
    e = 9 + k * 7 % 10
    return (61_803_399 * (k + 1) % 200_000_000 + 1, e) if e == 9 else (_scatter(k), e)


def fair(k: int) -> Rating:
    """From three in a thousand up to three in twenty, written in three ways."""
    if k % 3 == 0:
        return 20_000_000 + 27_182_818 * k % 130_000_000, 9
    if k % 3 == 1:
        return 200_000_000 + 141_421_356 * k % 800_000_000, 10
    return 300_000_000 + 173_205_081 * k % 700_000_000, 11


def high(k: int) -> Rating:
    """Branches that fail rather often."""
    return 150_000_000 + 97_531_357 * k % 600_000_000, 9


def tiny(k: int) -> Rating:
    """Branches that hardly ever fail."""
    return 1 + 7 * k % 10, 18


def _scatter(k: int) -> int:
    return 314_159_265 * (k + 2) % 1_000_000_000 + 1


def line(nodes: Iterable[int]) -> list[Pair]:
    """Each of the nodes joined to the next."""
    listed = list(nodes)
    return list(zip(listed, listed[1:]))


def ring(nodes: int, start: int = 0) -> list[Pair]:
    """Nodes in a circle."""
    around = range(start, start + nodes)
    return line([*around, start])


def chains(*lengths: int) -> list[Pair]:
    """Separate chains of inner nodes from node 0 to the last node."""
    last = sum(lengths) + 1
    found, at = [], 1
    for length in lengths:
        found += line([0, *range(at, at + length), last])
        at += length
    return found


def complete(nodes: Iterable[int]) -> list[Pair]:
    """Every two of the nodes joined."""
    return list(combinations(nodes, 2))


def grid(rows: int, columns: int) -> list[Pair]:
    """Node number row * columns + column, joined to the right and below."""
    found = []
    for node in range(rows * columns):
        if node % columns < columns - 1:
            found.append((node, node + 1))
        if node + columns < rows * columns:
            found.append((node, node + columns))
    return found


def strip(nodes: int) -> list[Pair]:
    """A row of triangles: each node joined to the next two."""
    return [(k, k + step) for k in range(nodes) for step in (1, 2) if k + step < nodes]


def wheel(rim: int) -> list[Pair]:
    """Node 0 in the middle of a circle of nodes 1 to `rim`."""
    return [(0, k) for k in range(1, rim + 1)] + ring(rim, start=1)


def hubs(middle: int, hub_count: int = 2) -> list[Pair]:
    """Hubs 0, 1 and so on, each joined to all the nodes that follow them."""
    nodes = range(hub_count, hub_count + middle)
    return [(hub, node) for hub in range(hub_count) for node in nodes]


def tree(nodes: int, arity: int = 2) -> list[Pair]:
    """Each node but the first hangs on an earlier one."""
    return [((k - 1) // arity, k) for k in range(1, nodes)]


def comb(spine: int) -> list[Pair]:
    """A line with one more node on each of its nodes."""
    return line(range(spine)) + [(k, spine + k) for k in range(spine)]


def necklace(rings: int, nodes: int) -> list[Pair]:
    """Rings in a row, each sharing one node with the next, halfway round."""
    found, at, fresh = [], 0, 1
    for _ in range(rings):
        around = [at, *range(fresh, fresh + nodes - 1)]
        found += line([*around, at])
        at, fresh = around[nodes // 2], fresh + nodes - 1
    return found


def two_risers(floors: int) -> list[Pair]:
    """Two risers from the head, and on each floor a loop between them.

    On floor f the left riser has node f, the right one floors + f, and the
    loop runs through the door at node 2 * floors + f.
    """
    left = line(range(floors + 1))
    right = line([0, *range(floors + 1, 2 * floors + 1)])
    loops = []
    for f in range(1, floors + 1):
        loops += line([f, 2 * floors + f, floors + f])
    return left + right + loops


def moved(pairs: Iterable[Pair], by: int) -> list[Pair]:
    """The same shape further up in the numbers."""
    return [(one + by, other + by) for one, other in pairs]


def _from_1(words: str) -> list[Pair]:
    """Pairs written with nodes that count from 1."""
    found = [word.split("-") for word in words.split()]
    return [(int(one) - 1, int(other) - 1) for one, other in found]


# Test systems of power engineering that everybody uses, line by line.
FOURTEEN_BUS = _from_1(
    "1-2 1-5 2-3 2-4 2-5 3-4 4-5 4-7 4-9 5-6 6-11 6-12 6-13 7-8 7-9"
    " 9-10 9-14 10-11 12-13 13-14"
)
TWENTY_FOUR_BUS = _from_1(
    "1-2 1-3 1-5 2-4 2-6 3-9 3-24 4-9 5-10 6-10 7-8 8-9 8-10 9-11 9-12 10-11"
    " 10-12 11-13 11-14 12-13 12-23 13-23 14-16 15-16 15-21 15-21 15-24 16-17"
    " 16-19 17-18 17-22 18-21 18-21 19-20 19-20 20-23 20-23 21-22"
)
THIRTY_BUS = _from_1(
    "1-2 1-3 2-4 3-4 2-5 2-6 4-6 5-7 6-7 6-8 6-9 6-10 9-11 9-10 4-12 12-13"
    " 12-14 12-15 12-16 14-15 16-17 15-18 18-19 19-20 10-20 10-17 10-21 10-22"
    " 21-22 15-23 22-24 23-24 24-25 25-26 25-27 28-27 27-29 27-30 29-30 8-28 6-28"
)
PETERSEN = ring(5) + [(k, k + 5) for k in range(5)] + [(5 + k, 5 + (k + 2) % 5) for k in range(5)]
CUBE = [(a, b) for a, b in combinations(range(8), 2) if (a ^ b).bit_count() == 1]
DODECAHEDRON = (
    ring(5)
    + [(k, k + 5) for k in range(5)]
    + [(5 + k, 10 + k) for k in range(5)]
    + [(5 + k, 10 + (k + 1) % 5) for k in range(5)]
    + [(10 + k, 15 + k) for k in range(5)]
    + ring(5, start=15)
)
