"""Printed results of others, which the search has to find again.

A published table of 28 cuts belongs to a graph of 8 nodes and 10 branches.  It
lists every minimal cut between node 1 and any other node, with the nodes that
the cut disconnects.  The table is printed three times, for three numberings of
the nodes; the branches keep their numbers.  Nodes and branches are counted from
1 in print and from 0 here.

The copy at hand has faults, and they are kept as they stand.  Three groups of
nodes are printed wrong (`MISPRINTS`); a table for another numbering has each of
them right.  Seven rows of the third table cannot be read and are left out.
"""

from __future__ import annotations

from dataclasses import dataclass

Pair = tuple[int, int]

NODES = 8


@dataclass(frozen=True)
class Numbering:
    """The ends of the branches, and the rows as they are printed."""

    name: str
    pairs: tuple[Pair, ...]
    printed: str

    def rows(self) -> dict[frozenset[int], frozenset[int]]:
        """The nodes that each printed cut disconnects, counted from 0."""
        rows = [line.split(":") for line in self.printed.split()]
        return {_from_0(cut): _from_0(nodes) for cut, nodes in rows}


def _from_0(words: str) -> frozenset[int]:
    return frozenset(int(word) - 1 for word in words.split(","))


def _pairs(words: str) -> tuple[Pair, ...]:
    found = [word.split("-") for word in words.split()]
    return tuple((int(one) - 1, int(other) - 1) for one, other in found)


FIRST = Numbering(
    "first",
    _pairs("1-3 3-4 4-7 7-8 1-2 2-5 5-6 6-8 3-5 5-7"),
    """
    1,5:2,3,4,5,6,7,8  5,6:2              1,6:3,4,5,6,7,8   1,2,9:3
    2,5,9:2,4,5,6,7,8  2,6,9:4,5,6,7,8    2,3:4             1,3,9:4,5
    3,5,9:2,5,6,7,8    3,6,9:5,6,7,8      6,7,9,10:5        2,7,10:4,6,7,8
    3,7,10:6,7,8       5,7,9,10:2,5       1,7,9,10:3,4,6,7,8
    7,8:6              6,8,9,10:5,6       2,8,10:4,7,8      3,8,10:7,8
    5,8,9,10:2,5,6     1,8,9,10:3,4,7,8   3,4,10:7          4,7:6,8
    4,8:8              2,4,10:4,7         1,4,9,10:3,4,7    4,5,9,10:2,5,6,8
    4,6,9,10:5,6,8
    """,
)

SECOND = Numbering(
    "second",
    _pairs("1-2 2-3 3-4 4-5 1-6 6-7 7-8 8-5 2-7 7-4"),
    """
    1,5:2,3,4,5,6,7,8  1,2,9:2            2,5,9:3,4,5,6,7,8 2,3:3
    1,3,9:2,3          3,5,9:4,5,6,7,8    3,4,10:4          2,4,10:4,5
    1,4,9,10:2,3,4     4,5,9,10:5,6,7,8   4,8:5             3,8,10:5,6
    2,8,10:3,4,5       1,8,9,10:2,3,4,5   5,8,9,10:6,7,8    5,6:6
    1,6:2,3,4,5,7,8    2,6,9:3,4,5,7,8    3,6,9:4,5,7,8     4,6,9,10:5,7,8
    6,8,9,10:7,8       6,7,9,10:7         4,7:5,8           7,8:8
    2,7,10:3,4,5,8     3,7,10:4,5,8       5,7,9,10:6,7      1,7,9,10:2,3,4,5,8
    """,
)

THIRD = Numbering(
    "third",
    _pairs("1-7 7-8 8-6 6-4 1-2 2-5 5-3 3-4 7-5 5-6"),
    """
    1,5:2,3,4,5,6,7,8  5,6:2              1,6:3,4,5,6,7,8   6,7,9,10:5
    7,8:3              6,8,9,10:3,5       5,8,9,10:2,3,5    1,8,9,10:4,6,7,8
    4,8:4              4,5,9,10:2,3,4,5   1,4,9,10:6,7,8    3,4,10:6
    3,6,9:3,4,5,6      3,5,9:2,3,4,5,6    3,7,10:3,4,6      1,2,9:7
    2,7,10:3,4,6,8     2,8,10:4,6,8       2,4,10:6,8        2,5,9:2,3,4,5,6,8
    2,6,9:3,4,5,6,8
    """,
)

NUMBERINGS = (FIRST, SECOND, THIRD)

# The cuts whose nodes are printed wrong, by the table.
MISPRINTS = {
    "first": {_from_0("1,3,9")},
    "second": {_from_0("2,4,10"), _from_0("3,8,10")},
    "third": set(),
}

# How many cuts there are in all, and how often a node is disconnected by one.
CUTS_PRINTED, INCIDENCES_PRINTED = 28, 84

# The same two figures for complete graphs, by nodes; one of them is not printed.
COMPLETE_PRINTED = {7: (63, 192), 8: (127, 448), 9: (None, 1024)}

# The ten cuts between nodes 1 and 8 of another printed graph, with 16 branches.
TEN_CUTS_PAIRS = _pairs("1-2 1-2 1-5 2-3 2-3 5-3 3-4 3-4 4-6 3-6 6-8 6-8 6-8 3-7 7-8 7-8")
TEN_CUTS = {
    _from_0(words)
    for words in (
        "1,2,3 3,4,5 1,2,6 4,5,6 7,8,10,14 9,10,14 11,12,13,14"
        " 7,8,10,15,16 9,10,15,16 11,12,13,15,16"
    ).split()
}


def renumbered(numbering: Numbering) -> dict[int, int]:
    """The node of the first numbering for each node of another one.

    Branch by branch the ends must fit, in one order or the other.
    """
    fitting = {0: 0}
    while len(fitting) < NODES:
        for ends, first in zip(numbering.pairs, FIRST.pairs):
            _fit(fitting, ends, first)
    return fitting


def _fit(fitting: dict[int, int], ends: Pair, first: Pair) -> None:
    for here, there in (ends, ends[::-1]):
        if here in fitting and fitting[here] in first:
            fitting[there] = first[1 - first.index(fitting[here])]
