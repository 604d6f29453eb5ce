"""List the minimal cuts of a door by going through all sets of nodes.

This is a second way to the cuts, which shares nothing with the search by rows.
Take away the failed branches and draw nodes together that working branches tie.
Of the lumps that are left, those within reach of the head count.  Part them in
two, the head in one part and the door in the other.  If each part hangs
together, the branches between the two are a minimal cut, and every minimal cut
comes about in this way, once.
"""

from __future__ import annotations

from collections.abc import Iterator
from dataclasses import dataclass

from deck import Condition, Deck

MOST_LUMPS = 18

# The branches of a cut, and the nodes that it cuts off.
Cut = tuple[frozenset[int], frozenset[int]]


@dataclass(frozen=True)
class Lump:
    """Nodes that no cut can part."""

    nodes: frozenset[int]


def lumps(deck: Deck) -> list[Lump]:
    """All nodes, drawn together over the working branches."""
    found = [{node} for node in range(deck.nodes)]
    for branch in deck.branches:
        if branch.condition is Condition.WORKING:
            one, other = (_holding(found, end) for end in branch.ends)
            if one is not other:
                found.remove(other)
                one |= other
    return [Lump(frozenset(nodes)) for nodes in found]


def _holding(groups: list[set[int]], node: int) -> set[int]:
    return next(group for group in groups if node in group)


class Lumped:
    """The lumps by number, and the branches able to fail between two of them."""

    def __init__(self, deck: Deck) -> None:
        self.lumps = lumps(deck)
        self.between: dict[int, tuple[int, int]] = {}
        for k, branch in enumerate(deck.branches):
            one, other = (self.number(end) for end in branch.ends)
            if branch.condition is Condition.ABLE and one != other:
                self.between[k] = (one, other)

    def number(self, node: int) -> int:
        """The lump in which a node is."""
        return next(k for k, lump in enumerate(self.lumps) if node in lump.nodes)

    def reach(self, start: int, allowed: frozenset[int]) -> frozenset[int]:
        """The allowed lumps that can be had from the start by allowed ones."""
        found = {start}
        grew = True
        while grew:
            before = len(found)
            for one, other in self.between.values():
                if one in allowed and other in allowed and (one in found or other in found):
                    found |= {one, other}
            grew = len(found) > before
        return frozenset(found)

    def nodes_of(self, numbers: frozenset[int]) -> frozenset[int]:
        return frozenset(node for k in numbers for node in self.lumps[k].nodes)


def minimal_cuts(deck: Deck, door: int) -> set[Cut]:
    """Every minimal cut of a door that can be cut off from the head."""
    lumped = Lumped(deck)
    head, end = lumped.number(deck.head), lumped.number(door)
    whole = lumped.reach(head, frozenset(range(len(lumped.lumps))))
    if head == end or end not in whole or len(whole) > MOST_LUMPS:
        raise ValueError("this door is not one to enumerate")
    found = [
        _cut(lumped, inside, whole - inside)
        for inside in _parts(whole, head, end)
        if lumped.reach(head, inside) == inside
        and lumped.reach(end, whole - inside) == whole - inside
    ]
    if len(set(found)) < len(found):
        raise AssertionError("two ways of parting gave one cut")
    return set(found)


def _parts(whole: frozenset[int], head: int, end: int) -> Iterator[frozenset[int]]:
    """All sets of lumps with the head's and without the door's."""
    free = sorted(whole - {head, end})
    for choice in range(1 << len(free)):
        yield frozenset({head, *(lump for k, lump in enumerate(free) if choice >> k & 1)})


def _cut(lumped: Lumped, inside: frozenset[int], outside: frozenset[int]) -> Cut:
    branches = frozenset(
        k
        for k, (one, other) in lumped.between.items()
        if one in inside and other in outside or one in outside and other in inside
    )
    return branches, lumped.nodes_of(outside)
