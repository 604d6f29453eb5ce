"""The exact chance that a node is cut off, by adding up every case.

Each set of branches able to fail is one case: its members have failed and the
others have not.  A case counts for a node if it leaves no walk from the head to
that node.
"""

from __future__ import annotations

from fractions import Fraction

from deck import Branch, Condition, Deck

MOST_ABLE = 16


def able(deck: Deck) -> list[Branch]:
    """The branches that can fail."""
    return [branch for branch in deck.branches if branch.condition is Condition.ABLE]


def cut_off_chance(deck: Deck, door: int) -> Fraction:
    """The chance that head and door are parted; branches fail independently."""
    return cut_off_chances(deck)[door]


def cut_off_chances(deck: Deck) -> list[Fraction]:
    """The chance for each node that it is parted from the head."""
    unsure = able(deck)
    if len(unsure) > MOST_ABLE:
        raise ValueError("too many branches to go through all cases")
    counts = [0] * deck.nodes
    for case, weight in enumerate(_weights(unsure)):
        for node in _parted(deck, unsure, case):
            counts[node] += weight
    whole = 1
    for branch in unsure:
        whole *= 10**branch.e
    return [Fraction(count, whole) for count in counts]


def _weights(unsure: list[Branch]) -> list[int]:
    """How much each case weighs, over the product of all the denominators.

    Bit k of a case's number tells that the k-th of the branches has failed.
    """
    found = [1]
    for branch in unsure:
        holds = 10**branch.e - branch.m
        found = [weight * holds for weight in found] + [weight * branch.m for weight in found]
    return found


def _parted(deck: Deck, unsure: list[Branch], case: int) -> set[int]:
    """The nodes without a walk from the head when this case's branches are out."""
    there = [branch.ends for branch in deck.branches if branch.condition is Condition.WORKING]
    there += [branch.ends for k, branch in enumerate(unsure) if not case >> k & 1]
    found = {deck.head}
    grew = True
    while grew:
        before = len(found)
        for one, other in there:
            if one in found or other in found:
                found.add(one)
                found.add(other)
        grew = len(found) > before
    return set(range(deck.nodes)) - found
