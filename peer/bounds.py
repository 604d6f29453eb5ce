"""Bounds on the chance that at least one of some branch sets fails whole.

The low bound weighs the sets one by one against their overlaps in pairs, with
every rounding going against it.  The high bound adds the sets up.  Both work on
any scale of `scales` or `fast_scales`.
"""

from __future__ import annotations

from collections.abc import Callable, Sequence
from typing import Any

from scales import Rating

# How many branches are multiplied between two products that are kept.
STRIDE = 16


class Products(dict):
    """The product of the ratings of a branch set, kept for the next time.

    The ratings are multiplied in the order of their branches, from 1 on, with
    a rounding at each.  Sets that begin alike share the work on their
    beginnings: a product goes on from that of the set's earlier branches.
    """

    def __init__(
        self, one: Any, fold: Callable[[Any, Sequence[Rating]], Any], ratings: Sequence[Rating]
    ) -> None:
        super().__init__({0: one})
        self.fold = fold
        self.ratings = ratings
        self.pieces: dict[int, Sequence[Rating]] = {}

    def __missing__(self, branches: int) -> Any:
        first = (branches.bit_length() - 1) // STRIDE * STRIDE
        before = branches & (1 << first) - 1
        number = self.fold(self[before], self._ratings_of(branches ^ before))
        self[branches] = number
        return number

    def _ratings_of(self, piece: int) -> Sequence[Rating]:
        """The ratings of some branches in their order."""
        if piece not in self.pieces:
            self.pieces[piece] = [r for k, r in enumerate(self.ratings) if piece >> k & 1]
        return self.pieces[piece]


def bounds(
    scale: Any, ratings: Sequence[Rating], sets: Sequence[int], finished: bool
) -> tuple[Any, Any]:
    """The low and the high bound of branch sets in the order of their list."""
    low = low_bound(scale, ratings, sets)
    # Sets still to come may add anything, so before the end 1 is all there is.
    high = high_bound(scale, ratings, sets) if finished else scale.one
    return low, high


def low_bound(scale: Any, ratings: Sequence[Rating], sets: Sequence[int]) -> Any:
    """The best of what is left over after each set; 0 if there is no set.

    Singles may only be told too small and overlaps only too large.  The
    overlaps of a set with the sets before it come in the order of the latter.
    """
    single = Products(scale.one, scale.fold_down, scale.prepared(ratings))
    both = Products(scale.one, scale.fold_up, scale.prepared(ratings))
    best = singles = overlaps = scale.zero
    for j, last in enumerate(sets):
        singles = scale.sum_down(singles, single[last])
        for earlier in sets[:j]:
            overlaps = scale.sum_up(overlaps, both[earlier | last])
        left = scale.less(singles, overlaps)
        if scale.at_most(best, left):
            best = left
    return best


def high_bound(scale: Any, ratings: Sequence[Rating], sets: Sequence[int]) -> Any:
    """All sets together, each told too large rather than too small."""
    product = Products(scale.one, scale.fold_up, scale.prepared(ratings))
    total = scale.zero
    for branches in sets:
        total = scale.sum_up(total, product[branches])
    return total
