"""Larger plans, most of them with 20 to 32 nodes and up to 64 branches."""

from __future__ import annotations

from layouts import (
    ALWAYS,
    DODECAHEDRON,
    FOURTEEN_BUS,
    NEVER,
    ONE_IN_10,
    THIRTY_BUS,
    TWENTY_FOUR_BUS,
    chains,
    comb,
    complete,
    deck_of,
    fair,
    grid,
    high,
    hubs,
    line,
    mixed,
    moved,
    necklace,
    ring,
    strip,
    tiny,
    tree,
    two_risers,
    wheel,
)
from plans_small import Plans


def plans() -> Plans:
    yield from _rings()
    yield from _sparse()
    yield from _chains()
    yield from _risers()
    yield from _ladders()
    yield from _dense()
    yield from _systems()
    yield from _loose()
    yield from _never_and_always()


def _rings() -> Plans:
    yield "ring_20", deck_of(20, ring(20), [10, 1, 19])
    yield "ring_24_mixed", deck_of(24, ring(24), [5, 12], rating=mixed)
    yield "ring_32", deck_of(32, ring(32), [16, 31], rating=ONE_IN_10)
    yield "ring_32_marked", deck_of(
        32, ring(32), [16, 2, 9], rating=mixed, working=range(0, 32, 3)
    )
    yield "ring_26_broken", deck_of(26, ring(26), [13, 20], head=7, rating=high, failed=[25])
    yield "ring_21_doubled", deck_of(21, ring(21) * 3, [7, 14], rating=high)
    yield "necklace_5_of_6", deck_of(26, necklace(5, 6), [23, 13, 1], rating=fair)
    yield "necklace_10_of_4", deck_of(31, necklace(10, 4), [29, 30, 15], rating=high)
    yield "necklace_9_triangles", deck_of(19, necklace(9, 3), [18, 17], rating=mixed)
    yield "ring_of_rings", deck_of(32, ring(8) + _hung_rings(), [4, 11, 31], rating=mixed)
    yield "wheel_12_hub", deck_of(13, wheel(12), [6], rating=mixed)
    yield "wheel_19_hub", deck_of(20, wheel(19), [10], rating=fair)
    yield "wheel_24_hub_half_failed", deck_of(25, wheel(24), [10, 13], failed=range(0, 24, 2))
    yield "wheel_31_working_rim", deck_of(
        32, wheel(31), [2, 30, 16], rating=mixed, working=[k for k in range(31, 62) if k % 3]
    )


def _hung_rings() -> list[tuple[int, int]]:
    """On each node of a ring of eight, a ring with three nodes of its own."""
    return [p for k in range(8) for p in line([k, *range(8 + 3 * k, 11 + 3 * k), k])]


def _sparse() -> Plans:
    yield "line_32", deck_of(32, line(range(32)), [31, 16, 1], rating=fair)
    yield "line_32_doubled", deck_of(32, line(range(32)) * 2, [31, 15], rating=high)
    yield "line_22_tripled", deck_of(22, line(range(22)) * 3, [21], rating=mixed)
    yield "line_30_head_inside", deck_of(
        30, line(range(30)), [0, 29, 12, 30], head=12, rating=mixed
    )
    yield "tree_31", deck_of(31, tree(31), [30, 15, 2], rating=mixed)
    yield "tree_32_of_threes", deck_of(32, tree(32, 3), [31, 13], rating=high)
    yield "star_32", deck_of(32, tree(32, 31), [1, 31, 0], rating=mixed)
    yield "comb_16", deck_of(32, comb(16), [31, 16, 24], rating=mixed)
    yield "tree_28_with_chords", deck_of(
        28, tree(28) + [(13, 27), (20, 25)], [27, 20], rating=mixed
    )
    yield "tree_24_leaves_to_door", deck_of(
        24, tree(23, 4) + [(k, 23) for k in range(6, 23, 4)], [23, 9], rating=fair
    )


def _chains() -> Plans:
    yield "chains_2_of_15", deck_of(32, chains(15, 15), [31, 15], rating=mixed)
    yield "chains_3_of_6", deck_of(20, chains(6, 6, 6), [19], rating=fair)
    yield "chains_2_5_12", deck_of(21, chains(2, 5, 12), [20, 9], rating=mixed)
    yield "chains_4_of_3", deck_of(14, chains(3, 3, 3, 3), [13], rating=ONE_IN_10)
    yield "chains_9_of_1", deck_of(11, chains(*[1] * 9), [10], rating=mixed)
    yield "chains_6_of_5_full", deck_of(32, chains(*[5] * 6), [31], rating=mixed)
    yield "chains_2_2_2_18_full", deck_of(26, chains(2, 2, 2, 18), [25], rating=mixed)
    yield "chains_1_2_4_16", deck_of(25, chains(1, 2, 4, 16), [24], rating=tiny)
    marks = {"failed": range(8, 36, 4), "working": range(1, 7, 2)}
    yield "chains_10_of_3_marked", deck_of(
        32, chains(*[3] * 10), [31, 4, 6], rating=fair, **marks
    )
    yield "chains_3_of_7_tied", _tied(23, chains(7, 7, 7))
    yield "chains_30_of_1_marked", deck_of(
        32, chains(*[1] * 30), [31], rating=high, working=range(14, 60, 2)
    )
    yield "chains_20_of_1_failed", deck_of(
        22, chains(*[1] * 20), [21], rating=mixed, failed=range(1, 24, 2)
    )


def _tied(nodes: int, pairs: list[tuple[int, int]]) -> bytes:
    """One more node, next to the head and tied to the door, the last of the nodes.

    Each row has a try at it, which leads nowhere.  So tries are left to make
    after the last row.
    """
    pairs = [*pairs, (0, nodes), (nodes, nodes - 1)]
    return deck_of(nodes + 1, pairs, [nodes - 1], rating=mixed, working=[len(pairs) - 1])


def _risers() -> Plans:
    yield "two_risers_5", deck_of(16, two_risers(5), [11, 15], rating=fair)
    yield "two_risers_7_working_left", deck_of(
        22, two_risers(7), [15, 18, 21], rating=fair, working=range(7)
    )
    yield "two_risers_10_broken", deck_of(
        31, two_risers(10), [21, 25, 30], rating=fair, failed=[4, 15], working=[0, 10]
    )
    yield "two_risers_8_loops_out", deck_of(
        25, two_risers(8), [17, 24], rating=fair, failed=[17, 21, 24, 27, 30]
    )


def _ladders() -> Plans:
    yield "ladder_10", deck_of(20, grid(2, 10), [19, 9], rating=fair)
    yield "ladder_12_working_top", deck_of(24, grid(2, 12), [23], working=range(0, 12, 4))
    yield "ladder_16_rungs_out", deck_of(
        32, grid(2, 16), [31, 15], rating=fair, failed=range(3, 30, 4)
    )
    yield "strip_20", deck_of(20, strip(20), [19, 10], rating=fair)
    yield "strip_32_working", deck_of(
        32, strip(32), [31, 17], rating=fair, working=range(0, 60, 5)
    )
    yield "grid_3_by_4", deck_of(12, grid(3, 4), [11, 5], rating=fair)
    yield "grid_4_by_5_full", deck_of(20, grid(4, 5), [19], rating=fair)
    yield "grid_4_by_8_working", deck_of(
        32, grid(4, 8), [31, 9, 24, 7], rating=fair, working=range(0, 52, 3)
    )
    yield "grid_5_by_6_working", deck_of(
        30, grid(5, 6), [29, 5], rating=high, working=range(1, 49, 3)
    )
    yield "grid_3_by_9_failed", deck_of(
        27, grid(3, 9), [26, 8], rating=fair, failed=range(1, 42, 4)
    )


def _dense() -> Plans:
    yield "dense_30_lumps_of_4", deck_of(
        30, _scattered(30, 64), [29, 11, 3], rating=fair, working=_not_each(30, 4)
    )
    yield "dense_27_lumps_of_3", deck_of(
        27, _scattered(27, 64), [26, 12], head=2, rating=high, working=_not_each(27, 3)
    )
    yield "dense_32_lumps_of_5", deck_of(
        32, _scattered(32, 64), [31, 17, 1], head=9, rating=fair, working=_not_each(32, 5)
    )
    yield "dense_28_many_failed", deck_of(
        28, _scattered(28, 64), [27, 9], rating=fair, failed=[*range(3, 28, 9), *range(31, 64)]
    )
    yield "dense_20_full", deck_of(20, _scattered(20, 64), [19], rating=fair)
    yield "dense_8_of_64", deck_of(8, _scattered(8, 64), [7, 2], rating=high)
    yield "dense_9_of_64_tiny", deck_of(9, _scattered(9, 64), [8], rating=tiny)
    yield "dense_6_of_64_loops", deck_of(
        6, _scattered(6, 54) + [(k % 6, k % 6) for k in range(10)], [5, 3], rating=high
    )
    yield "two_complete_6", deck_of(20, _two_complete(), [19, 9], rating=fair)
    yield "complete_7_with_tails", deck_of(
        28, complete(range(7)) + [(k - 7, k) for k in range(7, 28)], [27, 6], rating=fair
    )
    yield "longest_line", _longest_line()
    yield "hubs_9", deck_of(11, hubs(9), [1], rating=ONE_IN_10)
    yield "hubs_10_full_between_others", deck_of(
        13, hubs(10) + [(0, 12)], [12, 1, 12], rating=fair
    )
    yield "hubs_30_marked", deck_of(
        32, hubs(30), [1, 9, 30], rating=fair, working=range(7, 30), failed=range(30, 33)
    )
    yield "three_hubs_18", deck_of(
        21, hubs(18, 3), [1, 20], rating=fair, failed=range(0, 54, 7), working=range(1, 54, 5)
    )


def _longest_line() -> bytes:
    """A cut of 54 branches and 11 nodes, all with two figures.

    The branches with one figure join the nodes among themselves.
    """
    nodes = range(10, 21)
    pairs = line(nodes) + [(0, nodes[k % 11]) for k in range(54)]
    return deck_of(32, pairs, [20], rating=high)


def _two_complete() -> list[tuple[int, int]]:
    """Two complete networks of six nodes with a long line between them."""
    one = complete(range(6))
    return one + line(range(5, 15)) + moved(one, 14)


def _scattered(nodes: int, count: int) -> list[tuple[int, int]]:
    """A ring, and then branches across it in all directions."""
    across = [(k % nodes, (11 * k + k // nodes + 4) % nodes) for k in range(count - nodes)]
    return ring(nodes) + across


def _not_each(count: int, step: int) -> list[int]:
    """Of so many first branches, all but the last in each step."""
    return [k for k in range(count) if k % step != step - 1]


def _systems() -> Plans:
    yield "fourteen_bus", deck_of(14, FOURTEEN_BUS, [13, 7, 2], rating=fair)
    yield "fourteen_bus_head_9", deck_of(14, FOURTEEN_BUS, [0, 11], head=9, rating=high)
    yield "twenty_four_bus_full", deck_of(24, TWENTY_FOUR_BUS, [6, 21], rating=fair)
    yield "twenty_four_bus_working", deck_of(
        24, TWENTY_FOUR_BUS, [6, 21, 12], rating=fair, working=range(0, 38, 3)
    )
    yield "thirty_bus_working", deck_of(
        30, THIRTY_BUS, [29, 25, 10, 17], rating=fair, working=range(0, 41, 3)
    )
    yield "thirty_bus_failed", deck_of(
        30, THIRTY_BUS, [29, 25, 10], rating=fair, failed=range(2, 41, 5)
    )
    yield "dodecahedron_full", deck_of(20, DODECAHEDRON, [19], rating=fair)
    yield "dodecahedron_working", deck_of(
        20, DODECAHEDRON, [19, 7], rating=fair, working=range(1, 30, 3)
    )


def _loose() -> Plans:
    """Networks with parts that have no way to the head."""
    yield "loose_half", deck_of(30, ring(12) + moved(ring(12), 15), [6, 20, 13, 29], rating=mixed)
    halves = line(range(24)) + [(0, 5), (6, 11), (12, 17), (18, 23)]
    yield "loose_by_failure", deck_of(24, halves, [11, 12, 23], rating=mixed, failed=[11])
    fourths = [(4 * k, 4 * k + 4) for k in range(7)] + [(0, 12), (8, 20), (16, 28)]
    yield "loose_single_nodes", deck_of(32, fourths, [28, 1, 31], rating=mixed)
    spokes = wheel(8) + [(k, k + 8) for k in range(1, 17)] + [(k, k) for k in range(25)]
    yield "loose_ends_with_loops", deck_of(25, spokes, [5, 24], rating=mixed)


def _never_and_always() -> Plans:
    crossed = ring(20) + [(0, 7), (3, 13)]
    yield "never_and_always_20", deck_of(
        20, crossed, [10, 15], rating=lambda k: (NEVER, ALWAYS, mixed(k))[k % 3]
    )
    yield "always_24", deck_of(24, ring(24), [12], rating=ALWAYS)
    yield "never_24", deck_of(24, ring(24), [12], rating=NEVER)
