"""Small plans: cases that can be worked by hand, and edges of the rules."""

from __future__ import annotations

from collections.abc import Iterator

from layouts import (
    ALWAYS,
    CUBE,
    NEVER,
    ONE_IN_10,
    PETERSEN,
    chains,
    complete,
    deck_of,
    high,
    hubs,
    line,
    mixed,
    ring,
    strip,
    tiny,
    tree,
    wheel,
)
from published import NODES, NUMBERINGS, TEN_CUTS_PAIRS
from scales import Rating

# A name and the bytes of a deck.
Plan = tuple[str, bytes]
Plans = Iterator[Plan]

BRIDGE = [(0, 1), (0, 2), (1, 2), (1, 3), (2, 3)]


def bridge(*doors: int, **more: object) -> bytes:
    """The bridge of four nodes with an even rating."""
    return deck_of(4, BRIDGE, doors or (3,), **{"rating": ONE_IN_10, **more})


def plans() -> Plans:
    yield from worked()
    yield from _bridges()
    yield from _pairs()
    yield from _ratings()
    yield from _refused_doors()
    yield from _sides()
    yield from _shapes()
    yield from _complete()
    yield from _published()


def worked() -> Plans:
    """Cases whose rows were first worked out by hand."""
    yield "worked_01_bridge", bridge()
    yield "worked_02_bridge_2_working", bridge(working=[2])
    yield "worked_03_bridge_2_failed", bridge(failed=[2])
    yield "worked_04_try_without_row", deck_of(4, [(0, 1), (0, 2), (1, 2), (2, 3)], [3])
    yield "worked_05_ring_4", deck_of(4, ring(4), [2])
    yield "worked_06_spur", deck_of(3, [(0, 1), (0, 2)], [1])
    yield "worked_07_pair_rated_0", deck_of(2, [(0, 1)], [1], rating=NEVER)
    yield "worked_08_door_past_the_nodes", bridge(4)
    yield "worked_08_door_is_the_head", bridge(0)
    yield "worked_08_door_not_joined", bridge(failed=[3, 4])
    yield "worked_08_door_never_cut_off", bridge(working=[0, 3])
    yield "worked_11_three_chains_of_7", deck_of(23, chains(7, 7, 7), [22])
    yield "worked_11_three_chains_of_10", deck_of(32, chains(10, 10, 10), [31])


def _bridges() -> Plans:
    """The bridge in other clothes."""
    yield "bridge_every_door", bridge(1, 2, 3)
    yield "bridge_same_door_twice", bridge(3, 1, 3)
    yield "bridge_head_3", bridge(0, 1, 2, head=3)
    yield "bridge_head_1", bridge(0, 2, 3, head=1, rating=mixed)
    yield "bridge_doubled", deck_of(4, BRIDGE + BRIDGE, [3], rating=mixed)
    yield "bridge_each_mark", bridge(failed=[0], working=[4])
    yield "bridge_marked_again", bridge(failed=[2, 2, 0], working=[0, 2])
    yield "bridge_with_loops", deck_of(4, [(0, 0), *BRIDGE, (2, 2), (3, 3)], [3], rating=high)
    yield "bridge_with_loops_marked", deck_of(
        4, [(0, 0), *BRIDGE, (2, 2), (3, 3)], [3], failed=[0], working=[6, 7]
    )
    yield "bridge_backwards", deck_of(4, [(b, a) for a, b in BRIDGE[::-1]], [3], rating=mixed)
    yield "bridge_high", bridge(1, 2, 3, rating=high)
    yield "bridge_tiny", bridge(rating=tiny)
    yield "bridge_and_strangers", deck_of(9, BRIDGE + [(5, 6), (6, 7), (7, 5)], [3, 5, 8])


def _pairs() -> Plans:
    """Two nodes: one cut, however many branches it takes."""
    for count in (1, 2, 3, 9, 64):
        yield f"pair_{count:02}", deck_of(2, [(0, 1)] * count, [1], rating=ONE_IN_10)
    yield "pair_64_tiny", deck_of(2, [(1, 0)] * 64, [1], rating=tiny)
    yield "pair_64_mixed", deck_of(2, [(0, 1)] * 64, [1], rating=mixed)
    yield "pair_64_nearly_1", deck_of(2, [(0, 1)] * 64, [1], rating=(999_999_999, 9))
    yield "pair_64_half_failed", deck_of(2, [(0, 1)] * 64, [1], rating=high, failed=range(0, 64, 2))
    yield "pair_one_working", deck_of(2, [(0, 1)] * 5, [1, 0], working=[3])
    yield "pair_head_1", deck_of(2, [(0, 1), (1, 1), (0, 1)], [0, 1, 2], head=1)


def _ratings() -> Plans:
    """Chances 0 and 1, and figures at the ends of their ranges."""
    yield "rating_all_0", bridge(1, 2, 3, rating=NEVER)
    yield "rating_all_1", bridge(1, 2, 3, rating=ALWAYS)
    yield "rating_0_and_1", bridge(1, 2, 3, rating=lambda k: ALWAYS if k % 2 else NEVER)
    yield "rating_1_among_others", bridge(rating=lambda k: ALWAYS if k == 3 else mixed(k))
    yield "rating_0_among_others", bridge(rating=lambda k: NEVER if k == 3 else mixed(k))
    yield "rating_0_e_18", bridge(rating=(0, 18))
    yield "rating_1000000000_each_e", deck_of(
        6, ring(6) + line([0, 3, 5]), [3, 5], rating=lambda k: (1_000_000_000, 9 + k)
    )
    yield "rating_1_each_e", deck_of(
        6, ring(6) + line([0, 3, 5]), [3, 4], rating=lambda k: (1, 9 + k)
    )
    yield "rating_999999999_each_e", deck_of(
        4, chains(1, 1), [3], rating=lambda k: (999_999_999, 9 + 3 * k)
    )
    yield "rating_half_high_sums", deck_of(5, complete(range(5)), [4], rating=(500_000_000, 9))
    yield "rating_sum_just_below_1", deck_of(3, line(range(3)), [2], rating=_halves(499_999_999))
    yield "rating_sum_just_1", deck_of(3, line(range(3)), [2], rating=_halves(500_000_000))
    yield "rating_sum_past_1", deck_of(3, line(range(3)), [2], rating=_halves(500_000_001))
    yield "rating_falls_out_of_nine_figures", deck_of(
        4, [(0, 1)] * 4 + line([1, 2, 3]), [3], rating=lambda k: (1 + k, 18)
    )


def _halves(m: int) -> object:
    """A half for branch 0 and the given rating for branch 1."""
    ratings: list[Rating] = [(500_000_000, 9), (m, 9)]
    return lambda k: ratings[k]


def _refused_doors() -> Plans:
    """Every reason to refuse a door, and which comes first."""
    loose = [(0, 1), (0, 2), (1, 2), (3, 4), (2, 5)]
    all_doors = [1, 6, 0, 3, 5, 4_294_967_295, 7, 2]
    yield "refused_each_in_turn", deck_of(6, loose, all_doors, working=[4, 1])
    yield "refused_head_before_joined", deck_of(3, [(1, 2)], [0, 1, 2, 3])
    yield "refused_all_failed", deck_of(5, ring(5), range(6), failed=range(5))
    yield "refused_all_working", deck_of(5, ring(5), range(6), working=range(5))
    yield "refused_loops_only", deck_of(3, [(0, 0), (1, 1), (2, 2)], [1, 2, 0], working=[1])
    yield "refused_working_way_around", deck_of(
        7, ring(7), range(1, 7), working=[6, 5, 4], rating=mixed
    )
    yield "refused_behind_failed", deck_of(7, line(range(7)), range(1, 8), failed=[3])


def _sides() -> Plans:
    """What belongs inside along with the head."""
    yield "side_spurs_on_the_head", deck_of(6, [(0, k) for k in range(1, 6)], [3, 5])
    yield "side_spur_on_the_door", deck_of(5, line([0, 1, 2]) + [(2, 3), (3, 4)], [2])
    yield "side_node_without_branch", deck_of(5, ring(4), [2, 4])
    yield "side_working_spur", deck_of(5, ring(4) + [(1, 4)], [2, 4], working=[4])
    yield "side_working_to_the_door", deck_of(5, ring(5), [2, 3], working=[2], rating=mixed)
    yield "side_working_chain", deck_of(8, ring(8), [3, 6], working=[0, 1, 4], rating=mixed)
    yield "side_able_beside_working", deck_of(4, ring(4) + ring(4), [2], working=[0, 2])
    yield "side_failed_beside_able", deck_of(4, ring(4) + ring(4), [2], failed=[0, 2, 5])
    yield "side_ring_behind_the_door", deck_of(7, ring(4) + line([2, 4, 5, 6, 2]), [2, 5])
    yield "side_ring_behind_the_head", deck_of(7, ring(4) + line([0, 4, 5, 6, 0]), [2, 5])


def _shapes() -> Plans:
    """Networks of up to a dozen nodes."""
    yield "shape_line_9", deck_of(9, line(range(9)), [8, 4, 1], rating=mixed)
    yield "shape_line_9_head_inside", deck_of(9, line(range(9)), [0, 8], head=4, rating=high)
    yield "shape_tree_10", deck_of(10, tree(10), [9, 6, 2], rating=mixed)
    yield "shape_triangle", deck_of(3, ring(3), [1, 2], rating=ONE_IN_10)
    yield "shape_ring_9", deck_of(9, ring(9), [1, 4, 8], rating=mixed)
    yield "shape_strip_9", deck_of(9, strip(9), [8, 5], rating=mixed)
    yield "shape_wheel_7", deck_of(8, wheel(7), [4], rating=mixed)
    yield "shape_wheel_7_rim_to_rim", deck_of(8, wheel(7), [5, 0], head=1, rating=high)
    yield "shape_hubs_6", deck_of(8, hubs(6), [1, 4], rating=mixed)
    yield "shape_three_hubs_5", deck_of(8, hubs(5, 3), [1, 7], rating=mixed)
    yield "shape_cube", deck_of(8, CUBE, [7, 3, 1], rating=mixed)
    yield "shape_petersen", deck_of(10, PETERSEN, [1, 7], rating=mixed)
    yield "shape_chains_1_2_3", deck_of(8, chains(1, 2, 3), [7, 5], rating=mixed)


def _complete() -> Plans:
    """Every two nodes joined; a door has 2 ** (nodes - 2) cuts."""
    for nodes in range(2, 7):
        doors = range(1, nodes)
        yield f"complete_{nodes:02}", deck_of(nodes, complete(range(nodes)), doors, rating=mixed)
    for nodes in (7, 8, 9, 10, 11):
        doors = [nodes - 1, 1] if nodes < 10 else [nodes - 1]
        yield f"complete_{nodes:02}", deck_of(nodes, complete(range(nodes)), doors)


def _published() -> Plans:
    """Graphs with published cuts, and every door there is."""
    for numbering in NUMBERINGS:
        deck = deck_of(NODES, numbering.pairs, range(1, NODES))
        yield f"published_28_{numbering.name}", deck
    yield "published_10", deck_of(8, TEN_CUTS_PAIRS, [7], rating=high)
