"""Test decks that every question lets through."""

from __future__ import annotations

from sample import (
    BRIDGE,
    FULL,
    MOST_BYTES,
    PAIR,
    Samples,
    accepted,
    branch,
    cards,
    filled_with_doors,
)


def samples() -> Samples:
    yield from _plans()
    yield from _node_limits()
    yield from _rating_limits()
    yield from _branch_shapes()
    yield from _marks()
    yield from _doors()
    yield from _leading_zeros()
    yield from _long_decks()


def _plans() -> Samples:
    """Plans as somebody might really draw them."""
    yield accepted("plan_bridge", cards(*BRIDGE, "DOOR 3"))
    yield accepted("plan_bridge_every_door", cards(*BRIDGE, *_doors_up_to(3)))
    yield accepted("plan_bridge_head_3", cards("NODES 4 3", *BRIDGE[1:], "DOOR 0"))
    yield accepted("plan_ring_6", _ring(6))
    yield accepted("plan_ring_32", _ring(32))
    yield accepted("plan_street_with_dead_ends", _street())
    yield accepted("plan_two_risers", _two_risers())
    yield accepted("plan_two_risers_under_repair", _two_risers_under_repair())
    yield accepted("plan_32_nodes_64_branches_chords", _ring_with_chords())
    yield accepted("plan_32_nodes_64_branches_grid", _grid_with_diagonals())
    yield accepted("plan_in_two_parts", _two_parts())


def _doors_up_to(last: int) -> list[str]:
    return [f"DOOR {door}" for door in range(1, last + 1)]


def _ring(nodes: int) -> bytes:
    around = [branch(k, (k + 1) % nodes, 20_000_000, 9) for k in range(nodes)]
    return cards(f"NODES {nodes} 0", *around, f"DOOR {nodes // 2}")


def _street() -> bytes:
    """A main from the head at node 2 with a house at each of its joints."""
    main = [branch(k, k + 1, 5_000_000, 10) for k in range(5)]
    houses = [branch(k, k + 5, 750_000_000, 12) for k in range(1, 6)]
    return cards("NODES 11 2", *main, *houses, "DOOR 6", "DOOR 10", "DOOR 8")


FLOORS = range(1, 6)


def _two_risers_branches() -> list[str]:
    """Risers at nodes 1 to 5 and 6 to 10; each floor's door is node 10 + floor."""
    feeds = [branch(0, 1, 1_000_000, 9), branch(0, 6, 1_000_000, 9)]
    left = [branch(k, k + 1, 3_000_000, 9) for k in range(1, 5)]
    right = [branch(k, k + 1, 3_000_000, 9) for k in range(6, 10)]
    loops = []
    for floor in FLOORS:
        loops.append(branch(floor, floor + 10, 12_500_000, 9))
        loops.append(branch(floor + 10, floor + 5, 12_500_000, 9))
    return feeds + left + right + loops


def _two_risers() -> bytes:
    doors = [f"DOOR {floor + 10}" for floor in FLOORS]
    return cards("NODES 16 0", *_two_risers_branches(), *doors)


def _two_risers_under_repair() -> bytes:
    """One riser pipe is out, and both feeds have been made safe."""
    marks = ["FAILED 3", "WORKING 0", "WORKING 1", "FAILED 10"]
    return cards("NODES 16 0", *_two_risers_branches(), *marks, "DOOR 15", "DOOR 11")


def _varied(k: int, one: int, other: int) -> str:
    """A branch whose rating changes with its number."""
    return branch(one, other, 15_625_000 * k, 9 + k % 10)


def _ring_with_chords() -> bytes:
    ring = [_varied(k, k, (k + 1) % 32) for k in range(32)]
    chords = [_varied(k + 32, k, (k + 5) % 32) for k in range(32)]
    marks = [f"FAILED {k}" for k in range(0, 64, 9)]
    marks += [f"WORKING {k}" for k in range(0, 64, 7)]
    return cards("NODES 32 0", *ring, *chords, *marks, *_doors_up_to(31))


def _grid_with_diagonals() -> bytes:
    """Four rows of eight nodes: 28 along, 24 down, 12 slanting."""
    along = [branch(8 * row + k, 8 * row + k + 1) for row in range(4) for k in range(7)]
    down = [branch(k, k + 8) for k in range(24)]
    slanting = [branch(k, k + 9) for k in range(24) if k % 2 == 0]
    return cards("NODES 32 31", *along, *down, *slanting, "DOOR 0", "DOOR 7")


def _two_parts() -> bytes:
    """Nodes 2 and 3 have no way to the head; a deck does not ask for one."""
    return cards("NODES 5 0", branch(0, 1), branch(2, 3), "DOOR 3", "DOOR 4")


def _node_limits() -> Samples:
    yield accepted("nodes_2_smallest_deck", cards("NODES 2 0", "BRANCH 0 0 0 9", "DOOR 0"))
    yield accepted("nodes_2_head_1", cards("NODES 2 1", branch(0, 1), "DOOR 0"))
    yield accepted("nodes_32_one_branch", cards("NODES 32 0", branch(0, 31), "DOOR 31"))
    yield accepted("nodes_32_head_31", cards("NODES 32 31", branch(31, 0), "DOOR 0"))
    yield accepted("ends_last_node", cards("NODES 7 0", branch(6, 0), branch(0, 6), "DOOR 6"))


def _rating_limits() -> Samples:
    """Every corner of m and e."""
    for m in (0, 1, 1_000_000_000):
        for e in (9, 18):
            yield accepted(f"m_{m}_e_{e}", cards("NODES 2 0", branch(0, 1, m, e), "DOOR 1"))
    every_e = [branch(0, 1, 999_999_999, e) for e in range(9, 19)]
    yield accepted("e_9_to_18", cards("NODES 2 0", *every_e, "DOOR 1"))


def _branch_shapes() -> Samples:
    yield accepted("branches_64", cards(*FULL, "DOOR 31"))
    yield accepted("branches_63", cards(*FULL[:-1], "DOOR 31"))
    yield accepted("both_ends_same_node", cards(*PAIR, branch(1, 1), branch(0, 0), "DOOR 1"))
    yield accepted("parallel_branches", cards(*PAIR, branch(0, 1, 7, 9), branch(1, 0), "DOOR 1"))
    yield accepted("parallel_64", cards("NODES 2 0", *[branch(1, 0)] * 64, "DOOR 1"))
    yield accepted("same_node_64", cards("NODES 2 0", *[branch(1, 1)] * 64, "DOOR 1"))


def _marks() -> Samples:
    yield accepted("failed_then_working", _marked("FAILED 2", "WORKING 2"))
    yield accepted("working_then_failed", _marked("WORKING 2", "FAILED 2"))
    yield accepted("failed_twice", _marked("FAILED 2", "FAILED 2"))
    yield accepted("working_twice", _marked("WORKING 2", "WORKING 2"))
    yield accepted("three_marks_end_failed", _marked("FAILED 1", "WORKING 1", "FAILED 1"))
    yield accepted("three_marks_end_working", _marked("WORKING 1", "FAILED 1", "WORKING 1"))
    yield accepted("marks_in_turns", _marked("FAILED 0", "FAILED 1", "WORKING 0", "WORKING 3"))
    yield accepted("failed_last_branch", _marked("FAILED 4"))
    yield accepted("working_last_branch", _marked("WORKING 4"))
    yield accepted("failed_all", _marked(*(f"FAILED {k}" for k in range(5))))
    yield accepted("working_all", _marked(*(f"WORKING {k}" for k in range(5))))
    yield accepted("failed_same_node_branch", cards(*PAIR, branch(1, 1), "FAILED 1", "DOOR 1"))
    ends = ("FAILED 0", "WORKING 63")
    yield accepted("marks_first_and_last_of_64", cards(*FULL, *ends, "DOOR 31"))


def _marked(*marks: str) -> bytes:
    return cards(*BRIDGE, *marks, "DOOR 3")


def _doors() -> Samples:
    """A deck takes any number for a door, any number of times."""
    yield accepted("door_same_twice", cards(*BRIDGE, "DOOR 3", "DOOR 1", "DOOR 3"))
    yield accepted("door_is_head", cards(*BRIDGE, "DOOR 0"))
    yield accepted("door_is_n", cards(*BRIDGE, "DOOR 4"))
    yield accepted("door_past_n", cards(*BRIDGE, "DOOR 32", "DOOR 64", "DOOR 256"))
    yield accepted("door_4294967295", cards(*BRIDGE, "DOOR 4294967295", "DOOR 3"))
    many = [f"DOOR {37 * k % 101}" for k in range(100)]
    yield accepted("doors_100", cards(*BRIDGE, *many))


def _leading_zeros() -> Samples:
    yield accepted(
        "leading_zeros_everywhere",
        cards(
            "NODES 0000000004 0000000000",
            "BRANCH 00 0001 0100000000 09",
            "BRANCH 0000000000 0000000002 0000000007 0000000018",
            "BRANCH 03 03 0000000000 009",
            "FAILED 0000000002",
            "WORKING 01",
            "DOOR 0000000003",
            "DOOR 00",
        ),
    )
    yield accepted("ten_digits_door", cards(*PAIR, "DOOR 0000000001"))
    yield accepted("octal_looking_numbers", cards("NODES 010 07", branch(0, 9), "DOOR 011"))


def _long_decks() -> Samples:
    """Decks of exactly the largest length, and one byte under it."""
    start = cards(*PAIR)
    yield accepted("bytes_65536_doors", filled_with_doors(start, MOST_BYTES))
    yield accepted("bytes_65535_doors", filled_with_doors(start, MOST_BYTES - 1))
    yield accepted("bytes_65536_marks", _long_with_marks())


def _long_with_marks() -> bytes:
    """Thousands of marks that leave branch 1 working and branch 4 failed."""
    marks = cards("FAILED 1", "WORKING 1", "WORKING 4", "FAILED 4")
    start = cards(*BRIDGE)
    repeats = (MOST_BYTES - len(start)) // len(marks) - 1
    return filled_with_doors(start + marks * repeats, MOST_BYTES)
