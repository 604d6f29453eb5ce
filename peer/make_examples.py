"""Write the example plans and their sheets.

With `--check` nothing is written: a missing or different file makes the run
fail.
"""

from __future__ import annotations

import sys

from folder import EXAMPLES
from layouts import FOURTEEN_BUS, ONE_IN_10, ONE_IN_100, chains, deck_of, line, ring, two_risers
from plans_small import BRIDGE
from published import NODES, NUMBERINGS
from scales import Rating
from sheet import sheet
from stored import Files, settle

FLOORS = 6


def examples() -> dict[str, bytes]:
    """The decks by name."""
    found = {
        "bridge": deck_of(4, BRIDGE, [3], rating=ONE_IN_10),
        "ring_main": _ring_main(),
        "two_risers": _two_risers(),
        "three_chains_7": deck_of(23, chains(7, 7, 7), [22], rating=ONE_IN_100),
        "three_chains_10": deck_of(32, chains(10, 10, 10), [31], rating=ONE_IN_100),
        "fourteen_bus": deck_of(14, FOURTEEN_BUS, range(1, 14), rating=_by_length),
    }
    for numbering in NUMBERINGS:
        deck = deck_of(NODES, numbering.pairs, range(1, NODES), rating=ONE_IN_100)
        found[f"published_28_{numbering.name}"] = deck
    return found


def _ring_main() -> bytes:
    """A main of twelve nodes, and four doors on short spurs of their own."""
    pairs = ring(12) + [(2, 12), (5, 13), (8, 14), (11, 15)]
    return deck_of(16, pairs, [12, 13, 14, 15, 6], rating=_main_or_spur)


def _main_or_spur(k: int) -> Rating:
    return (4_000_000, 9) if k < 12 else (750_000, 9)


def _two_risers() -> bytes:
    """Six floors; the risers meet again at node 19 on the roof."""
    pairs = two_risers(FLOORS) + line([FLOORS, 3 * FLOORS + 1, 2 * FLOORS])
    doors = [2 * FLOORS + floor for floor in (1, 4, 6)]
    return deck_of(3 * FLOORS + 2, pairs, doors, rating=_riser_or_loop)


def _riser_or_loop(k: int) -> Rating:
    """Risers are well protected; the loops on the floors are less so."""
    return (1_500_000, 9) if k < 2 * FLOORS else (6_250_000, 9)


def _by_length(k: int) -> Rating:
    """Ratings that differ from line to line."""
    return 1_200_000 + 350_000 * (k * 7 % 20), 9


def wanted() -> Files:
    files = {}
    for name, data in sorted(examples().items()):
        files[EXAMPLES / f"{name}.deck"] = data
        files[EXAMPLES / f"{name}.sheet"] = sheet(data)
    return files


if __name__ == "__main__":
    sys.exit(settle("examples", wanted(), sys.argv[1:]))
