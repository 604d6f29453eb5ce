"""Write the sheets of some plans whose searches advance in portions.

However small the portions are, the sheet stays the same.  With `--check` the
stored files are compared.
"""

from __future__ import annotations

import sys

from folder import PORTIONS
from make_plans import all_plans
from sheet import sheet
from stored import Files, settle

BUDGETS = (1, 7, 100, 10_000)

# Plans of all sizes: no try at all, tries by the hundred, no more rows to write.
CHOSEN = (
    "bridge_every_door",
    "chains_3_of_7_tied",
    "complete_08",
    "dense_30_lumps_of_4",
    "fourteen_bus",
    "grid_3_by_4",
    "hubs_10_full_between_others",
    "ladder_10",
    "pair_03",
    "published_28_second",
    "refused_each_in_turn",
    "ring_32_marked",
    "two_risers_7_working_left",
    "wheel_19_hub",
    "worked_04_try_without_row",
    "worked_11_three_chains_of_7",
)


def decks() -> dict[str, bytes]:
    plans = all_plans()
    return {name: plans[name] for name in (f"{title}.deck" for title in sorted(CHOSEN))}


def wanted() -> Files:
    cases = [(name, data, budget) for name, data in decks().items() for budget in BUDGETS]
    lines = [f"{name} {budget}\n".encode("ascii") for name, _, budget in cases]
    answers = [
        f"FILE {name} BUDGET {budget}\n".encode("ascii") + sheet(data, budget)
        for name, data, budget in cases
    ]
    return {PORTIONS.data / name: data for name, data in decks().items()} | {
        PORTIONS.stdin: b"".join(lines),
        PORTIONS.stdout: b"".join(answers),
    }


if __name__ == "__main__":
    sys.exit(settle("portions", wanted(), sys.argv[1:], PORTIONS.data))
