"""Write the folder of test plans, the list of their names, and their sheets.

With `--check` nothing is written: a missing, extra or different file makes the
run fail.
"""

from __future__ import annotations

import sys

import plans_large
import plans_small
from folder import PLANS
from random_decks import SEED, random_deck
from sheet import sheet
from stored import Files, settle

RANDOM_COUNT = 200


def all_plans() -> dict[str, bytes]:
    """Every deck by its file name, in the order of the names."""
    found = {f"{name}.deck": data for name, data in plans_small.plans()}
    found |= {f"{name}.deck": data for name, data in plans_large.plans()}
    found |= {f"random_{k:03}.deck": random_deck(SEED, k) for k in range(RANDOM_COUNT)}
    return dict(sorted(found.items()))


def name_list(decks: dict[str, bytes]) -> bytes:
    """The names, one a line."""
    return "".join(name + "\n" for name in decks).encode("ascii")


def sheets(decks: dict[str, bytes]) -> bytes:
    """A `FILE name` line for each deck, followed by its sheet."""
    return b"".join(f"FILE {name}\n".encode("ascii") + sheet(data) for name, data in decks.items())


def wanted() -> Files:
    decks = all_plans()
    files = {PLANS.data / name: data for name, data in decks.items()}
    return files | {PLANS.stdin: name_list(decks), PLANS.stdout: sheets(decks)}


if __name__ == "__main__":
    sys.exit(settle("plans", wanted(), sys.argv[1:], PLANS.data))
