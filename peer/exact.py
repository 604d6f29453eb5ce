"""Check that exact chances lie within the stored bounds of small plans.

Every deck of the folder of test plans takes part that has few enough branches
able to fail.  The bounds are read from the stored sheets.  There is nothing to
write, so the only way to run this is with `--check`.
"""

from __future__ import annotations

import re
import sys
from collections.abc import Iterator
from dataclasses import dataclass
from fractions import Fraction

from chance import able, cut_off_chances
from deck import Deck, read_deck
from folder import PLANS

MOST_ABLE = 14
FEWEST_DECKS = 40

DOOR = re.compile(
    r"DOOR (\d+) CUTS .*\n(?:CUT .*\n)+LOW (\d+) HIGH (\d+)\nFINE (\d+) (\d+) (\d+) (\d+)\n"
)


@dataclass(frozen=True)
class Stored:
    """The bounds of one door as they are stored."""

    door: int
    low: Fraction
    high: Fraction
    fine_low: Fraction
    fine_high: Fraction

    def hold(self, exact: Fraction) -> bool:
        return self.low <= exact <= self.high and self.fine_low <= exact <= self.fine_high


def stored_sheets() -> dict[str, str]:
    """The stored sheet of each deck by the name of its file."""
    parts = PLANS.stdout.read_text(encoding="ascii").split("FILE ")[1:]
    return {name: lines for name, lines in (part.split("\n", 1) for part in parts)}


def stored_bounds(lines: str) -> Iterator[Stored]:
    """The bounds of every door that was not refused."""
    for found in DOOR.finditer(lines):
        door, low, high, *fine = map(int, found.groups())
        yield Stored(
            door,
            Fraction(low, 10**9),
            Fraction(high, 10**9),
            Fraction(fine[0], 10 ** fine[1]),
            Fraction(fine[2], 10 ** fine[3]),
        )


def small_decks() -> Iterator[tuple[str, Deck, list[Stored]]]:
    """Decks with a door to check and not too many cases to go through."""
    for name, lines in stored_sheets().items():
        deck = read_deck((PLANS.data / name).read_bytes())
        bounds = list(stored_bounds(lines))
        if bounds and len(able(deck)) <= MOST_ABLE:
            yield name, deck, bounds


def check() -> int:
    """0 if enough decks were tried and every chance is within its bounds."""
    decks = doors = 0
    wrong = []
    for name, deck, bounds in small_decks():
        chances = cut_off_chances(deck)
        decks += 1
        doors += len(bounds)
        wrong += [f"{name} door {x.door}" for x in bounds if not x.hold(chances[x.door])]
    if wrong or decks < FEWEST_DECKS:
        print(f"exact chances: {decks} decks, outside the bounds: {', '.join(wrong) or 'none'}")
        return 1
    print(f"exact chances: {doors} doors of {decks} decks within their bounds")
    return 0


def main(arguments: list[str]) -> int:
    if arguments != ["--check"]:
        print("usage: exact.py --check", file=sys.stderr)
        return 2
    return check()


if __name__ == "__main__":
    sys.exit(main(sys.argv[1:]))
