"""Write lists of branch sets with the bounds that belong to them.

The sets need not be cuts of anything.  A line names a deck, whether the list is
FINISHED or still OPEN, and the sets as numbers in which bit k stands for
branch k.  Its answer is the line again and the bounds on two lines.  With
`--check` the stored files are compared.
"""

from __future__ import annotations

import sys
from collections.abc import Iterator

from cuts import aim, network_of
from deck import Condition, Deck, read_deck
from folder import BOUNDS_CASES
from layouts import (
    ALWAYS,
    FOURTEEN_BUS,
    NEVER,
    ONE_IN_10,
    chains,
    complete,
    deck_of,
    high,
    line,
    mixed,
    ring,
    tiny,
)
from plans_small import BRIDGE
from random_decks import Dice
from sheet import bounds_lines, ratings_of
from stored import Files, settle

SEED = 40
MOST_SETS = 40


def decks() -> dict[str, bytes]:
    """Networks that matter for their ratings only."""
    found = {
        "bridge": deck_of(4, BRIDGE, [3], rating=ONE_IN_10),
        "halves": deck_of(6, complete(range(6)), [5], rating=(500_000_000, 9)),
        "each_e": deck_of(11, line(range(11)), [10], rating=lambda k: (123_456_789, 9 + k)),
        "never_always": deck_of(
            9, ring(9), [4], rating=lambda k: (NEVER, ALWAYS, ONE_IN_10)[k % 3]
        ),
        "tiny": deck_of(9, ring(9) * 2, [4], rating=tiny),
        "mixed_64": deck_of(32, ring(32) * 2, [16], rating=mixed),
        "high_64": deck_of(2, [(0, 1)] * 64, [1], rating=high),
        "marked": deck_of(
            14, FOURTEEN_BUS, [13], rating=mixed, failed=[1, 8, 19], working=[0, 12]
        ),
        "chains": deck_of(14, chains(4, 4, 4), [13], rating=(30_000_000, 9)),
        "single": deck_of(2, [(0, 1)], [1], rating=(999_999_999, 9)),
    }
    return {f"{name}.deck": data for name, data in sorted(found.items())}


def cases() -> list[str]:
    """The lines for every deck, first what all decks have, then by chance."""
    lines = []
    for index, (name, data) in enumerate(decks().items()):
        deck = read_deck(data)
        lists = [*_usual(deck), *_by_chance(deck, Dice(SEED, index))]
        for k, sets in enumerate(lists):
            lines += [_line(name, word, sets) for word in _words(k)]
    return list(dict.fromkeys(lines))


def _words(k: int) -> tuple[str, ...]:
    """The first lists are told both ways, the later ones mostly as finished."""
    if k < 4:
        return "OPEN", "FINISHED"
    return ("FINISHED",) if k % 5 else ("OPEN",)


def _line(name: str, word: str, sets: list[int]) -> str:
    return " ".join([name, word, *map(str, sets)])


def _able(deck: Deck) -> list[int]:
    """The branches that can fail, each as a set of its own."""
    return [1 << k for k, x in enumerate(deck.branches) if x.condition is Condition.ABLE]


def _usual(deck: Deck) -> Iterator[list[int]]:
    """No set, the empty set, single branches, all branches, equal sets, cuts."""
    singles = _able(deck)
    whole = sum(singles)
    yield []
    yield [0]
    yield singles[-1:]
    yield [whole]
    yield singles[:MOST_SETS]
    yield singles[MOST_SETS - 1 :: -1] if len(singles) > 1 else singles * 2
    yield [0, singles[0], 0]
    yield [singles[0]] * 3
    yield [whole, singles[0], whole]
    yield [one | other for one, other in zip(singles, singles[1:])][:MOST_SETS]
    search = aim(network_of(deck), deck.head, deck.doors[0])
    search.run()
    yield [branches for branches, _ in search.listed()][:MOST_SETS]


def _by_chance(deck: Deck, dice: Dice) -> Iterator[list[int]]:
    """Sets with few members and sets with many, in lists short and long."""
    singles = _able(deck)
    for length in (2, 3, 5, 12, MOST_SETS):
        for share in (2, 4, 8):
            yield [_subset(dice, singles, share) for _ in range(length)]


def _subset(dice: Dice, singles: list[int], share: int) -> int:
    """One in so many of the branches, but mostly not none at all."""
    return sum(one for one in singles if dice.one_in(share)) or dice.pick(singles)


def answer(case: str, told: dict[str, Deck]) -> list[str]:
    """The line and its bounds."""
    name, word, *sets = case.split(" ")
    ratings = ratings_of(told[name])
    return [case, *bounds_lines(ratings, tuple(map(int, sets)), word == "FINISHED")]


def wanted() -> Files:
    lines, data = cases(), decks()
    told = {name: read_deck(content) for name, content in data.items()}
    answers = [text for case in lines for text in answer(case, told)]
    return {BOUNDS_CASES.data / name: content for name, content in data.items()} | {
        BOUNDS_CASES.stdin: "".join(f"{case}\n" for case in lines).encode("ascii"),
        BOUNDS_CASES.stdout: "".join(f"{text}\n" for text in answers).encode("ascii"),
    }


if __name__ == "__main__":
    sys.exit(settle("bounds cases", wanted(), sys.argv[1:], BOUNDS_CASES.data))
