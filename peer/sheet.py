"""Print the sheet of a deck: for each door its cuts and both pairs of bounds."""

from __future__ import annotations

from functools import lru_cache

from bounds import bounds
from cuts import MOST_BUDGET, Network, Refused, Search, Status, aim, members, network_of
from deck import Deck, Refusal, description, read_deck
from fast_scales import FastBillionths, FastNineFigures
from scales import Rating

BILLIONTHS = FastBillionths()
NINE_FIGURES = FastNineFigures()


def sheet(data: bytes, budget: int = MOST_BUDGET) -> bytes:
    """The whole sheet; a deck that is refused gets its one line instead."""
    deck = read_deck(data)
    if isinstance(deck, Refusal):
        return description(deck)
    network = network_of(deck)
    lines = [line for door in deck.doors for line in door_lines(deck, network, door, budget)]
    return "".join(line + "\n" for line in lines).encode("ascii")


def door_lines(deck: Deck, network: Network, door: int, budget: int) -> list[str]:
    """A door's part of the sheet; the budget of a portion makes no difference."""
    try:
        search = aim(network, deck.head, door)
    except Refused as refused:
        return [f"DOOR {door} REFUSED {refused.number}"]
    search.run(budget)
    return _search_lines(deck, search)


def _search_lines(deck: Deck, search: Search) -> list[str]:
    status, listed = search.status, search.listed()
    title = f"DOOR {search.door} CUTS {len(listed)} TRIES {search.tries} {status.value}"
    sets = tuple(branches for branches, _ in listed)
    return [
        title,
        *(cut_line(*shown) for shown in listed),
        *bounds_lines(ratings_of(deck), sets, status is Status.FINISHED),
    ]


def cut_line(branches: int, nodes: int) -> str:
    """The branches of a cut, then the nodes that it cuts off."""
    return f"CUT {_numbers(branches)} / {_numbers(nodes)}"


def _numbers(these: int) -> str:
    return " ".join(map(str, members(these)))


def ratings_of(deck: Deck) -> tuple[Rating, ...]:
    """The ratings of all branches, whatever their condition."""
    return tuple((branch.m, branch.e) for branch in deck.branches)


@lru_cache(maxsize=16)
def bounds_lines(
    ratings: tuple[Rating, ...], sets: tuple[int, ...], finished: bool
) -> tuple[str, str]:
    """The bounds in billionths, and again in nine figures."""
    coarse = map(BILLIONTHS.text, bounds(BILLIONTHS, ratings, sets, finished))
    fine = map(NINE_FIGURES.text, bounds(NINE_FIGURES, ratings, sets, finished))
    return "LOW %s HIGH %s" % tuple(coarse), "FINE %s %s" % tuple(fine)
