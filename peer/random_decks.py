"""Decks by chance: the same seed and index always give the same deck.

Three of four decks are good and have plans of all sizes.  The others are good
decks that were spoiled in one place, so that they are refused.
"""

from __future__ import annotations

from collections.abc import Callable, Sequence
from typing import TypeVar

from deck import MOST_BRANCHES, Refusal, read_deck
from layouts import Pair, line, ring, tree
from sample import branch, cards
from scales import Rating

SEED = 1976

Choice = TypeVar("Choice")
NextRating = Callable[[], Rating]


class Dice:
    """Numbers by chance that do not depend on the version of the language.

    Each number is a scrambled count, with the constants of splitmix64.
    """

    MASK = (1 << 64) - 1

    def __init__(self, seed: int, index: int) -> None:
        self.state = (seed << 32 ^ index) * 0x9E3779B97F4A7C15 & self.MASK

    def _next(self) -> int:
        self.state = self.state + 0x9E3779B97F4A7C15 & self.MASK
        z = self.state
        z = (z ^ z >> 30) * 0xBF58476D1CE4E5B9 & self.MASK
        z = (z ^ z >> 27) * 0x94D049BB133111EB & self.MASK
        return z ^ z >> 31

    def below(self, limit: int) -> int:
        return self._next() % limit

    def between(self, least: int, most: int) -> int:
        return least + self.below(most - least + 1)

    def pick(self, choices: Sequence[Choice]) -> Choice:
        return choices[self.below(len(choices))]

    def one_in(self, count: int) -> bool:
        return self.below(count) == 0


def random_deck(seed: int, index: int) -> bytes:
    """The deck of this index; every fourth one is spoiled."""
    dice = Dice(seed, index)
    if index % 4 < 3:
        return cards(*good_lines(dice))
    spoiled = _spoil(dice, good_lines(dice))
    while not isinstance(read_deck(spoiled), Refusal):
        spoiled = _spoil(dice, good_lines(dice))
    return spoiled


def good_lines(dice: Dice) -> list[str]:
    """The cards of a deck that is accepted."""
    nodes, pairs = dice.pick((_small, _small, _middling, _crowded, _long, _long, _round))(dice)
    rating = dice.pick((_even, _likely, _any_rating, _any_rating, _extreme))(dice)
    lines = [f"NODES {nodes} {dice.below(nodes)}"]
    lines += [branch(*pair, *rating()) for pair in pairs]
    lines += _marks(dice, len(pairs))
    return lines + _doors(dice, nodes)


def _small(dice: Dice) -> tuple[int, list[Pair]]:
    """Few nodes and branches anywhere, loops and doubles among them."""
    nodes = dice.between(2, 9)
    count = dice.between(1, 2 * nodes)
    return nodes, [_pair(dice, nodes) for _ in range(count)]


def _middling(dice: Dice) -> tuple[int, list[Pair]]:
    """A tree of some nodes with a few branches across."""
    nodes = dice.between(8, 12)
    return nodes, tree(nodes, 2) + [_pair(dice, nodes) for _ in range(dice.between(2, 6))]


def _crowded(dice: Dice) -> tuple[int, list[Pair]]:
    """Few nodes and many branches."""
    nodes = dice.between(2, 8)
    return nodes, [_pair(dice, nodes) for _ in range(dice.between(nodes, 64))]


def _long(dice: Dice) -> tuple[int, list[Pair]]:
    """Up to 32 nodes that hang together by little."""
    nodes = dice.between(10, 32)
    pairs = tree(nodes, 1 + dice.below(3)) + [_pair(dice, nodes) for _ in range(dice.below(4))]
    return nodes, pairs


def _round(dice: Dice) -> tuple[int, list[Pair]]:
    """A ring with a chord or two and a loose end."""
    around, tail = dice.between(3, 18), dice.below(6)
    pairs = ring(around) + [_pair(dice, around) for _ in range(dice.below(3))]
    nodes = around + tail
    return nodes, pairs + line(range(around - 1, nodes))


def _pair(dice: Dice, nodes: int) -> Pair:
    return dice.below(nodes), dice.below(nodes)


def _even(dice: Dice) -> NextRating:
    """One rating for all branches."""
    rating = dice.pick(((10_000_000, 9), (100_000_000, 9), (500_000_000, 9), (3, 12)))
    return lambda: rating


def _likely(dice: Dice) -> NextRating:
    """Branches that fail often."""
    return lambda: (dice.between(10_000_000, 900_000_000), 9)


def _any_rating(dice: Dice) -> NextRating:
    """Figures of any length with any e."""
    return lambda: (dice.below(10 ** dice.between(1, 9) + 1), dice.between(9, 18))


def _extreme(dice: Dice) -> NextRating:
    """The ends of the ranges, and little else."""
    ends = (0, 1, 99_999_999, 100_000_000, 999_999_999, 1_000_000_000)
    return lambda: (dice.pick(ends), dice.pick((9, 9, 9, 10, 17, 18)))


def _marks(dice: Dice, count: int) -> list[str]:
    """No marks, or some of either kind; a branch may be marked again."""
    share = dice.pick((0, 0, 1, 2, 4))
    marks = dice.below(count // share + 1) if share else 0
    return [f"{dice.pick(('FAILED', 'WORKING'))} {dice.below(count)}" for _ in range(marks)]


def _doors(dice: Dice, nodes: int) -> list[str]:
    """Up to four doors, now and then one past the nodes."""
    limit = nodes + 2 if dice.one_in(6) else nodes
    return [f"DOOR {dice.below(limit)}" for _ in range(dice.between(1, 4))]


def _spoil(dice: Dice, lines: list[str]) -> bytes:
    """The deck with one thing changed; it may be good all the same."""
    kinds = (_bad_cards, _bad_cards, _bad_turn, _bad_number, _bad_text, _bad_end)
    return dice.pick(kinds)(dice, lines)


def _bad_cards(dice: Dice, lines: list[str]) -> bytes:
    """A figure that is a good number but does not fit its card."""
    nodes, head = lines[0].split(" ")[1:]
    count = sum(text.startswith("BRANCH") for text in lines)
    at = dice.between(1, count)
    one, other, m, e = lines[at].split(" ")[1:]
    place, text = dice.pick(
        (
            (0, f"NODES {dice.pick((0, 1, 33, 4_294_967_295))} {head}"),
            (0, f"NODES {nodes} {int(nodes) + dice.below(3)}"),
            (at, f"BRANCH {int(nodes) + dice.below(3)} {other} {m} {e}"),
            (at, f"BRANCH {one} {int(nodes) + dice.below(3)} {m} {e}"),
            (at, f"BRANCH {one} {other} {dice.pick((1_000_000_001, 4_294_967_295))} {e}"),
            (at, f"BRANCH {one} {other} {m} {dice.pick((0, 8, 19))}"),
        )
    )
    if dice.one_in(4):
        # A mark on the branch after the last.
        added = [f"{dice.pick(('FAILED', 'WORKING'))} {count}"]
    elif dice.one_in(6):
        added = [lines[at]] * (MOST_BRANCHES + 1 - count + dice.below(2))
    else:
        return cards(*lines[:place], text, *lines[place + 1 :])
    return cards(*lines[: count + 1], *added, *lines[count + 1 :])


def _bad_turn(dice: Dice, lines: list[str]) -> bytes:
    """A card left out, cut off, doubled or put elsewhere."""
    at = dice.below(len(lines))
    return dice.pick(
        (
            cards(*lines[:at], *lines[at + 1 :]),
            cards(*lines[:at]) or cards(""),
            cards(*lines[:at], lines[at], *lines[at:]),
            cards(*lines[:at], dice.pick(lines), *lines[at:]),
            cards(*reversed(lines)),
        )
    )


def _bad_number(dice: Dice, lines: list[str]) -> bytes:
    """One word of one card replaced by something that may not be a number."""
    at = dice.below(len(lines))
    words = lines[at].split(" ")
    place = dice.between(1, len(words) - 1)
    words[place] = dice.pick(
        (words[place] + "00000000", "0" * 10 + words[place], "4294967296", "-1", "", "x", "1 1")
    )
    return cards(*lines[:at], " ".join(words), *lines[at + 1 :])


def _bad_text(dice: Dice, lines: list[str]) -> bytes:
    """A wrong space, a wrong word or a wrong byte."""
    at = dice.below(len(lines))
    change = dice.pick((_bad_spacing, _bad_word, _one_byte))
    return cards(*lines[:at], change(dice, lines[at]), *lines[at + 1 :])


def _bad_end(dice: Dice, lines: list[str]) -> bytes:
    """Too little at the end, or too much."""
    whole = cards(*lines)
    return dice.pick((whole[:-1], whole + cards(""), whole + b" ", whole + cards(lines[0]), b""))


def _bad_spacing(dice: Dice, text: str) -> str:
    doubled, tabbed = text.replace(" ", "  ", 1), text.replace(" ", "\t", 1)
    return dice.pick((" " + text, text + " ", doubled, tabbed))


def _bad_word(dice: Dice, text: str) -> str:
    word, rest = text.split(" ", 1)
    return dice.pick((word.lower(), word + "S", word[:-1], "CABLE", word + rest[:1])) + " " + rest


def _one_byte(dice: Dice, text: str) -> str:
    """Any byte of a line replaced by one that can be printed."""
    at = dice.below(len(text))
    return text[:at] + chr(dice.between(32, 126)) + text[at + 1 :]
