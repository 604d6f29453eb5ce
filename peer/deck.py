"""Read a deck, the bytes that tell a door network card by card.

A deck is judged by questions in a fixed order.  Reading stops at the first
question that fails, and the answer is then a `Refusal`.  When every question
passes, the answer is a `Deck`.
"""

from __future__ import annotations

from dataclasses import dataclass, field
from enum import Enum

TABLE_PLACES = 64
MOST_BYTES = 65_536
FEWEST_NODES, MOST_NODES = 2, 32
MOST_BRANCHES = 64
LARGEST_M = 1_000_000_000
SMALLEST_E, LARGEST_E = 9, 18
MOST_DIGITS = 10
LARGEST_NUMBER = 4_294_967_295

LINE_END = b"\n"
SPACE = b" "
DIGITS = frozenset(b"0123456789")

NODES, BRANCH, DOOR = b"NODES", b"BRANCH", b"DOOR"
FAILED, WORKING = b"FAILED", b"WORKING"

# How many numbers each kind of card carries.
NUMBERS = {NODES: 2, BRANCH: 4, FAILED: 1, WORKING: 1, DOOR: 1}

# Which cards may come next, looked up by the card before (None: no card yet).
NEXT = {
    None: {NODES},
    NODES: {BRANCH},
    BRANCH: {BRANCH, FAILED, WORKING, DOOR},
    FAILED: {FAILED, WORKING, DOOR},
    WORKING: {FAILED, WORKING, DOOR},
    DOOR: {DOOR},
}


class Condition(Enum):
    """What a branch can do: fail, be gone already, or never fail."""

    ABLE = "A"
    FAILED = "F"
    WORKING = "W"


MARKS = {FAILED: Condition.FAILED, WORKING: Condition.WORKING}


@dataclass
class Branch:
    """Two ends, a condition, and the rating m / 10**e."""

    ends: tuple[int, int]
    m: int
    e: int
    condition: Condition = Condition.ABLE


@dataclass
class Deck:
    """Everything an accepted deck tells."""

    nodes: int = 0
    head: int = 0
    branches: list[Branch] = field(default_factory=list)
    doors: list[int] = field(default_factory=list)


@dataclass(frozen=True)
class Refusal:
    """The question that failed, the branch it concerns, and the line."""

    number: int
    place: int
    line: int

    @property
    def layer(self) -> str:
        """N for network questions, D for deck questions, S for the rest."""
        if 1 <= self.number <= 4:
            return "N"
        if 14 <= self.number <= 19:
            return "D"
        return "S"


class _Failed(Exception):
    """A question failed on the line being read."""

    def __init__(self, number: int, place: int = 0) -> None:
        super().__init__(number, place)
        self.number = number
        self.place = place


def _ask(passes: bool, number: int, place: int = 0) -> None:
    """Stop reading with this number and place unless the question passes."""
    if not passes:
        raise _Failed(number, place)


def read_deck(data: bytes, places: int = TABLE_PLACES) -> Deck | Refusal:
    """Judge a whole deck; `places` is the size of the caller's table."""
    if places < TABLE_PLACES:
        return Refusal(14, 0, 0)
    if len(data) > MOST_BYTES or not data.endswith(LINE_END):
        return Refusal(15, 0, 0)
    return _read_lines(data[:-1].split(LINE_END))


def _read_lines(lines: list[bytes]) -> Deck | Refusal:
    """Read the lines in order; a deck that stops before a door is refused."""
    reader = _Reader()
    for line, text in enumerate(lines, start=1):
        try:
            reader.read_line(text)
        except _Failed as failed:
            return Refusal(failed.number, failed.place, line)
    if not reader.deck.doors:
        return Refusal(17, 0, len(lines) + 1)
    return reader.deck


class _Reader:
    """The deck so far, and the word of the card read last."""

    def __init__(self) -> None:
        self.deck = Deck()
        self.last: bytes | None = None

    def read_line(self, text: bytes) -> None:
        """Ask of one line: known word, right turn, good numbers, good card."""
        # Splitting at each single space keeps the empty words.
        word, *rest = text.split(SPACE)
        _ask(word in NUMBERS, 16)
        _ask(word in NEXT[self.last], 17)
        _ask(len(rest) == NUMBERS[word] and all(map(_is_number, rest)), 18)
        self._take_card(word, [int(digits) for digits in rest])
        self.last = word

    def _take_card(self, word: bytes, numbers: list[int]) -> None:
        if word == NODES:
            self._take_nodes(*numbers)
        elif word == BRANCH:
            self._take_branch(*numbers)
        elif word in MARKS:
            self._take_mark(MARKS[word], *numbers)
        else:
            self.deck.doors.append(numbers[0])

    def _take_nodes(self, nodes: int, head: int) -> None:
        """The node count is judged before the head."""
        _ask(FEWEST_NODES <= nodes <= MOST_NODES, 1)
        _ask(head < nodes, 5)
        self.deck.nodes = nodes
        self.deck.head = head

    def _take_branch(self, one: int, other: int, m: int, e: int) -> None:
        """Room for one more branch, then its ends, then its rating."""
        place = len(self.deck.branches)
        _ask(place < MOST_BRANCHES, 2)
        _ask(max(one, other) < self.deck.nodes, 3, place)
        _ask(m <= LARGEST_M and SMALLEST_E <= e <= LARGEST_E, 4, place)
        self.deck.branches.append(Branch((one, other), m, e))

    def _take_mark(self, condition: Condition, k: int) -> None:
        """A mark needs its branch; it replaces any mark made before it."""
        _ask(k < len(self.deck.branches), 19)
        self.deck.branches[k].condition = condition


def _is_number(word: bytes) -> bool:
    """One to ten ASCII digits whose value fits in 32 bits."""
    if not 1 <= len(word) <= MOST_DIGITS or not DIGITS.issuperset(word):
        return False
    return int(word) <= LARGEST_NUMBER


def description(result: Deck | Refusal) -> bytes:
    """What `describe` prints for a deck that was read."""
    if isinstance(result, Refusal):
        lines = [_refusal_line(result)]
    else:
        lines = _deck_lines(result)
    return "".join(line + "\n" for line in lines).encode("ascii")


def _refusal_line(refusal: Refusal) -> str:
    return (
        f"DECK REFUSED {refusal.number} LAYER {refusal.layer}"
        f" PLACE {refusal.place} LINE {refusal.line}"
    )


def _deck_lines(deck: Deck) -> list[str]:
    lines = [f"NODES {deck.nodes} HEAD {deck.head} BRANCHES {len(deck.branches)}"]
    lines += [_branch_line(k, branch) for k, branch in enumerate(deck.branches)]
    lines += [f"DOOR {door}" for door in deck.doors]
    return lines


def _branch_line(k: int, branch: Branch) -> str:
    one, other = branch.ends
    return f"BRANCH {k} {one} {other} {branch.condition.value} {branch.m} {branch.e}"
