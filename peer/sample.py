"""What a test deck is, and the pieces the test decks are built from.

Each sample states the outcome that its author worked out from the rules, so
that the reader can be tested against it.
"""

from __future__ import annotations

from collections.abc import Iterator
from dataclasses import dataclass

MOST_BYTES = 65_536


@dataclass(frozen=True)
class Sample:
    """A named deck and its outcome; number 0 stands for an accepted deck."""

    name: str
    data: bytes
    number: int = 0
    place: int = 0
    line: int = 0


Samples = Iterator[Sample]


def accepted(title: str, data: bytes) -> Sample:
    """A deck that every question lets through."""
    return Sample(f"ok_{title}.deck", data)


def refused(number: int, title: str, data: bytes, line: int, place: int = 0) -> Sample:
    """A deck stopped by the question of this number."""
    return Sample(f"r{number:02}_{title}.deck", data, number, place, line)


def cards(*lines: str | bytes) -> bytes:
    """Lines put together, each ended by byte 10."""
    return b"".join(_as_bytes(line) + b"\n" for line in lines)


def _as_bytes(line: str | bytes) -> bytes:
    return line.encode("utf-8") if isinstance(line, str) else line


def branch(one: int, other: int, m: int = 100_000_000, e: int = 9) -> str:
    """One BRANCH card."""
    return f"BRANCH {one} {other} {m} {e}"


# The smallest network: line 1 its nodes, line 2 its branch.
PAIR_NODES = "NODES 2 0"
PAIR_BRANCH = branch(0, 1)
PAIR = (PAIR_NODES, PAIR_BRANCH)

# The bridge network: line 1 its nodes, lines 2 to 6 its branches.
BRIDGE = (
    "NODES 4 0",
    branch(0, 1),
    branch(0, 2),
    branch(1, 2),
    branch(1, 3),
    branch(2, 3),
)

# As many branches as a deck may have: line 1, then lines 2 to 65.
FULL = ("NODES 32 0", *(branch(k % 31, k % 31 + 1) for k in range(64)))


def at_line_1(text: str | bytes) -> bytes:
    """A sound deck but for the given first line."""
    return cards(text, PAIR_BRANCH, "DOOR 1")


def at_line_2(text: str | bytes) -> bytes:
    """A sound deck but for the given second line, meant for a branch."""
    return cards(PAIR_NODES, text, "DOOR 1")


def at_line_3(text: str | bytes) -> bytes:
    """A sound deck but for the given third line, meant for a mark or door."""
    return cards(*PAIR, text, "DOOR 1")


def at_line_7(text: str | bytes) -> bytes:
    """The bridge with the given line between its branches and its door."""
    return cards(*BRIDGE, text, "DOOR 3")


def at_line_8(text: str | bytes) -> bytes:
    """The bridge with the given line after its door."""
    return cards(*BRIDGE, "DOOR 3", text)


def filled_with_doors(start: bytes, size: int) -> bytes:
    """The start, then as many short doors as bring it to the exact size."""
    count, over = divmod(size - len(start), len(b"DOOR 1\n"))
    # Leading zeros take up the bytes that are left over.
    return start + b"DOOR 1\n" * (count - 1) + cards("DOOR " + "0" * over + "1")
