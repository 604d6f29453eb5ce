"""Compare a program with the peer on decks by chance.

    compare_random.py [--count N] [--seed S] PROGRAM [ARGUMENT ...]

The program gets each deck on its standard input and has to print the sheet.
The first differences are shown.  This is for developers and not part of the
checks.
"""

from __future__ import annotations

import argparse
import subprocess
import sys

from random_decks import SEED, random_deck
from sheet import sheet

SHOWN = 5


def printed(command: list[str], data: bytes) -> bytes:
    """What the program prints for a deck, and how it ends if not well."""
    done = subprocess.run(command, input=data, stdout=subprocess.PIPE, check=False)
    ending = f"exit {done.returncode}\n".encode("ascii") if done.returncode else b""
    return done.stdout + ending


def first_difference(one: bytes, other: bytes) -> str:
    """The first line in which two texts differ."""
    ours, theirs = one.split(b"\n"), other.split(b"\n")
    longest = max(len(ours), len(theirs))
    ours += [b"(nothing)"] * (longest - len(ours))
    theirs += [b"(nothing)"] * (longest - len(theirs))
    for k, (a, b) in enumerate(zip(ours, theirs), start=1):
        if a != b:
            return f"line {k}: peer {a!r}, program {b!r}"
    return "no difference"


def compare(command: list[str], seed: int, count: int) -> int:
    """How many of the decks get another sheet from the program."""
    different = 0
    for index in range(count):
        data = random_deck(seed, index)
        ours, theirs = sheet(data), printed(command, data)
        if ours != theirs:
            different += 1
            if different <= SHOWN:
                print(f"seed {seed} index {index}: {first_difference(ours, theirs)}")
    return different


def main() -> int:
    parser = argparse.ArgumentParser(description=__doc__.splitlines()[0])
    parser.add_argument("--count", type=int, default=2000)
    parser.add_argument("--seed", type=int, default=SEED + 1)
    parser.add_argument("command", nargs=argparse.REMAINDER)
    arguments = parser.parse_args()
    if not arguments.command:
        parser.error("no program given")
    different = compare(arguments.command, arguments.seed, arguments.count)
    print(f"{arguments.count} decks, {different} different")
    return 1 if different else 0


if __name__ == "__main__":
    sys.exit(main())
