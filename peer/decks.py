"""Describe every test deck in the order of the list of names.

Without an argument the descriptions go to standard output.  With `--check`
they are compared with the stored ones instead.
"""

from __future__ import annotations

import sys

from deck import description, read_deck
from folder import DATA, DESCRIPTIONS, NAMES


def describe_all() -> bytes:
    """A `FILE name` line for each deck, followed by its description."""
    names = NAMES.read_text(encoding="ascii").splitlines()
    return b"".join(_describe_file(name) for name in names)


def _describe_file(name: str) -> bytes:
    title = f"FILE {name}\n".encode("ascii")
    return title + description(read_deck((DATA / name).read_bytes()))


def check() -> int:
    """0 if the stored descriptions are those of the decks, otherwise 1."""
    stored = DESCRIPTIONS.read_bytes() if DESCRIPTIONS.is_file() else None
    if stored == describe_all():
        print("descriptions: as stored")
        return 0
    print("descriptions: missing" if stored is None else "descriptions: different")
    return 1


def main(arguments: list[str]) -> int:
    if arguments == ["--check"]:
        return check()
    if arguments:
        print("usage: decks.py [--check]", file=sys.stderr)
        return 2
    sys.stdout.buffer.write(describe_all())
    return 0


if __name__ == "__main__":
    sys.exit(main(sys.argv[1:]))
