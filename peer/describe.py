"""Print the description of the deck given on standard input."""

from __future__ import annotations

import sys

from deck import description, read_deck


def main() -> None:
    """Both streams are taken as bytes, so that no byte is changed."""
    sys.stdout.buffer.write(description(read_deck(sys.stdin.buffer.read())))


if __name__ == "__main__":
    main()
