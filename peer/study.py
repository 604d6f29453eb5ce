"""Print the sheet of the deck given on standard input."""

from __future__ import annotations

import sys

from sheet import sheet


def main() -> None:
    """Both streams are taken as bytes, so that no byte is changed."""
    sys.stdout.buffer.write(sheet(sys.stdin.buffer.read()))


if __name__ == "__main__":
    main()
