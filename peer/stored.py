"""Write files, or compare what is stored with what would be written."""

from __future__ import annotations

import sys
from pathlib import Path

# The bytes that belong into each file.
Files = dict[Path, bytes]


def settle(title: str, wanted: Files, arguments: list[str], folder: Path | None = None) -> int:
    """Write the files, or with --check tell in one line whether they are stored.

    A folder that is named may hold no other decks than the wanted ones.
    """
    if arguments == ["--check"]:
        return _check(title, wanted, folder)
    if arguments:
        print(f"usage: {Path(sys.argv[0]).name} [--check]", file=sys.stderr)
        return 2
    _write(wanted, folder)
    print(f"{title}: {len(wanted)} files written")
    return 0


def _write(wanted: Files, folder: Path | None) -> None:
    for path, content in wanted.items():
        path.parent.mkdir(parents=True, exist_ok=True)
        path.write_bytes(content)
    for path in _extra(wanted, folder):
        path.unlink()


def _check(title: str, wanted: Files, folder: Path | None) -> int:
    faults = [f"extra {path.name}" for path in _extra(wanted, folder)]
    for path, content in wanted.items():
        if not path.is_file():
            faults.append(f"missing {path.name}")
        elif path.read_bytes() != content:
            faults.append(f"different {path.name}")
    if not faults:
        print(f"{title}: {len(wanted)} files as stored")
        return 0
    print(f"{title}: {len(faults)} faults, the first is: {faults[0]}")
    return 1


def _extra(wanted: Files, folder: Path | None) -> list[Path]:
    """Decks in the folder that nobody makes any more."""
    if folder is None or not folder.is_dir():
        return []
    return sorted(path for path in folder.glob("*.deck") if path not in wanted)
