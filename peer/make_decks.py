"""Write the folder of test decks and the list of their names.

With `--check` nothing is written: a missing, extra or different file is told
and makes the run fail.
"""

from __future__ import annotations

import sys

import samples_accepted
import samples_order
import samples_refused
from folder import DATA, NAMES
from sample import Sample


def all_samples() -> list[Sample]:
    """Every test deck, by name."""
    found = [
        *samples_accepted.samples(),
        *samples_refused.samples(),
        *samples_order.samples(),
    ]
    return sorted(found, key=lambda sample: sample.name)


def name_list(samples: list[Sample]) -> bytes:
    """The names, one a line."""
    return "".join(sample.name + "\n" for sample in samples).encode("ascii")


def write(samples: list[Sample]) -> None:
    """Write the decks and their list, and remove decks no longer made."""
    DATA.mkdir(parents=True, exist_ok=True)
    for sample in samples:
        (DATA / sample.name).write_bytes(sample.data)
    for name in _extra(samples):
        if name.endswith(".deck"):
            (DATA / name).unlink()
    NAMES.write_bytes(name_list(samples))
    print(f"decks: {len(samples)} written")


def _extra(samples: list[Sample]) -> list[str]:
    made = {sample.name for sample in samples}
    if not DATA.is_dir():
        return []
    return sorted(path.name for path in DATA.iterdir() if path.name not in made)


def faults(samples: list[Sample]) -> list[str]:
    """What differs between the folder and the decks it should hold."""
    files = [(DATA / sample.name, sample.data) for sample in samples]
    files.append((NAMES, name_list(samples)))
    told = [f"extra: {name}" for name in _extra(samples)]
    for path, data in files:
        if not path.is_file():
            told.append(f"missing: {path.name}")
        elif path.read_bytes() != data:
            told.append(f"different: {path.name}")
    return told


def check(samples: list[Sample]) -> int:
    """0 if the folder is as this program would write it, otherwise 1."""
    told = faults(samples)
    for fault in told:
        print(fault)
    print(f"decks: {len(samples)} expected, {len(told)} faults")
    return 1 if told else 0


def main(arguments: list[str]) -> int:
    if arguments == ["--check"]:
        return check(all_samples())
    if arguments:
        print("usage: make_decks.py [--check]", file=sys.stderr)
        return 2
    write(all_samples())
    return 0


if __name__ == "__main__":
    sys.exit(main(sys.argv[1:]))
