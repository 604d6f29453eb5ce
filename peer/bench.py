"""Time the product against the compiled peer, side by side in one run.

    python3 peer/bench.py [--repeats N]

The Rust peer is built first.  The product's programs `study` and
`bounds_cases` have to be built: `rt run` in `crates/NAME` leaves the program
`NAME` in that folder's `out`.  Both sides get the same inputs,
by turns, and the wall time of each whole process is taken; nothing is
subtracted.  The first line of the table, a deck with a single branch, shows
what starting a process costs.  Nothing is stored.

Small inputs lie in `peer/bench`, the others are made here in a temporary
folder.  The exit code is 0 if all outputs of the two sides are equal byte for
byte, 1 if any differs, and 2 if a program is missing or cannot be built.
"""

from __future__ import annotations

import argparse
import shutil
import subprocess
import sys
import tempfile
import time
from collections.abc import Iterable, Iterator
from dataclasses import dataclass, field
from itertools import combinations, groupby, islice
from pathlib import Path
from statistics import median

ROOT = Path(__file__).resolve().parent.parent
BENCH = ROOT / "peer" / "bench"
CRATE = ROOT / "peer" / "rust"
RELEASE = CRATE / "target" / "release"
CRATES = ROOT / "crates"

STUDY = ("study", "study")
BOUNDS = ("bounds_cases", "bounds")
MOST_ROWS = 512

Pair = tuple[int, int]


def product_of(name: str) -> Path:
    """The program of that name, as the toolchain leaves it."""
    return CRATES / name / "out" / name


class Missing(Exception):
    """A program that is needed is not there."""


@dataclass
class Race:
    """One input, and the program of each side that gets it."""

    title: str
    programs: tuple[str, str]
    given: bytes
    group: str = ""

    def commands(self) -> tuple[Path, Path]:
        """The product's program and the peer's."""
        product, peer = self.programs
        return product_of(product), RELEASE / peer


@dataclass
class Side:
    """What one program did with an input."""

    seconds: list[float] = field(default_factory=list)
    outputs: set[bytes] = field(default_factory=set)

    def run(self, command: Path, given: bytes, folder: Path) -> None:
        """Runs the program once more and keeps its time and its output."""
        start = time.perf_counter()
        done = subprocess.run(
            [str(command)], input=given, stdout=subprocess.PIPE, cwd=folder, check=False
        )
        self.seconds.append(time.perf_counter() - start)
        ending = f"exit {done.returncode}\n".encode("ascii") if done.returncode else b""
        self.outputs.add(done.stdout + ending)


def programs() -> None:
    """Sees to it that the programs of both sides are there."""
    for name, _ in (STUDY, BOUNDS):
        if not product_of(name).is_file():
            raise Missing(f"no {product_of(name).relative_to(ROOT)}: build the product first")
    if shutil.which("cargo") is None:
        raise Missing("no cargo to build the peer with")
    build = ["cargo", "build", "--release", "--offline", "--quiet", "-j1", "--target-dir", "target"]
    if subprocess.run(build, cwd=CRATE, check=False).returncode:
        raise Missing("the peer does not build")


def stored(name: str) -> bytes:
    """An input from the folder of small inputs."""
    return (BENCH / f"{name}.deck").read_bytes()


def chains_deck(length: int) -> bytes:
    """Three separate chains of so many nodes between the head and a door."""
    door = 3 * length + 1
    pairs: list[Pair] = []
    for first in range(1, door, length):
        nodes = [0, *range(first, first + length), door]
        pairs += zip(nodes, nodes[1:])
    return "".join(
        [f"NODES {door + 1} 0\n"]
        + [f"BRANCH {a} {b} {5_000_000 + 618_033 * k} 9\n" for k, (a, b) in enumerate(pairs)]
        + [f"DOOR {door}\n"]
    ).encode("ascii")


def nearly_all(branches: int) -> Iterator[int]:
    """All branches, then all but one, all but two, and so on, as sets."""
    every = (1 << branches) - 1
    for missing in range(branches + 1):
        for gone in combinations(range(branches), missing):
            yield every - sum(1 << k for k in gone)


def bounds_case(deck: str, branches: int, rows: int = MOST_ROWS) -> bytes:
    """A finished list of different sets, all of nearly all of the branches."""
    sets = islice(nearly_all(branches), rows)
    return f"{deck}.deck FINISHED {' '.join(map(str, sets))}\n".encode("ascii")


def races() -> Iterator[Race]:
    """All that is timed, in the order of the table."""
    yield Race("trivial deck: process start", STUDY, stored("trivial"))
    yield from plain_races()
    yield from growth_races()


def plain_races() -> Iterator[Race]:
    """One input each."""
    for deck, ratings in (("likely_64", "0.70 to 0.86"), ("spread_64", "1e-10 to 1")):
        title = f"bounds, 512 rows of 64, ratings {ratings}"
        yield Race(title, BOUNDS, bounds_case(deck, 64))
    for name, title in (
        ("three_chains_7_every_door", "study, 3 chains of 7, every door"),
        ("dense_12", "study, 12 nodes, 64 branches"),
        ("ring_32_with_chords", "study, ring of 32, 32 chords"),
    ):
        yield Race(title, STUDY, stored(name))


def growth_races() -> Iterator[Race]:
    """Families of inputs, each at four sizes."""
    for rows in (64, 128, 256, MOST_ROWS):
        case = bounds_case("likely_64", 64, rows)
        yield Race(f"bounds, {rows} rows of 64", BOUNDS, case, "by rows")
    for branches in (16, 32, 48, 64):
        case = bounds_case("likely_64", branches)
        yield Race(f"bounds, 512 rows of {branches}", BOUNDS, case, "by branches")
    for length in (4, 5, 6, 7):
        title = f"study, 3 chains of {length}: {(length + 1) ** 3} rows"
        yield Race(title, STUDY, chains_deck(length), "by plan")


def timed(race: Race, repeats: int, folder: Path) -> tuple[Side, Side]:
    """Both sides by turns; who is first changes every time."""
    sides = Side(), Side()
    turns = list(zip(sides, race.commands()))
    for _ in range(repeats):
        for side, command in turns:
            side.run(command, race.given, folder)
        turns.reverse()
    return sides


HEADER = (
    f"{'':46} {'product, ms':>19} {'peer, ms':>19} {'product / peer':>15}\n{'':46}"
    f" {'best':>9} {'median':>9} {'best':>9} {'median':>9} {'best':>7} {'median':>7}  outputs"
)


def equal(product: Side, peer: Side) -> bool:
    """Every run of both sides printed the same bytes."""
    return len(product.outputs | peer.outputs) == 1


def table_line(race: Race, product: Side, peer: Side) -> str:
    """Times in milliseconds, their ratios, and whether the outputs are equal."""
    figures = [f(side.seconds) for side in (product, peer) for f in (min, median)]
    times = "".join(f" {1000 * seconds:9.2f}" for seconds in figures)
    ratios = f" {figures[0] / figures[2]:7.2f} {figures[1] / figures[3]:7.2f}"
    return f"{race.title:46}{times}{ratios}  {'equal' if equal(product, peer) else 'DIFFERENT'}"


def growth(before: tuple[Side, Side], now: tuple[Side, Side]) -> str:
    """How many times longer the best runs took than at the size before."""
    product, peer = (min(b.seconds) / min(a.seconds) for a, b in zip(before, now))
    return f", grown {product:.2f} and {peer:.2f} times"


def copied(folder: Path) -> Path:
    """The folder, with the stored decks in it."""
    for deck in BENCH.glob("*.deck"):
        shutil.copy(deck, folder)
    return folder


def compared(every: Iterable[Race], repeats: int) -> int:
    """Prints the table and answers how many inputs had different outputs."""
    different = 0
    print(HEADER)
    with tempfile.TemporaryDirectory() as name:
        folder = copied(Path(name))
        for group, members in groupby(every, key=lambda race: race.group):
            if group:
                print(f"growth {group}; the last figures are for product and peer")
            before = None
            for race in members:
                now = timed(race, repeats, folder)
                different += not equal(*now)
                more = growth(before, now) if group and before else ""
                print(table_line(race, *now) + more, flush=True)
                before = now
    return different


def main() -> int:
    parser = argparse.ArgumentParser(description=__doc__.splitlines()[0])
    parser.add_argument("--repeats", type=int, default=7, help="runs of each side per input")
    arguments = parser.parse_args()
    if arguments.repeats < 1:
        parser.error("at least one repeat")
    try:
        programs()
    except Missing as reason:
        print(reason, file=sys.stderr)
        return 2
    different = compared(races(), arguments.repeats)
    print(f"{different} inputs with different outputs" if different else "all outputs equal")
    return 1 if different else 0


if __name__ == "__main__":
    sys.exit(main())
