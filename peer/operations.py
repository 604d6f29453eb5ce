"""Write single operations of both scales, with their results.

A line names a scale, B for billionths or N for nine figures, an operation and
its numbers.  A number is w in billionths, and m and e in nine figures.  A
rating is m and e in both.  The results come after ` = `: a product or a sum
down and up, a difference down, and of an order whether the first number is at
most the second.  With `--check` the stored lines are compared.
"""

from __future__ import annotations

import sys
from collections.abc import Iterator

from folder import OPERATIONS
from random_decks import Dice
from scales import Billionths, Figures, NineFigures, Rating
from stored import Files, settle

B, N = Billionths(), NineFigures()
SEED = 60

PAIRS = ("SUM", "LESS", "ORDER")
EXPONENTS = range(9, 19)
RATED = (0, 1, 2, 7, 10, 99_999_999, 100_000_000, 333_333_333, 500_000_000)
RATED += (999_999_999, 1_000_000_000)


def cases() -> list[str]:
    """Every line, without those that would come twice."""
    lines = [*_billionths_times(), *_billionths_pairs(), *_figures_times(), *_figures_pairs()]
    return list(dict.fromkeys(lines))


def _billionths_times() -> Iterator[str]:
    for w in (0, 1, 9, 10, 11, 333_333_333, 999_999_999, 1_000_000_000):
        for e in EXPONENTS:
            for m in RATED:
                yield f"B TIMES {w} {m} {e}"
    dice = Dice(SEED, 1)
    for _ in range(300):
        yield "B TIMES %d %d %d" % (_any_w(dice), *_any_rating(dice))


def _billionths_pairs() -> Iterator[str]:
    edges = [0, 1, 2, 499_999_999, 500_000_000, 500_000_001]
    edges += [999_999_998, 999_999_999, 1_000_000_000]
    dice = Dice(SEED, 2)
    pairs = [(w, v) for w in edges for v in edges]
    pairs += [(_any_w(dice), _any_w(dice)) for _ in range(100)]
    for name in PAIRS:
        for w, v in pairs:
            yield f"B {name} {w} {v}"


def _any_w(dice: Dice) -> int:
    return dice.below(10 ** dice.between(1, 9) + 1)


def _any_rating(dice: Dice) -> Rating:
    return dice.below(10 ** dice.between(1, 9) + 1), dice.between(9, 18)


def _any_figures(dice: Dice) -> Figures:
    return dice.between(100_000_000, 999_999_999), dice.between(9, 60)


def _figures_times() -> Iterator[str]:
    """Numbers near 1, in the middle and near the smallest, by all ratings."""
    numbers = [N.zero, N.one]
    for e in (9, 10, 17, 34, 42, 51, 52, 59, 60):
        numbers += [(100_000_000, e), (999_999_999, e)]
    for number in numbers:
        for e in (9, 10, 13, 17, 18):
            for m in RATED:
                yield "N TIMES %d %d %d %d" % (*number, m, e)
    for e in EXPONENTS:
        for m in RATED:
            yield "N TIMES %d %d %d %d" % (314_159_265, 9 + 51 * (e - 9) // 9, m, e)
    dice = Dice(SEED, 3)
    for _ in range(400):
        yield "N TIMES %d %d %d %d" % (*_any_figures(dice), *_any_rating(dice))


def _figures_pairs() -> Iterator[str]:
    pairs = [*_gaps(), *_close(), *_around_1(), *_by_chance()]
    for name in PAIRS:
        for one, other in pairs:
            yield "N %s %d %d %d %d" % (name, *one, *other)


FigurePair = tuple[Figures, Figures]


def _gaps() -> Iterator[FigurePair]:
    """Exponents that lie from 0 to 51 apart, either number first."""
    dice = Dice(SEED, 4)
    ends = (100_000_000, 999_999_999)
    for gap in range(52):
        e = 9 + dice.below(52 - gap)
        yield (100_000_000, e), (100_000_000, e + gap)
        yield (100_000_000, e), (999_999_999, e + gap)
        yield (999_999_999, e), (500_000_001, e + gap)
        yield (dice.pick(ends), 9 + gap), (dice.between(*ends), 9)
        yield (dice.between(*ends), e), (dice.between(*ends), e + gap)


def _close() -> Iterator[FigurePair]:
    """Numbers next to each other, whose difference has few figures or none."""
    for e in (9, 10, 30, 43, 44, 45, 51, 52, 53, 59, 60):
        for m in (100_000_001, 500_000_000, 999_999_999):
            yield (m, e), (m - 1, e)
            yield (m - 1, e), (m, e)
            yield (m, e), (m, e)
        if e > 9:
            yield (100_000_000, e - 1), (999_999_999, e)
            yield (999_999_999, e), (100_000_000, e - 1)
            yield (100_000_005, e - 1), (999_999_991, e)


def _around_1() -> Iterator[FigurePair]:
    """Sums that come to 1 or past it, and what is left of 1."""
    others = [N.zero, N.one]
    for e in (9, 10, 17, 18, 19, 20, 28, 59, 60):
        others += [(100_000_000, e), (999_999_999, e), (500_000_000, e)]
    for other in others:
        for one in (N.zero, N.one, (999_999_999, 9), (900_000_000, 9), (500_000_000, 9)):
            yield one, other
        yield other, N.one
        yield other, N.zero


def _by_chance() -> Iterator[FigurePair]:
    dice = Dice(SEED, 5)
    for _ in range(150):
        one, (m, _) = _any_figures(dice), _any_figures(dice)
        yield one, (m, min(60, one[1] + dice.below(12)))


def answer(line: str) -> str:
    """The results of one operation, worked from the meaning of the numbers."""
    letter, name, *words = line.split(" ")
    numbers = [int(word) for word in words]
    if letter == "B":
        one, others = numbers[0], numbers[1:]
        return _answer(B, name, one, tuple(others) if name == "TIMES" else others[0])
    return _answer(N, name, (numbers[0], numbers[1]), (numbers[2], numbers[3]))


def _answer(scale: Billionths | NineFigures, name: str, one: object, other: object) -> str:
    if name == "ORDER":
        return "true" if scale.at_most(one, other) else "false"
    if name == "LESS":
        return scale.text(scale.less(one, other))
    down, up = {
        "TIMES": (scale.times_down, scale.times_up),
        "SUM": (scale.sum_down, scale.sum_up),
    }[name]
    return f"{scale.text(down(one, other))} {scale.text(up(one, other))}"


def wanted() -> Files:
    lines = cases()
    results = [f"{line} = {answer(line)}" for line in lines]
    return {
        OPERATIONS.stdin: "".join(f"{line}\n" for line in lines).encode("ascii"),
        OPERATIONS.stdout: "".join(f"{line}\n" for line in results).encode("ascii"),
    }


if __name__ == "__main__":
    sys.exit(settle("operations", wanted(), sys.argv[1:]))
