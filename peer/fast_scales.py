"""The two scales again, in whole numbers, for plans with many rows.

Here a number is how many steps its value has.  A step is 10**-9 in billionths
and 10**-60 in nine figures.  Each value of the two scales is a whole number of
steps, so rounding to whole steps first and to the scale afterwards ends at the
same number as rounding at once.
"""

from __future__ import annotations

from abc import ABC, abstractmethod
from collections.abc import Sequence

from scales import Rating


class FastScale(ABC):
    """The operations on numbers of steps."""

    zero = 0
    one: int

    @abstractmethod
    def down(self, steps: int) -> int:
        """Rounded down to the scale."""

    @abstractmethod
    def up(self, steps: int) -> int:
        """Rounded up to the scale."""

    @abstractmethod
    def text(self, number: int) -> str:
        """The number as it is printed."""

    def times_down(self, number: int, rating: Rating) -> int:
        m, e = rating
        return self.down(number * m // POWERS[e])

    def times_up(self, number: int, rating: Rating) -> int:
        m, e = rating
        return self.up(-(-number * m // POWERS[e]))

    def prepared(self, ratings: Sequence[Rating]) -> Sequence[Rating]:
        """The same chances, written in the way that folding needs them."""
        return ratings

    def fold_down(self, number: int, ratings: Sequence[Rating]) -> int:
        """The number times one rating after the other, each time rounded down."""
        for rating in ratings:
            number = self.times_down(number, rating)
        return number

    @abstractmethod
    def fold_up(self, number: int, ratings: Sequence[Rating]) -> int:
        """The number times one rating after the other, each time rounded up."""

    def sum_down(self, one: int, other: int) -> int:
        return self.down(one + other)

    def sum_up(self, one: int, other: int) -> int:
        return self.up(one + other)

    def less(self, one: int, other: int) -> int:
        return self.down(one - other) if one > other else 0

    def at_most(self, one: int, other: int) -> bool:
        return one <= other


POWERS = [10**e for e in range(62)]


class FastBillionths(FastScale):
    """Steps of 10**-9; a whole number of steps needs no more rounding."""

    one = POWERS[9]

    def down(self, steps: int) -> int:
        return min(steps, self.one)

    up = down

    def fold_up(self, number: int, ratings: Sequence[Rating]) -> int:
        for m, e in ratings:
            number = -(-number * m // POWERS[e])
        return number

    def text(self, number: int) -> str:
        return str(number)


class FastNineFigures(FastScale):
    """Steps of 10**-60, of which only the nine leading figures are kept."""

    one = POWERS[60]

    def down(self, steps: int) -> int:
        if steps >= self.one:
            return self.one
        # Below the smallest number there is only 0.
        return steps - steps % _grain(steps) if steps >= SMALLEST else 0

    def up(self, steps: int) -> int:
        if steps >= self.one:
            return self.one
        # Whatever is above 0 has at least the smallest number above it.
        if steps <= SMALLEST:
            return SMALLEST if steps else 0
        return steps + -steps % _grain(steps)

    def prepared(self, ratings: Sequence[Rating]) -> Sequence[Rating]:
        """Ratings with nine figures in m, but for 0."""
        return [self._figures(POWERS[60 - e] * m) for m, e in ratings]

    def fold_up(self, number: int, ratings: Sequence[Rating]) -> int:
        """Most of the time goes here, so this works on figures and exponent.

        Nine figures times nine figures are seventeen or eighteen.
        """
        m, e = self._figures(number)
        for figures, exponent in ratings:
            m *= figures
            if m < SEVENTEEN_NOUGHTS:
                m = -(-m // 100_000_000)
                e += exponent - 8
            else:
                m = -(-m // 1_000_000_000)
                e += exponent - 9
            if m == 1_000_000_000:
                m, e = 100_000_000, e - 1
            elif not m:
                return 0
            if e > 60:
                m, e = 100_000_000, 60
        return m * POWERS[60 - e]

    def text(self, number: int) -> str:
        return "%d %d" % self._figures(number)

    def _figures(self, number: int) -> Rating:
        """The m and e of a number of steps that has nine figures or is 0."""
        if number == 0:
            return 0, 9
        power = _power(number)
        return number * POWERS[8] // POWERS[power], 68 - power


SMALLEST = POWERS[8]
SEVENTEEN_NOUGHTS = POWERS[17]

# For each length in bits, the largest power of ten that is no longer.
POWER_OF_BITS = [
    max((k for k, power in enumerate(POWERS) if power.bit_length() <= bits), default=0)
    for bits in range(POWERS[61].bit_length() + 1)
]


def _power(steps: int) -> int:
    """The k for which 10**k is at most the number of steps, and 10**(k+1) is not."""
    k = POWER_OF_BITS[steps.bit_length()]
    return k if POWERS[k] <= steps else k - 1


def _grain(steps: int) -> int:
    """The value, in steps, of the last of nine leading figures."""
    return POWERS[_power(steps) - 8]
