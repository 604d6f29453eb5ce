"""The two scales, worked straight from what their numbers mean.

A scale is a set of values from 0 to 1.  Every operation works out its exact
result as a fraction and then looks for it in the set.  If it is not there, the
next value below is taken (down) or the next one above (up); past 1 both end at
1.  Nothing here is quick; `fast_scales` does the same with whole numbers.
"""

from __future__ import annotations

from abc import ABC, abstractmethod
from collections.abc import Sequence
from fractions import Fraction
from typing import Generic, TypeVar

Number = TypeVar("Number")
Rating = tuple[int, int]


def chance(rating: Rating) -> Fraction:
    """The value of a rating given as m and e."""
    m, e = rating
    return Fraction(m, 10**e)


class Scale(ABC, Generic[Number]):
    """Operations that need no more than the values and the two roundings."""

    zero: Number
    one: Number

    @abstractmethod
    def value(self, number: Number) -> Fraction:
        """What a number stands for."""

    @abstractmethod
    def down(self, exact: Fraction) -> Number:
        """The number itself or the next below; the exact value is 0 or more."""

    @abstractmethod
    def up(self, exact: Fraction) -> Number:
        """The number itself or the next above, at most 1."""

    @abstractmethod
    def text(self, number: Number) -> str:
        """The number as it is printed."""

    def times_down(self, number: Number, rating: Rating) -> Number:
        return self.down(self.value(number) * chance(rating))

    def times_up(self, number: Number, rating: Rating) -> Number:
        return self.up(self.value(number) * chance(rating))

    def prepared(self, ratings: Sequence[Rating]) -> Sequence[Rating]:
        """Ratings in the form that folding takes, which is the usual one."""
        return ratings

    def fold_down(self, number: Number, ratings: Sequence[Rating]) -> Number:
        """The number times one rating after the other, each time rounded down."""
        for rating in ratings:
            number = self.times_down(number, rating)
        return number

    def fold_up(self, number: Number, ratings: Sequence[Rating]) -> Number:
        """The number times one rating after the other, each time rounded up."""
        for rating in ratings:
            number = self.times_up(number, rating)
        return number

    def sum_down(self, one: Number, other: Number) -> Number:
        return self.down(self.value(one) + self.value(other))

    def sum_up(self, one: Number, other: Number) -> Number:
        return self.up(self.value(one) + self.value(other))

    def less(self, one: Number, other: Number) -> Number:
        """The difference rounded down; 0 if it falls below 0."""
        return self.down(max(Fraction(0), self.value(one) - self.value(other)))

    def at_most(self, one: Number, other: Number) -> bool:
        return self.value(one) <= self.value(other)


class Billionths(Scale[int]):
    """w stands for w / 10**9, and w goes from 0 to 10**9."""

    zero = 0
    one = 10**9

    def value(self, number: int) -> Fraction:
        return Fraction(number, 10**9)

    def down(self, exact: Fraction) -> int:
        return min(_floor(exact, 9), self.one)

    def up(self, exact: Fraction) -> int:
        return min(_ceiling(exact, 9), self.one)

    def text(self, number: int) -> str:
        return str(number)


Figures = tuple[int, int]


class NineFigures(Scale[Figures]):
    """0, 1, and every m / 10**e with nine figures in m and e from 9 to 60."""

    zero = (0, 9)
    one = (100_000_000, 8)
    SMALLEST_M, LARGEST_M = 100_000_000, 999_999_999
    EXPONENTS = range(9, 61)

    def value(self, number: Figures) -> Fraction:
        return chance(number)

    def down(self, exact: Fraction) -> Figures:
        """Take the best number of each exponent, and of those the largest."""
        found = [self.zero]
        if exact >= 1:
            found.append(self.one)
        for e in self.EXPONENTS:
            m = min(_floor(exact, e), self.LARGEST_M)
            if m >= self.SMALLEST_M:
                found.append((m, e))
        return max(found, key=_in_smallest_steps)

    def up(self, exact: Fraction) -> Figures:
        """Take the best number of each exponent, and of those the smallest."""
        found = [self.one]
        if exact == 0:
            found.append(self.zero)
        for e in self.EXPONENTS:
            m = max(_ceiling(exact, e), self.SMALLEST_M)
            if m <= self.LARGEST_M:
                found.append((m, e))
        return min(found, key=_in_smallest_steps)

    def text(self, number: Figures) -> str:
        return "%d %d" % number


def _in_smallest_steps(number: Figures) -> int:
    """The value in steps of 10**-60, of which every number is a multiple."""
    m, e = number
    return m * 10 ** (60 - e)


def _floor(exact: Fraction, e: int) -> int:
    """The largest whole number of steps of 10**-e that fit into the value."""
    return exact.numerator * 10**e // exact.denominator


def _ceiling(exact: Fraction, e: int) -> int:
    """The smallest whole number of steps of 10**-e that cover the value."""
    return -(-exact.numerator * 10**e // exact.denominator)
