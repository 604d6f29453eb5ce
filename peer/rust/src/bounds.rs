//! Bounds on the chance that a door is cut off, from a list of its cuts.

use crate::network::{members, BranchSet, Rating, MOST_BRANCHES};
use crate::scale::Scale;

/// What the chance is at least and at most.
#[derive(Clone, Copy, Debug, PartialEq, Eq)]
pub struct Bounds<N> {
    pub low: N,
    pub high: N,
}

/// The bounds from the branch sets of rows in listing order.
///
/// Bits past the last rating stand for no branch and are passed over.
pub fn bounds<S: Scale>(ratings: &[Rating], rows: &[BranchSet], finished: bool) -> Bounds<S::Num> {
    let products = Products::<S>::new(ratings);
    let high = if finished {
        high(&products, rows)
    } else {
        S::ONE
    };
    Bounds {
        low: low(&products, rows),
        high,
    }
}

/// The most that any prefix of the rows gives: the sum over its rows less the
/// sum over its pairs.
fn low<S: Scale>(products: &Products<S>, rows: &[BranchSet]) -> S::Num {
    let (mut low, mut singles, mut pairs) = (S::ZERO, S::ZERO, S::ZERO);
    for (j, &row) in rows.iter().enumerate() {
        singles = S::sum_down(singles, products.down(row));
        for &earlier in &rows[..j] {
            pairs = S::sum_up(pairs, products.up(earlier | row));
        }
        low = low.max(S::less_down(singles, pairs));
    }
    low
}

/// The sum over all rows.
fn high<S: Scale>(products: &Products<S>, rows: &[BranchSet]) -> S::Num {
    rows.iter()
        .fold(S::ZERO, |sum, &row| S::sum_up(sum, products.up(row)))
}

/// The ratings as factors, and the products of sets of them.
struct Products<S: Scale> {
    factors: [S::Factor; MOST_BRANCHES],
    rated: BranchSet,
}

impl<S: Scale> Products<S> {
    fn new(ratings: &[Rating]) -> Self {
        let mut factors = [S::factor(Rating::NEVER); MOST_BRANCHES];
        let mut rated = 0;
        for (k, &rating) in ratings.iter().enumerate() {
            factors[k] = S::factor(rating);
            rated |= 1 << k;
        }
        Self { factors, rated }
    }

    fn factors_of(&self, set: BranchSet) -> impl Iterator<Item = S::Factor> + '_ {
        // The remainder only tells the compiler that the index is in range.
        members(set & self.rated).map(|k| self.factors[k % MOST_BRANCHES])
    }

    #[inline]
    fn down(&self, set: BranchSet) -> S::Num {
        self.factors_of(set).fold(S::ONE, S::times_down)
    }

    #[inline]
    fn up(&self, set: BranchSet) -> S::Num {
        self.factors_of(set).fold(S::ONE, S::times_up)
    }
}

#[cfg(test)]
mod tests {
    use super::*;
    use crate::scale::{Billionths, NineFigures};

    fn ratings(count: usize, m: u32, e: u32) -> Vec<Rating> {
        vec![Rating::new(m, e).unwrap(); count]
    }

    #[test]
    fn the_bridge() {
        let ratings = ratings(5, 100_000_000, 9);
        let rows = [0b11, 0b1110, 0b10101, 0b11000];
        let coarse = bounds::<Billionths>(&ratings, &rows, true);
        assert_eq!((coarse.low, coarse.high), (21_490_000, 22_000_000));
        let fine = bounds::<NineFigures>(&ratings, &rows, true);
        assert_eq!((fine.low.m(), fine.low.e()), (214_900_000, 10));
        assert_eq!((fine.high.m(), fine.high.e()), (220_000_000, 10));
    }

    #[test]
    fn before_the_end_the_high_bound_is_1() {
        let ratings = ratings(5, 100_000_000, 9);
        let coarse = bounds::<Billionths>(&ratings, &[0b11], false);
        assert_eq!((coarse.low, coarse.high), (10_000_000, 1_000_000_000));
    }

    #[test]
    fn without_rows() {
        let ratings = ratings(5, 100_000_000, 9);
        let open = bounds::<Billionths>(&ratings, &[], false);
        assert_eq!((open.low, open.high), (0, 1_000_000_000));
        let finished = bounds::<Billionths>(&ratings, &[], true);
        assert_eq!((finished.low, finished.high), (0, 0));
    }

    #[test]
    fn a_branch_that_never_fails() {
        let fine = bounds::<NineFigures>(&ratings(1, 0, 9), &[1], true);
        assert_eq!(
            (fine.low, fine.high),
            (NineFigures::ZERO, NineFigures::ZERO)
        );
    }

    #[test]
    fn a_longer_prefix_may_be_worse() {
        let coarse = bounds::<Billionths>(&ratings(2, 900_000_000, 9), &[1, 3, 2], true);
        assert_eq!((coarse.low, coarse.high), (900_000_000, 1_000_000_000));
    }

    #[test]
    fn pairs_are_rounded_up() {
        let coarse = bounds::<Billionths>(&ratings(2, 1, 9), &[1, 2], true);
        assert_eq!((coarse.low, coarse.high), (1, 2));
    }

    #[test]
    fn bits_past_the_last_branch_count_for_nothing() {
        let coarse = bounds::<Billionths>(&ratings(1, 5, 9), &[1 | 1 << 63], true);
        assert_eq!((coarse.low, coarse.high), (5, 5));
    }
}
