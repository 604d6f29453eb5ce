//! Whole billionths.

use super::Scale;
use crate::network::Rating;

const WHOLE: u64 = 1_000_000_000;

/// Whole billionths up to a billion of them, a value being held as their number.
pub struct Billionths;

/// A rating, as one whole number over another.
#[derive(Clone, Copy)]
pub struct Share {
    part: u64,
    whole: u64,
}

impl Scale for Billionths {
    type Num = u64;
    type Factor = Share;

    const ZERO: u64 = 0;
    const ONE: u64 = WHOLE;

    fn factor(rating: Rating) -> Share {
        Share {
            part: rating.m(),
            whole: 10_u64.pow(rating.e()),
        }
    }

    #[inline]
    fn times_down(a: u64, share: Share) -> u64 {
        a * share.part / share.whole
    }

    #[inline]
    fn times_up(a: u64, share: Share) -> u64 {
        (a * share.part).div_ceil(share.whole)
    }

    #[inline]
    fn sum_down(a: u64, b: u64) -> u64 {
        (a + b).min(WHOLE)
    }

    #[inline]
    fn sum_up(a: u64, b: u64) -> u64 {
        (a + b).min(WHOLE)
    }

    #[inline]
    fn less_down(a: u64, b: u64) -> u64 {
        a.saturating_sub(b)
    }
}

#[cfg(test)]
mod tests {
    use super::*;

    fn share(m: u32, e: u32) -> Share {
        Billionths::factor(Rating::new(m, e).unwrap())
    }

    #[test]
    fn one_billionth_times_a_tenth() {
        assert_eq!(Billionths::times_down(1, share(100_000_000, 9)), 0);
        assert_eq!(Billionths::times_up(1, share(100_000_000, 9)), 1);
    }

    #[test]
    fn exact_products_stay() {
        assert_eq!(Billionths::times_up(WHOLE, share(1_000_000_000, 9)), WHOLE);
        assert_eq!(Billionths::times_up(500, share(1_000_000_000, 10)), 50);
        assert_eq!(Billionths::times_up(WHOLE, share(0, 18)), 0);
        assert_eq!(Billionths::times_up(WHOLE, share(1, 18)), 1);
    }

    #[test]
    fn sums_and_differences_stay_between_0_and_1() {
        assert_eq!(Billionths::sum_up(WHOLE - 1, 2), WHOLE);
        assert_eq!(Billionths::sum_down(WHOLE, WHOLE), WHOLE);
        assert_eq!(Billionths::less_down(3, 4), 0);
        assert_eq!(Billionths::less_down(4, 3), 1);
    }
}
