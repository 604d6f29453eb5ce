//! Decimal numbers of nine figures.

use std::cmp::Ordering;

use super::Scale;
use crate::network::Rating;

/// The least nine figures.
const LEAST: u64 = 100_000_000;

/// The first whole number with a tenth figure.
const TEN_FIGURES: u64 = 1_000_000_000;

/// The exponent of 1 when it is written with nine figures.
const ONE_E: u32 = 8;

/// The smallest exponent of a value below 1.
const FIRST_E: u32 = 9;

/// The largest exponent.
const LAST_E: u32 = 60;

/// The smallest value above 0.
const SMALLEST: Figures = Figures {
    m: LEAST,
    e: LAST_E,
};

/// The powers of ten up to 10^9.
const POWERS: [u64; 10] = [
    1,
    10,
    100,
    1_000,
    10_000,
    100_000,
    1_000_000,
    10_000_000,
    LEAST,
    TEN_FIGURES,
];

/// Decimal fractions of nine figures down to about 10^-52, together with 0 and 1.
pub struct NineFigures;

/// The value m / 10^e.
///
/// m has nine figures and e lies in its range, except that 0 is held as
/// 0 / 10^9 and 1 as 100000000 / 10^8.  So every value has one form only.
#[derive(Clone, Copy, Debug, PartialEq, Eq)]
pub struct Figures {
    m: u64,
    e: u32,
}

impl Figures {
    /// The figures over the power of ten.
    pub fn m(self) -> u64 {
        self.m
    }

    /// The exponent of the power of ten.
    pub fn e(self) -> u32 {
        self.e
    }

    /// n / 10^e, which is at most 1, rounded down.
    fn normal(n: u64, e: u32) -> Self {
        let Some(last) = n.checked_ilog10() else {
            return NineFigures::ZERO;
        };
        if last >= ONE_E {
            let extra = last - ONE_E;
            Self::down(n / 10_u64.pow(extra), e - extra)
        } else {
            let missing = ONE_E - last;
            Self::down(n * 10_u64.pow(missing), e + missing)
        }
    }

    /// m / 10^e with nine figures in m, rounded down.
    #[inline]
    fn down(m: u64, e: u32) -> Self {
        match e {
            ..FIRST_E => NineFigures::ONE,
            FIRST_E..=LAST_E => Self { m, e },
            _ => NineFigures::ZERO,
        }
    }

    /// m / 10^e, rounded up; m has nine figures or has just come to 10^9.
    #[inline]
    fn up(m: u64, e: u32) -> Self {
        match e {
            ..FIRST_E => NineFigures::ONE,
            FIRST_E..=LAST_E if m < TEN_FIGURES => Self { m, e },
            FIRST_E..=LAST_E => Self { m: LEAST, e: e - 1 },
            _ => SMALLEST,
        }
    }
}

impl Ord for Figures {
    #[inline]
    fn cmp(&self, other: &Self) -> Ordering {
        match (self.m, other.m) {
            (0, _) | (_, 0) => self.m.cmp(&other.m),
            _ => other.e.cmp(&self.e).then(self.m.cmp(&other.m)),
        }
    }
}

impl PartialOrd for Figures {
    #[inline]
    fn partial_cmp(&self, other: &Self) -> Option<Ordering> {
        Some(self.cmp(other))
    }
}

impl Scale for NineFigures {
    type Num = Figures;

    /// Every rating is a value of the scale.
    type Factor = Figures;

    const ZERO: Figures = Figures { m: 0, e: FIRST_E };
    const ONE: Figures = Figures { m: LEAST, e: ONE_E };

    fn factor(rating: Rating) -> Figures {
        Figures::normal(rating.m(), rating.e())
    }

    #[inline]
    fn times_down(a: Figures, b: Figures) -> Figures {
        let (m, e) = (a.m * b.m, a.e + b.e);
        if m == 0 {
            Self::ZERO
        } else if m < LEAST * TEN_FIGURES {
            Figures::down(m / LEAST, e - 8)
        } else {
            Figures::down(m / TEN_FIGURES, e - 9)
        }
    }

    #[inline]
    fn times_up(a: Figures, b: Figures) -> Figures {
        let (m, e) = (a.m * b.m, a.e + b.e);
        if m == 0 {
            Self::ZERO
        } else if m < LEAST * TEN_FIGURES {
            Figures::up(ceil(m, LEAST), e - 8)
        } else {
            Figures::up(ceil(m, TEN_FIGURES), e - 9)
        }
    }

    #[inline]
    fn sum_down(a: Figures, b: Figures) -> Figures {
        let (large, small, unit) = aligned(a, b);
        let (m, e) = (large.m + small.m / unit, large.e);
        if m < TEN_FIGURES {
            Figures::down(m, e)
        } else {
            Figures::down(m / 10, e - 1)
        }
    }

    #[inline]
    fn sum_up(a: Figures, b: Figures) -> Figures {
        let (large, small, unit) = aligned(a, b);
        let (m, e) = (large.m + ceil(small.m, unit), large.e);
        if m < TEN_FIGURES {
            Figures::up(m, e)
        } else {
            Figures::up(ceil(m, 10), e - 1)
        }
    }

    fn less_down(a: Figures, b: Figures) -> Figures {
        if b.m == 0 {
            return a;
        }
        if a <= b {
            return Self::ZERO;
        }
        // a has the smaller exponent, being the larger of the two.
        let gap = b.e - a.e;
        if gap <= 9 {
            Figures::normal(a.m * POWERS[gap as usize] - b.m, b.e)
        } else if a.m > LEAST {
            // b is less than a tenth of a's last figure.
            Figures { m: a.m - 1, e: a.e }
        } else {
            Figures {
                m: TEN_FIGURES - 1,
                e: a.e + 1,
            }
        }
    }
}

/// The larger number, the smaller one, and what to divide the figures of the
/// smaller one by so that they line up with those of the larger one.
///
/// Past a gap of nine figures nothing changes: less than one unit is left.
#[inline]
fn aligned(a: Figures, b: Figures) -> (Figures, Figures, u64) {
    let (large, small) = if a < b { (b, a) } else { (a, b) };
    let gap = small.e.saturating_sub(large.e).min(9);
    (large, small, POWERS[gap as usize])
}

/// n / d rounded up.  For a fixed d this takes one multiplication less than
/// [`u64::div_ceil`], and nothing here comes near the largest number.
#[inline]
#[allow(clippy::manual_div_ceil)]
fn ceil(n: u64, d: u64) -> u64 {
    (n + (d - 1)) / d
}

#[cfg(test)]
mod tests {
    use super::*;

    fn number(m: u64, e: u32) -> Figures {
        Figures { m, e }
    }

    fn rating(m: u32, e: u32) -> Figures {
        NineFigures::factor(Rating::new(m, e).unwrap())
    }

    #[test]
    fn ratings_are_values() {
        assert_eq!(rating(0, 18), NineFigures::ZERO);
        assert_eq!(rating(1_000_000_000, 9), NineFigures::ONE);
        assert_eq!(rating(1_000_000_000, 18), number(LEAST, 17));
        assert_eq!(rating(1, 18), number(LEAST, 26));
        assert_eq!(rating(123_456_789, 11), number(123_456_789, 11));
    }

    #[test]
    fn products() {
        let billionth = number(LEAST, 17);
        assert_eq!(
            NineFigures::times_down(billionth, rating(100_000_000, 9)),
            number(LEAST, 18)
        );
        assert_eq!(
            NineFigures::times_up(billionth, rating(100_000_000, 9)),
            number(LEAST, 18)
        );
        let high = number(999_999_999, 9);
        assert_eq!(NineFigures::times_down(high, high), number(999_999_998, 9));
        assert_eq!(NineFigures::times_up(high, high), number(999_999_999, 9));
        assert_eq!(NineFigures::times_down(high, NineFigures::ONE), high);
        assert_eq!(
            NineFigures::times_up(NineFigures::ONE, NineFigures::ONE),
            NineFigures::ONE
        );
        assert_eq!(
            NineFigures::times_up(high, NineFigures::ZERO),
            NineFigures::ZERO
        );
    }

    #[test]
    fn products_that_carry() {
        // 333333334 * 300000000 has the ten figures 1000000002 above 10^8.
        let third = number(333_333_334, 9);
        assert_eq!(
            NineFigures::times_up(third, number(300_000_000, 9)),
            number(100_000_001, 9)
        );
        // 316227766 squared is just below 10^17.
        let root = number(316_227_766, 20);
        assert_eq!(NineFigures::times_down(root, root), number(999_999_999, 32));
        assert_eq!(NineFigures::times_up(root, root), number(LEAST, 31));
    }

    #[test]
    fn products_past_the_last_exponent() {
        assert_eq!(
            NineFigures::times_down(SMALLEST, rating(999_999_999, 9)),
            NineFigures::ZERO
        );
        assert_eq!(
            NineFigures::times_up(SMALLEST, rating(999_999_999, 9)),
            SMALLEST
        );
        assert_eq!(NineFigures::times_up(SMALLEST, rating(1, 18)), SMALLEST);
    }

    #[test]
    fn sums() {
        let (a, b) = (number(999_999_999, 12), number(999_999_999, 14));
        assert_eq!(NineFigures::sum_down(a, b), number(100_999_999, 11));
        assert_eq!(NineFigures::sum_up(b, a), number(101_000_000, 11));
        assert_eq!(NineFigures::sum_up(a, NineFigures::ZERO), a);
        assert_eq!(NineFigures::sum_down(a, SMALLEST), a);
        assert_eq!(NineFigures::sum_up(a, SMALLEST), number(LEAST, 11));
        assert_eq!(
            NineFigures::sum_up(NineFigures::ONE, SMALLEST),
            NineFigures::ONE
        );
        let half = number(500_000_000, 9);
        assert_eq!(NineFigures::sum_down(half, half), NineFigures::ONE);
        assert_eq!(
            NineFigures::sum_down(half, number(700_000_000, 9)),
            NineFigures::ONE
        );
        assert_eq!(
            NineFigures::sum_up(number(999_999_999, 9), SMALLEST),
            NineFigures::ONE
        );
    }

    #[test]
    fn differences() {
        let one = NineFigures::ONE;
        assert_eq!(
            NineFigures::less_down(one, number(LEAST, 28)),
            number(999_999_999, 9)
        );
        assert_eq!(NineFigures::less_down(one, one), NineFigures::ZERO);
        assert_eq!(NineFigures::less_down(SMALLEST, one), NineFigures::ZERO);
        assert_eq!(NineFigures::less_down(one, NineFigures::ZERO), one);
        let (a, b) = (number(123_456_789, 20), number(123_456_788, 20));
        assert_eq!(NineFigures::less_down(a, b), number(LEAST, 28));
        assert_eq!(
            NineFigures::less_down(a, number(LEAST, 30)),
            number(123_456_788, 20)
        );
        let (c, d) = (number(123_456_789, 60), number(123_456_788, 60));
        assert_eq!(NineFigures::less_down(c, d), NineFigures::ZERO);
        let step = number(999_999_999, 53);
        assert_eq!(
            NineFigures::less_down(number(LEAST, 52), step),
            NineFigures::ZERO
        );
    }

    #[test]
    fn the_order_is_that_of_the_values() {
        let rising = [
            NineFigures::ZERO,
            SMALLEST,
            number(999_999_999, 60),
            number(LEAST, 59),
            number(999_999_999, 9),
            NineFigures::ONE,
        ];
        assert!(rising.windows(2).all(|pair| pair[0] < pair[1]));
    }
}
