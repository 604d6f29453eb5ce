//! Numbers from 0 to 1 with arithmetic that is rounded down or up.

mod billionths;
mod nine_figures;

pub use billionths::Billionths;
pub use nine_figures::{Figures, NineFigures};

use crate::network::Rating;

/// A finite set of values, the least of them 0 and the greatest 1, to which every
/// result is rounded: down to the nearest value at or under it, or up to the
/// nearest at or over it.  A sum over 1 counts as 1, a difference under 0 as 0.
pub trait Scale {
    /// A value of the set; the order is that of the values.
    type Num: Copy + Ord;

    /// A rating, made ready for many multiplications.
    type Factor: Copy;

    const ZERO: Self::Num;
    const ONE: Self::Num;

    fn factor(rating: Rating) -> Self::Factor;

    fn times_down(a: Self::Num, by: Self::Factor) -> Self::Num;
    fn times_up(a: Self::Num, by: Self::Factor) -> Self::Num;

    fn sum_down(a: Self::Num, b: Self::Num) -> Self::Num;
    fn sum_up(a: Self::Num, b: Self::Num) -> Self::Num;

    fn less_down(a: Self::Num, b: Self::Num) -> Self::Num;
}
