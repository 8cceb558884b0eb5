//! What bounds.rs takes from the crate `num`.

use std::ops::{Add, Div, Mul, Sub};

pub trait Num: PartialEq + Sized + Add<Output = Self> + Sub<Output = Self> + Mul<Output = Self> + Div<Output = Self> {}

pub trait Bounded {
    fn min_value() -> Self;
    fn max_value() -> Self;
}

/// Least and greatest of two: the first unless the other is strictly beyond it; a NaN gives the other.
pub trait Float: Num + Copy + PartialOrd {
    fn least(self, other: Self) -> Self {
        #[allow(clippy::eq_op)]
        if other < self || self != self {
            other
        } else {
            self
        }
    }

    fn greatest(self, other: Self) -> Self {
        #[allow(clippy::eq_op)]
        if other > self || self != self {
            other
        } else {
            self
        }
    }
}

impl Num for f32 {}
impl Float for f32 {}

impl Bounded for f32 {
    fn min_value() -> f32 {
        f32::MIN
    }

    fn max_value() -> f32 {
        f32::MAX
    }
}

impl Num for isize {}
