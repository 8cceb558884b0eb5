//! What the three files take from pbrt-rust's `pbrt` module. Float is 32-bit; `lerp` and `clamp` as document 01 settles them.

use std::ops::{Add, Mul};

pub type Float = f32;

pub const PI: Float = std::f32::consts::PI;

/// (1 - t) * a + t * b. A type that takes a float as its right factor only is served too; the order of two factors changes no bit.
pub fn lerp<T>(t: Float, a: T, b: T) -> T
where
    T: Mul<Float, Output = T> + Add<T, Output = T>,
{
    a * (1.0 - t) + b * t
}

/// a where v < a, b where v > b, else v.
pub fn clamp(v: Float, a: Float, b: Float) -> Float {
    if v < a {
        a
    } else if v > b {
        b
    } else {
        v
    }
}

pub fn radians(degrees: Float) -> Float {
    PI / 180.0 * degrees
}

/// The bound of n rounding errors, which only the error-carrying transforms use.
pub fn gamma(n: usize) -> Float {
    let half = n as Float * (Float::EPSILON * 0.5);
    half / (1.0 - half)
}
