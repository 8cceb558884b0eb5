//! Decimals that are rounded to one side, by whole numbers.

use core::fmt;

/// A float as a decimal, rounded down or up ([`Bounds::decimals`](crate::Bounds::decimals)). `{:.3}` rounds to the nearest, which may be inward: the text then names a smaller box than the one that is
/// proved.
#[derive(Clone, Copy, Debug, PartialEq)]
pub struct Decimal {
    value: f32,
    up: bool,
    places: u32,
}

impl Decimal {
    /// Rounded down, to `places` digits behind the point, 9 where it asks for more.
    #[must_use]
    pub fn below(value: f32, places: u32) -> Decimal {
        Decimal { value, up: false, places: places.min(9) }
    }

    /// Rounded up, likewise.
    #[must_use]
    pub fn above(value: f32, places: u32) -> Decimal {
        Decimal { value, up: true, places: places.min(9) }
    }
}

impl fmt::Display for Decimal {
    fn fmt(&self, f: &mut fmt::Formatter<'_>) -> fmt::Result {
        let bits = self.value.to_bits();
        let (negative, exponent) = (self.value.is_sign_negative(), bits >> 23 & 255);
        if !self.value.is_finite() {
            return f.write_str(if self.value.is_nan() {
                "nan"
            } else if negative {
                "-inf"
            } else {
                "inf"
            });
        }
        let unit = 10u64.pow(self.places);
        // The value's size is the significand times 2^(power - 150).
        let (significand, power) = if exponent == 0 { (bits & 0x7f_ffff, 1) } else { (bits & 0x7f_ffff | 0x80_0000, exponent) };
        let (whole, part) = if power < 150 {
            let scaled = u64::from(significand) * unit;
            let down = (150 - power).min(63);
            let rest = scaled & ((1 << down) - 1) != 0;
            let n = (scaled >> down) + u64::from(rest && self.up != negative);
            (u128::from(n / unit), n % unit)
        } else {
            (u128::from(significand) << (power - 150), 0)
        };
        let sign = if negative && (whole, part) != (0, 0) { "-" } else { "" };
        match self.places as usize {
            0 => write!(f, "{sign}{whole}"),
            width => write!(f, "{sign}{whole}.{part:0width$}"),
        }
    }
}
