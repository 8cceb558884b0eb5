//! Decimals are rounded outward: the vectors that C and Python are tested with too, made by whole numbers.

use jellyplain::{Bounds, Decimal};

#[test]
fn vectors() {
    for line in include_str!("../../c/tests/decimals.txt").lines() {
        let [bits, places, down, up] = line.split(' ').collect::<Vec<_>>()[..] else { panic!("{line}") };
        let (value, places) = (f32::from_bits(u32::from_str_radix(bits, 16).unwrap()), places.parse().unwrap());
        assert_eq!((Decimal::below(value, places).to_string(), Decimal::above(value, places).to_string()), (down.into(), up.into()), "{line}");
    }
}

#[test]
fn never_inward() {
    let mut state = 45u64;
    for k in 0..200_000 {
        state = state.wrapping_mul(6_364_136_223_846_793_005).wrapping_add(1_442_695_040_888_963_407);
        let value = f32::from_bits((state >> 32) as u32);
        if value.is_finite() {
            // What is read back is rounded to the nearest, so that a decimal below the float is never read above it.
            let [down, up]: [f64; 2] = [Decimal::below(value, k % 12), Decimal::above(value, k % 12)].map(|decimal| decimal.to_string().parse().unwrap());
            assert!(down <= f64::from(value) && f64::from(value) <= up, "{value:e}");
        }
    }
}

#[test]
fn a_box_grows() {
    let bounds = Bounds { p_min: [-0.1, 0.1, 1.0], p_max: [-0.1, 0.1, -0.0] };
    assert_eq!(bounds.decimals(3).map(|decimal| decimal.to_string()), ["-0.101", "0.100", "1.000", "-0.100", "0.101", "0.000"]);
    assert_eq!([f32::NAN, f32::INFINITY, f32::NEG_INFINITY].map(|value| Decimal::below(value, 3).to_string()), ["nan", "inf", "-inf"]);
}
