//! Document 01's angles in whole numbers, far ones by document 02's request 2: `sin`, `cos` and `acos`, over a table of the sine's Taylor sum that is worked out exactly.

/// A quarter turn in units of 2^-28.
pub const QUARTER_TURN: u64 = 421_657_428;
/// Steps of the table over a quarter turn.
pub const STEPS: usize = 2048;
/// One in units of 2^-30.
pub const ONE: i64 = 1 << 30;

/// T: entry i is 2^30 times the Taylor sum through the 15th power at i * QUARTER_TURN / 2048 units of 2^-28, plus a half, rounded down.
#[allow(long_running_const_eval)]
pub static TABLE: [u32; STEPS + 1] = table();

/// A whole number below 2^704, least limb first.
type Big = [u64; LIMBS];
const LIMBS: usize = 11;

const fn times(mut a: Big, n: u64) -> Big {
    let mut carry = 0;
    let mut i = 0;
    while i < LIMBS {
        let limb = a[i] as u128 * n as u128 + carry;
        a[i] = limb as u64;
        carry = limb >> 64;
        i += 1;
    }
    assert!(carry == 0);
    a
}

const fn plus(mut a: Big, b: Big) -> Big {
    let mut carry = 0;
    let mut i = 0;
    while i < LIMBS {
        let limb = a[i] as u128 + b[i] as u128 + carry;
        a[i] = limb as u64;
        carry = limb >> 64;
        i += 1;
    }
    assert!(carry == 0);
    a
}

const fn minus(mut a: Big, b: Big) -> Big {
    let mut borrow = false;
    let mut i = 0;
    while i < LIMBS {
        let (limb, below) = a[i].overflowing_sub(b[i]);
        let (limb, below_borrow) = limb.overflowing_sub(borrow as u64);
        a[i] = limb;
        borrow = below || below_borrow;
        i += 1;
    }
    assert!(!borrow);
    a
}

/// n * 2^bits.
const fn scaled(n: u64, bits: usize) -> Big {
    let wide = (n as u128) << (bits % 64);
    let mut a = [0; LIMBS];
    a[bits / 64] = wide as u64;
    if wide >> 64 != 0 {
        a[bits / 64 + 1] = (wide >> 64) as u64;
    }
    a
}

/// a / 2^bits rounded down, where the last two limbs hold it.
const fn shifted_down(a: Big, bits: usize) -> u128 {
    assert!(bits / 64 == LIMBS - 2);
    ((a[LIMBS - 1] as u128) << 64 | a[LIMBS - 2] as u128) >> (bits % 64)
}

/// 15! / p!.
const fn falling(p: u64) -> u64 {
    let mut product = 1;
    let mut i = p + 1;
    while i <= 15 {
        product *= i;
        i += 1;
    }
    product
}

/// With x = n / 2^39 the Taylor sum is S / D, where D = 15! * 2^585 and S is worked inward: n * (15!/1! * 2^546 - n^2 * (15!/3! * 2^468 - ..)).
const fn entry(i: u64) -> u32 {
    let n = i * QUARTER_TURN;
    let mut sum = scaled(1, 0);
    let mut p = 13;
    loop {
        sum = minus(scaled(falling(p), 39 * (15 - p as usize)), times(times(sum, n), n));
        if p == 1 {
            break;
        }
        p -= 2;
    }
    sum = times(sum, n);
    let denominator = scaled(falling(1), 585);
    let doubled = plus(times(sum, 1 << 31), denominator);
    (shifted_down(doubled, 586) / falling(1) as u128) as u32
}

const fn table() -> [u32; STEPS + 1] {
    let mut entries = [0; STEPS + 1];
    let mut i = 0;
    while i <= STEPS {
        entries[i] = entry(i as u64);
        i += 1;
    }
    entries
}

/// A finite float's magnitude times 2^power, rounded down, and whether it was exact. The result fits by what the callers ask.
fn magnitude(a: f32, power: i32) -> (u64, bool) {
    let bits = a.to_bits();
    let exponent = (bits >> 23 & 0xff) as i32;
    let significand = u64::from(if exponent == 0 { bits & 0x7f_ffff } else { bits & 0x7f_ffff | 0x80_0000 });
    let shift = exponent.max(1) - 150 + power;
    if shift >= 0 {
        (significand << shift, true)
    } else if shift > -64 {
        let whole = significand >> -shift;
        (whole, whole << -shift == significand)
    } else {
        (0, significand == 0)
    }
}

/// u: the size of an angle below 2^24 in units of 2^-28, rounded down.
pub fn units(a: f32) -> Option<u64> {
    (a.abs() < 16_777_216.0).then(|| magnitude(a, 28).0)
}

/// H: the straight line between neighbours of the table, rounded down, for v from 0 to a quarter turn.
fn line(v: u64) -> i64 {
    let place = v * STEPS as u64;
    let i = (place / QUARTER_TURN) as usize;
    if i == STEPS {
        return i64::from(TABLE[STEPS]);
    }
    let rise = u64::from(TABLE[i + 1] - TABLE[i]);
    i64::from(TABLE[i]) + (rise * (place % QUARTER_TURN) / QUARTER_TURN) as i64
}

/// The sine's rule for u, in units of 2^-30.
pub fn sine_units(u: u64) -> i64 {
    let v = u % QUARTER_TURN;
    match u / QUARTER_TURN % 4 {
        0 => line(v),
        1 => line(QUARTER_TURN - v),
        2 => -line(v),
        _ => -line(QUARTER_TURN - v),
    }
}

/// The cosine in units of 2^-30: the sine's rule for u + Q.
pub fn cosine_units(u: u64) -> i64 {
    sine_units(u + QUARTER_TURN)
}

/// The nearest float to n * 2^-30; the quotient is exact.
fn from_units(n: i64) -> f32 {
    n as f32 / ONE as f32
}

pub fn sin(a: f32) -> f32 {
    match units(a) {
        Some(u) if a < 0.0 => from_units(-sine_units(u)),
        Some(u) => from_units(sine_units(u)),
        None => f32::NAN,
    }
}

pub fn cos(a: f32) -> f32 {
    match units(a) {
        Some(u) => from_units(cosine_units(u)),
        None => f32::NAN,
    }
}

/// c * 2^30 rounded down, for c from -1 to 1.
fn floor_units(c: f32) -> i64 {
    let (size, exact) = magnitude(c, 30);
    let size = size as i64;
    if c >= 0.0 {
        size
    } else if exact {
        -size
    } else {
        -size - 1
    }
}

/// The least u from 0 to 2Q whose cosine is at most `bound`, by halving: the cosine never rises there.
fn least_angle(bound: i64) -> u64 {
    let (mut low, mut high) = (0, 2 * QUARTER_TURN);
    while low < high {
        let middle = (low + high) / 2;
        if cosine_units(middle) <= bound {
            high = middle;
        } else {
            low = middle + 1;
        }
    }
    debug_assert!(cosine_units(low) <= bound && (low == 0 || cosine_units(low - 1) > bound));
    low
}

pub fn acos(c: f32) -> f32 {
    if !(-1.0..=1.0).contains(&c) {
        return f32::NAN;
    }
    least_angle(floor_units(c)) as f32 / (1u32 << 28) as f32
}

/// Document 02's count of an arc cosine: how many cosines a search works out that keeps the one at its lower bound. One at 0, and while an angle lies between the bounds one in the middle; that at
/// 2Q is -1 and is known. A search that ends at 0 has the first alone, and what is no cosine has none.
pub fn acos_cosines(c: f32) -> u32 {
    if !(-1.0..=1.0).contains(&c) {
        return 0;
    }
    let bound = floor_units(c);
    let (mut low, mut high) = (0, 2 * QUARTER_TURN);
    let mut lower_cosine = cosine_units(low);
    let mut worked = 1;
    while lower_cosine > bound && low + 1 < high {
        let middle = (low + high) / 2;
        let cosine = cosine_units(middle);
        worked += 1;
        if cosine > bound {
            (low, lower_cosine) = (middle, cosine);
        } else {
            high = middle;
        }
    }
    assert!(worked <= 31 && least_angle(bound) == if lower_cosine > bound { high } else { low });
    worked
}

#[cfg(test)]
mod tests {
    use super::*;

    #[test]
    fn table_ends_and_strict_rise() {
        assert_eq!(TABLE[0], 0);
        assert_eq!(TABLE[STEPS], 1 << 30);
        assert!(TABLE.windows(2).all(|pair| pair[0] < pair[1]));
    }

    #[test]
    fn table_near_the_sine() {
        for (i, entry) in TABLE.iter().enumerate() {
            let x = (i as u64 * QUARTER_TURN) as f64 / (1u64 << 39) as f64;
            assert!((x.sin() * (1u64 << 30) as f64 - f64::from(*entry)).abs() < 0.51, "entry {i}");
        }
    }

    #[test]
    fn worked_cases() {
        assert_eq!(acos(1.0).to_bits(), 0);
        assert_eq!(acos(0.0), 13_176_795.0 / 8_388_608.0);
        assert_eq!(acos(-0.0), acos(0.0));
        assert_eq!(acos(-1.0).to_bits(), 1078530011);
        assert_eq!([1.0, 0.125, 0.0, -1.0, 2.0, f32::NAN].map(acos_cosines), [1, 31, 31, 31, 0, 0]);
        assert!(acos(1.0000001).is_nan() && acos(-1.0000001).is_nan() && acos(f32::NAN).is_nan() && acos(f32::INFINITY).is_nan());
        assert_eq!(sin(0.0).to_bits(), 0);
        assert_eq!(sin(-0.0).to_bits(), 0);
        assert_eq!(cos(-0.0), 1.0);
        for far in [16_777_216.0, -16_777_216.0, f32::MAX, f32::INFINITY, f32::NEG_INFINITY, f32::NAN] {
            assert!(sin(far).is_nan() && cos(far).is_nan());
        }
        assert_ne!(sin(16_777_215.0), 0.0);
    }

    #[test]
    fn arc_cosine_is_least() {
        let mut c = -1.0f32;
        while c <= 1.0 {
            for c in [c, c.next_up().min(1.0), c * 1e-6, c * 1e-20] {
                let bound = floor_units(c);
                assert_eq!(bound as f64, (f64::from(c) * (1u64 << 30) as f64).floor());
                let u = least_angle(bound);
                assert!(cosine_units(u) <= bound);
                assert!((1..=64).all(|k| u < k || cosine_units(u - k) > bound));
            }
            c += 0.000_37;
        }
    }

    #[test]
    fn cosine_never_rises_over_half_a_turn() {
        let mut before = ONE;
        for u in (0..=2 * QUARTER_TURN).step_by(97) {
            let here = cosine_units(u);
            assert!(here <= before);
            before = here;
        }
        assert_eq!(cosine_units(2 * QUARTER_TURN), -ONE);
    }

    /// Argument and result as bits, from an implementation in another language.
    #[test]
    #[rustfmt::skip]
    fn vectors_of_another_implementation() {
        let sines = [
            (0, 0), (2147483648, 0), (1065353216, 1062693540), (3212836864, 3210177188), (1070141403, 1065353216), (1078530011, 3015704576),
            (1120403456, 3204555052), (3326142134, 1060391595), (1266679807, 3212023914), (786163455, 0), (1075662957, 1059171756),
            (1083883105, 3212709389), (1086123140, 3200095678), (1091409287, 1057710903), (1083803900, 3212775459), (1090987229, 1062493321),
            (3239491556, 3147825046), (3207594771, 3206707196), (1091428296, 1057454309),
        ];
        let cosines = [
            (0, 1065353216), (2147483648, 1065353216), (1065353216, 1057640768), (3212836864, 1057640768), (1070141403, 3007315968),
            (1078530011, 3212836864), (1120403456, 1063043310), (3326142134, 1060486779), (1266679807, 3197989399),
            (786163455, 1065353216), (1075662957, 3209067527), (1083883105, 1039924065), (1086123140, 1064160673), (1091409287, 3210131907),
            (1083803900, 1034882880), (1090987229, 3205428913), (3239491556, 3212836663), (3207594771, 1061541518), (1091428296, 3210295188),
        ];
        let arcs = [
            (1065353216, 0), (0, 1070141403), (2147483648, 1070141403), (3212836864, 1078530011), (1056964608, 1065749137), (3204448256, 1074137746),
            (1065343150, 1024320437), (1065344995, 1023424967), (1050184905, 1067603484), (1062027988, 1059321697), (3209038302, 1075651408),
            (3179111145, 1070660670), (3204563253, 1074171019), (1035157142, 1069406277), (1041723002, 1068896309), (3212396825, 1077567260),
            (3205564619, 1074467849), (3202469728, 1073857370), (1062546232, 1058421659),
        ];
        for (function, cases) in [(sin as fn(f32) -> f32, &sines[..]), (cos, &cosines), (acos, &arcs)] {
            for (argument, result) in cases {
                assert_eq!(function(f32::from_bits(*argument)).to_bits(), *result, "argument {argument}");
            }
        }
    }
}
