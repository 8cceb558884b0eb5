//! A second implementation of document 01's cover with document 02's pads, in plain floats. Of the move it takes the constants only (poses, times, translations, rotations, S);
//! the steps, the order and the refusals are its own, written from document 01 and from the steps of `interpolate` and `transform_point`.

use crate::angles::{acos, cos, sin, units, QUARTER_TURN};
use crate::core::transform::Matrix4x4;
use crate::judged::{finite, quaternion_values, vector_values, Judged, Kind, Move};
use crate::refusal::*;
use std::ops::{Add, Div, Mul, Sub};

pub const MAX_DEPTH: u64 = 12;

/// A low and a high end, and the first refusal met on the way to them, 0 for none.
#[derive(Debug, Clone, Copy)]
struct Interval {
    low: f32,
    high: f32,
    refusal: u8,
}

/// A constant, as equal ends.
const fn constant(value: f32) -> Interval {
    Interval { low: value, high: value, refusal: 0 }
}

const ZERO: Interval = constant(0.0);
const ONE: Interval = constant(1.0);
const TWO: Interval = constant(2.0);

/// Least and greatest of two: the first unless the other is strictly beyond it. No NaN comes here unless a refusal was met before.
pub fn least(a: f32, b: f32) -> f32 {
    if b < a {
        b
    } else {
        a
    }
}

pub fn greatest(a: f32, b: f32) -> f32 {
    if b > a {
        b
    } else {
        a
    }
}

/// An interval as it is formed from others: an earlier refusal stands, and an end that is not finite is 5.
fn formed(low: f32, high: f32, earlier: [u8; 2]) -> Interval {
    let refusal = match earlier {
        [0, 0] if low.is_finite() && high.is_finite() => 0,
        [0, 0] => NOT_FINITE,
        [0, second] => second,
        [first, _] => first,
    };
    Interval { low, high, refusal }
}

fn hull(values: [f32; 4], earlier: [u8; 2]) -> Interval {
    let [a, b, c, d] = values;
    formed(least(least(a, b), least(c, d)), greatest(greatest(a, b), greatest(c, d)), earlier)
}

impl Add for Interval {
    type Output = Interval;

    fn add(self, i: Interval) -> Interval {
        formed(self.low + i.low, self.high + i.high, [self.refusal, i.refusal])
    }
}

impl Sub for Interval {
    type Output = Interval;

    fn sub(self, i: Interval) -> Interval {
        formed(self.low - i.high, self.high - i.low, [self.refusal, i.refusal])
    }
}

impl Mul for Interval {
    type Output = Interval;

    fn mul(self, i: Interval) -> Interval {
        hull([self.low * i.low, self.low * i.high, self.high * i.low, self.high * i.high], [self.refusal, i.refusal])
    }
}

impl Div for Interval {
    type Output = Interval;

    fn div(self, i: Interval) -> Interval {
        hull([self.low / i.low, self.low / i.high, self.high / i.low, self.high / i.high], [self.refusal, i.refusal])
    }
}

impl Interval {
    /// The root of a squared length: 10 where its low end is zero or below.
    fn sqrt(self) -> Interval {
        let refusal = if self.refusal == 0 && self.low <= 0.0 { SQUARED_LENGTH } else { self.refusal };
        formed(self.low.sqrt(), self.high.sqrt(), [refusal, 0])
    }

    /// Whether an angle in units lies from one end's u to the other's. The angles of a built move are far below 2^24.
    fn holds(self, angle: u64) -> bool {
        let ends = [self.low, self.high].map(|end| units(end).expect("an angle below 2^24"));
        ends[0].min(ends[1]) <= angle && angle <= ends[0].max(ends[1])
    }

    fn wave(self, function: fn(f32) -> f32, crests: &[u64], trough: u64) -> Interval {
        let ends = [function(self.low), function(self.high)];
        let low = if self.holds(trough) { -1.0 } else { least(ends[0], ends[1]) };
        let high = if crests.iter().any(|crest| self.holds(*crest)) { 1.0 } else { greatest(ends[0], ends[1]) };
        formed(low, high, [self.refusal, 0])
    }

    fn sin(self) -> Interval {
        self.wave(sin, &[QUARTER_TURN], 3 * QUARTER_TURN)
    }

    fn cos(self) -> Interval {
        self.wave(cos, &[0, 4 * QUARTER_TURN], 2 * QUARTER_TURN)
    }
}

/// The first refusal among intervals in working order.
fn judge(worked: &[Interval]) -> Judged<()> {
    match worked.iter().map(|i| i.refusal).find(|refusal| *refusal != 0) {
        Some(refusal) => Err(refusal),
        None => Ok(()),
    }
}

type Matrix = [[Interval; 4]; 4];

fn matrix(m: &[[f32; 4]; 4]) -> Matrix {
    m.map(|row| row.map(constant))
}

fn product(a: &Matrix, b: &Matrix) -> Judged<Matrix> {
    let mut result = [[ZERO; 4]; 4];
    for i in 0..4 {
        for j in 0..4 {
            result[i][j] = a[i][0] * b[0][j] + a[i][1] * b[1][j] + a[i][2] * b[2][j] + a[i][3] * b[3][j];
        }
    }
    judge(result.as_flattened())?;
    Ok(result)
}

/// Least corner and greatest corner of what a matrix makes of a box.
fn moved(m: &Matrix, b: &[Interval; 3]) -> Judged<[f32; 6]> {
    let [x, y, z] = *b;
    let row = |r: [Interval; 4]| x * r[0] + y * r[1] + z * r[2] + r[3];
    let [xp, yp, zp, wp] = m.map(row);
    judge(&[xp, yp, zp, wp])?;
    assert!(wp.low == 1.0 && wp.high == 1.0, "the bottom row of a built move is 0 0 0 1");
    Ok([xp.low, yp.low, zp.low, xp.high, yp.high, zp.high])
}

pub fn union(a: [f32; 6], b: [f32; 6]) -> [f32; 6] {
    std::array::from_fn(|i| if i < 3 { least(a[i], b[i]) } else { greatest(a[i], b[i]) })
}

/// A finished cover's zeros are +0: rounded to nearest, -0 + +0 is +0, and every other value stays.
pub fn positive_zeros(b: [f32; 6]) -> [f32; 6] {
    b.map(|x| x + 0.0)
}

/// A quaternion x y z w.
type Quaternion = [Interval; 4];

fn dot(a: &Quaternion, b: &Quaternion) -> Interval {
    (a[0] * b[0] + a[1] * b[1] + a[2] * b[2]) + a[3] * b[3]
}

fn normalize(q: Quaternion) -> Quaternion {
    let length = dot(&q, &q).sqrt();
    q.map(|component| component / length)
}

fn slerp(a: &[f32; 4], b: &[f32; 4], dt: Interval) -> Judged<Quaternion> {
    let cos_theta = (a[0] * b[0] + a[1] * b[1] + a[2] * b[2]) + a[3] * b[3];
    let (a, b) = (a.map(constant), b.map(constant));
    let each = |f: &dyn Fn(usize) -> Interval| [f(0), f(1), f(2), f(3)];
    let q = if cos_theta > 0.9995 {
        normalize(each(&|i| a[i] * (ONE - dt) + b[i] * dt))
    } else {
        let theta = acos(least(greatest(cos_theta, -1.0), 1.0));
        let angle = constant(theta) * dt;
        let perpendicular = normalize(each(&|i| b[i] - a[i] * constant(cos_theta)));
        judge(&perpendicular)?;
        let (cosine, sine) = (angle.cos(), angle.sin());
        each(&|i| a[i] * cosine + perpendicular[i] * sine)
    };
    judge(&q)?;
    Ok(q)
}

/// The matrix of a quaternion, transposed once.
fn rotation(q: &Quaternion) -> Judged<Matrix> {
    let [x, y, z, w] = *q;
    let (xx, yy, zz) = (x * x, y * y, z * z);
    let (xy, xz, yz) = (x * y, x * z, y * z);
    let (wx, wy, wz) = (x * w, y * w, z * w);
    let m = [
        [ONE - TWO * (yy + zz), TWO * (xy - wz), TWO * (xz + wy), ZERO],
        [TWO * (xy + wz), ONE - TWO * (xx + zz), TWO * (yz - wx), ZERO],
        [TWO * (xz - wy), TWO * (yz + wx), ONE - TWO * (xx + yy), ZERO],
        [ZERO, ZERO, ZERO, ONE],
    ];
    judge(m.as_flattened())?;
    Ok(m)
}

/// What the poses of an interval of dt make of a box: translation, slerp, scale (of a rigid move the identity), the matrices, two products, the moved point.
fn slice(m: &Move, dt: Interval, b: &[Interval; 3]) -> Judged<[f32; 6]> {
    let f = &m.fields;
    let t = [vector_values(&f.t[0]), vector_values(&f.t[1])];
    let translated: [Interval; 3] = std::array::from_fn(|i| constant(t[0][i]) * (ONE - dt) + constant(t[1][i]) * dt);
    judge(&translated)?;
    let q = slerp(&quaternion_values(&f.r[0]), &quaternion_values(&f.r[1]), dt)?;
    let scaled = |i: usize, j: usize| (ONE - dt) * constant(f.s[0].m[i][j]) + dt * constant(f.s[1].m[i][j]);
    let row = |i: usize| [scaled(i, 0), scaled(i, 1), scaled(i, 2), ZERO];
    let scale = match m.kind {
        Kind::Plain => [row(0), row(1), row(2), [ZERO, ZERO, ZERO, ONE]],
        Kind::Rigid => matrix(&Matrix4x4::default().m),
    };
    judge(scale.as_flattened())?;
    let [x, y, z] = translated;
    let translation = [[ONE, ZERO, ZERO, x], [ZERO, ONE, ZERO, y], [ZERO, ZERO, ONE, z], [ZERO, ZERO, ZERO, ONE]];
    let pose = product(&product(&translation, &rotation(&q)?)?, &scale)?;
    moved(&pose, b)
}

/// 6, then 7.
pub fn check_box(b: &[f32; 6]) -> Judged<()> {
    if b.iter().any(|x| !x.is_finite()) {
        return Err(QUERY);
    }
    if (0..3).any(|i| b[i] > b[i + 3]) {
        return Err(CORNERS);
    }
    Ok(())
}

/// A box of which a cover is the union: what the start makes of it, or the end, a slice, or equal poses.
enum Part {
    Start,
    End,
    Slice(Interval),
    EqualPoses,
}

/// The union of a cover's boxes at a depth: 6, 7, 8, then start box, end box, slices in rising order, each handed to `grow` as soon as it is worked out.
/// Its zeros are +0.
fn union_of_boxes(m: &Move, b: &[f32; 6], depth: u64, grow: impl Fn(Part, [f32; 6]) -> Judged<[f32; 6]>) -> Judged<[f32; 6]> {
    check_box(b)?;
    if depth > MAX_DEPTH {
        return Err(DEPTH);
    }
    let b = intervals(b);
    let f = &m.fields;
    let start = moved(&matrix(&f.start.m.m), &b)?;
    if f.start == f.end {
        return grow(Part::EqualPoses, start).map(positive_zeros);
    }
    let start = grow(Part::Start, start)?;
    let mut covered = union(start, grow(Part::End, moved(&matrix(&f.end.m.m), &b)?)?);
    let slices = 1u32 << depth;
    for k in 0..slices {
        let end = |k: u32| k as f32 / slices as f32;
        let dt = Interval { low: end(k), high: end(k + 1), refusal: 0 };
        covered = union(covered, grow(Part::Slice(dt), slice(m, dt, &b)?)?);
    }
    Ok(positive_zeros(covered))
}

/// Document 01's cover of a box x0 y0 z0 x1 y1 z1, which knows no pads; of a rigid move the same with the identity for S.
pub fn cover(m: &Move, b: &[f32; 6], depth: u64) -> Judged<[f32; 6]> {
    union_of_boxes(m, b, depth, |_, moved| Ok(moved))
}

/// A box with each face moved outwards by a pad.
fn grown(b: [f32; 6], pad: f32) -> Judged<[f32; 6]> {
    let grown = std::array::from_fn(|i| if i < 3 { b[i] - pad } else { b[i] + pad });
    finite(&grown)?;
    Ok(grown)
}

/// Document 02's cover: an end box grows by its own pad, that of equal poses by the larger, a slice's by the high end of the pad over it.
pub fn padded_cover(m: &Move, b: &[f32; 6], depth: u64) -> Judged<[f32; 6]> {
    let [start, end] = m.pads;
    union_of_boxes(m, b, depth, |part, moved| match part {
        Part::Start => grown(moved, start),
        Part::End => grown(moved, end),
        Part::EqualPoses => grown(moved, greatest(start, end)),
        Part::Slice(dt) => grown_slice(m, dt, moved),
    })
}

/// A box that an interval of dt has moved, grown by the high end of the pad over it.
fn grown_slice(m: &Move, dt: Interval, moved: [f32; 6]) -> Judged<[f32; 6]> {
    let [start, end] = m.pads;
    let pad = (ONE - dt) * constant(start) + dt * constant(end);
    judge(&[pad])?;
    grown(moved, pad.high)
}

fn intervals(b: &[f32; 6]) -> [Interval; 3] {
    std::array::from_fn(|i| Interval { low: b[i], high: b[i + 3], refusal: 0 })
}

/// A pose over a box, grown by a pad.
pub fn padded_pose(pose: &Matrix4x4, pad: f32, b: &[f32; 6]) -> Judged<[f32; 6]> {
    grown(moved(&matrix(&pose.m), &intervals(b))?, pad)
}

/// The poses of a move from one dt to another over a box, grown by the high end of the pad over them.
pub fn padded_piece(m: &Move, low: f32, high: f32, b: &[f32; 6]) -> Judged<[f32; 6]> {
    let dt = Interval { low, high, refusal: 0 };
    grown_slice(m, dt, slice(m, dt, &intervals(b))?)
}

#[cfg(test)]
mod tests {
    use super::*;
    use crate::core::geometry::bounds::Bounds3f;
    use crate::core::geometry::point::Point3f;
    use crate::judged::{bounds_values, build, point_values};

    /// splitmix64, as numbers from -1 to 1.
    struct Random(u64);

    impl Random {
        fn unit(&mut self) -> f32 {
            self.0 = self.0.wrapping_add(0x9e37_79b9_7f4a_7c15);
            let mut z = self.0;
            z = (z ^ z >> 30).wrapping_mul(0xbf58_476d_1ce4_e5b9);
            z = (z ^ z >> 27).wrapping_mul(0x94d0_49bb_1331_11eb);
            (((z ^ z >> 31) >> 40) as f32 - 8_388_608.0) / 8_388_608.0
        }

        fn matrix(&mut self, near: &Matrix4x4, spread: f32) -> Matrix4x4 {
            let mut m = *near;
            for i in 0..3 {
                for j in 0..4 {
                    m.m[i][j] += spread * self.unit();
                }
            }
            m
        }

        /// Moves of small turns, for which slerp is linear, and of great ones, with times 0 and 1.
        fn moves(&mut self, count: usize) -> Vec<Move> {
            let mut moves = Vec::new();
            while moves.len() < count {
                let start = self.matrix(&Matrix4x4::default(), 2.0);
                let spread = if moves.len() % 2 == 0 { 0.01 } else { 2.0 };
                let end = self.matrix(&start, spread);
                moves.extend(build(Kind::Plain, 0.0, &start, 1.0, &end));
            }
            moves
        }
    }

    fn bits(b: [f32; 6]) -> [u32; 6] {
        b.map(f32::to_bits)
    }

    fn a() -> Move {
        let mut end = Matrix4x4::default();
        end.m[0][3] = 1.0;
        build(Kind::Plain, 0.0, &Matrix4x4::default(), 1.0, &end).unwrap()
    }

    #[test]
    fn worked_cases() {
        let origin = [0.0; 6];
        assert_eq!(cover(&a(), &origin, 0), Err(SQUARED_LENGTH));
        assert_eq!(cover(&a(), &origin, 1), Ok([0.0, 0.0, 0.0, 1.0, 0.0, 0.0]));
        assert_eq!(cover(&a(), &origin, 13), Err(DEPTH));
        let still = build(Kind::Plain, 0.0, &Matrix4x4::default(), 1.0, &Matrix4x4::default()).unwrap();
        assert_eq!(cover(&still, &[1.0, 2.0, 3.0, 4.0, 5.0, 6.0], 10), Ok([1.0, 2.0, 3.0, 4.0, 5.0, 6.0]));
    }

    #[test]
    fn query_checks_in_order() {
        assert_eq!(cover(&a(), &[2.0, 0.0, 0.0, 1.0, f32::NAN, 0.0], 13), Err(QUERY));
        assert_eq!(cover(&a(), &[2.0, 0.0, 0.0, 1.0, 0.0, 0.0], 13), Err(CORNERS));
        assert_eq!(cover(&a(), &[2.0, 0.0, 0.0, 2.0, 0.0, 0.0], 13), Err(DEPTH));
    }

    /// With equal ends the interval steps are the float steps: the same operations in the same order as the original's.
    #[test]
    fn slice_of_no_width_is_the_original() {
        let mut random = Random(1);
        let mut compared = 0;
        for m in random.moves(2000) {
            for _ in 0..4 {
                let (time, p) = (0.5 + 0.5 * random.unit(), [random.unit(), random.unit(), random.unit()].map(|x| 10.0 * x));
                let ours = slice(&m, constant(time), &p.map(constant));
                let original = m.transform_point(time, &Point3f::new(p[0], p[1], p[2]));
                if let (Ok(ours), Ok(original)) = (ours, original) {
                    let original = point_values(&original);
                    if time > 0.0 && time < 1.0 {
                        assert!((0..3).all(|i| ours[i] == original[i] && ours[i + 3] == original[i]), "{p:?} at {time}: {ours:?}, the original {original:?}");
                        compared += 1;
                    }
                }
            }
        }
        assert!(compared > 7000, "{compared} compared");
    }

    #[test]
    fn pose_over_a_box_is_transform_bounds() {
        let mut random = Random(2);
        for m in random.moves(1000) {
            let (least_corner, size) = ([random.unit(), random.unit(), random.unit()], random.unit().abs());
            let b = Bounds3f {
                p_min: Point3f::new(least_corner[0], least_corner[1], least_corner[2]),
                p_max: Point3f::new(least_corner[0] + size, least_corner[1] + size, least_corner[2]),
            };
            let ends = bounds_values(&b);
            let intervals = std::array::from_fn(|i| Interval { low: ends[i], high: ends[i + 3], refusal: 0 });
            assert_eq!(moved(&matrix(&m.fields.end.m.m), &intervals).unwrap(), bounds_values(&m.fields.end.transform_bounds(&b)));
        }
    }

    /// By themselves, and less and plus the pad at that time.
    #[test]
    fn moved_points_are_inside() {
        let mut random = Random(3);
        let mut inside = 0;
        for m in random.moves(300) {
            let b = [-1.0, -2.0, 0.0, 1.0, 0.5, 0.0];
            let m = Move { pads: [random.unit().abs(), 3.0 * random.unit().abs()], ..m };
            for depth in [0, 2, 5] {
                let (Ok(cover), Ok(padded)) = (cover(&m, &b, depth), m.cover(&b, depth)) else { continue };
                for _ in 0..50 {
                    let p = Point3f::new(random.unit(), -2.0 + 2.5 * random.unit().abs(), 0.0);
                    let time = 0.5 + 0.55 * random.unit();
                    let (moved, pad) = (point_values(&m.transform_point(time, &p).unwrap()), m.pad(time).unwrap());
                    assert!((0..3).all(|i| cover[i] <= moved[i] && moved[i] <= cover[i + 3]));
                    assert!((0..3).all(|i| padded[i] <= moved[i] - pad && moved[i] + pad <= padded[i + 3]));
                    inside += 1;
                }
            }
        }
        assert!(inside > 20_000, "{inside} inside");
    }

    #[test]
    fn pads_of_zero_change_nothing() {
        let mut random = Random(4);
        for m in random.moves(300) {
            let b = [-1.0, -2.0, 0.0, 1.0, 0.5, 0.0];
            for (depth, pads) in [(0, [0.0, 0.0]), (3, [0.0, 0.0]), (3, [-0.0, 0.0]), (4, [-0.0, -0.0])] {
                assert_eq!(padded_cover(&Move { pads, ..m.clone() }, &b, depth).map(bits), cover(&m, &b, depth).map(bits));
            }
        }
    }

    /// Of equal poses and of others; the boxes of which a cover is the union keep their signs.
    #[test]
    fn zeros_are_positive() {
        let pose = |x: f32| {
            let mut pose = Matrix4x4::default();
            [pose.m[0][3], pose.m[1][3], pose.m[2][3]] = [x, -0.0, -0.0];
            pose
        };
        let b = [-0.0; 6];
        assert_eq!(padded_pose(&pose(-0.0), 0.0, &b).map(bits), Ok([1 << 31, 1 << 31, 1 << 31, 0, 0, 0]));
        for (end, high) in [(-0.0, 0.0), (1.0, 1.0)] {
            let m = build(Kind::Plain, 0.0, &pose(-0.0), 1.0, &pose(end)).unwrap();
            for depth in 1..4 {
                let expected = Ok([0.0, 0.0, 0.0, high, 0.0, 0.0]).map(bits);
                assert_eq!((cover(&m, &b, depth).map(bits), padded_cover(&m, &b, depth).map(bits)), (expected, expected));
            }
        }
    }

    /// The high end of the pad over the second half is 3.5, above both pads: over an interval 1 - dt and dt are at their greatest at once.
    #[test]
    fn a_slice_grows_by_the_high_end() {
        let padded = |pads: [f32; 2]| Move { pads, ..a() };
        assert_eq!(padded([1.0, 3.0]).cover(&[0.0; 6], 1), Ok([-3.0, -3.5, -3.5, 4.5, 3.5, 3.5]));
        let overflowing = padded([f32::MAX; 2]);
        assert_eq!((overflowing.cover(&[0.0; 6], 1), overflowing.pad(0.5)), (Err(NOT_FINITE), Ok(f32::MAX)));
    }

    /// Q, 2Q and 3Q are held where they lie between the ends; without them the ends decide.
    #[test]
    fn crests_and_troughs() {
        let angle = |low: f32, high: f32| Interval { low, high, refusal: 0 };
        let ends = |i: Interval| (i.low, i.high);
        assert_eq!(ends(angle(1.0, 2.0).sin()), (sin(1.0), 1.0));
        assert_eq!(ends(angle(4.0, 5.0).sin()), (-1.0, sin(4.0)));
        assert_eq!(ends(angle(0.5, 1.0).sin()), (sin(0.5), sin(1.0)));
        assert_eq!(ends(angle(3.0, 3.5).cos()), (-1.0, cos(3.5)));
        assert_eq!(ends(angle(0.0, 1.0).cos()), (cos(1.0), 1.0));
        assert_eq!(ends(angle(6.0, 6.5).cos()), (cos(6.0), 1.0));
        assert_eq!(ends(angle(0.5, 1.0).cos()), (cos(1.0), cos(0.5)));
    }
}
