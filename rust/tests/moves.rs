//! Document 01's worked cases, and that moved points are inside covers.

use jellyplain::{Bounds, Matrix, Move, Pose, Refusal, IDENTITY};

const ORIGIN: Bounds = Bounds { p_min: [0.0; 3], p_max: [0.0; 3] };

fn translation(x: f32) -> Matrix {
    let mut m = IDENTITY;
    m[0][3] = x;
    m
}

fn built(start_time: f32, start: Matrix, end_time: f32, end: Matrix) -> Result<Move, Refusal> {
    Move::new(&Pose { time: start_time, matrix: start, pad: 0.0 }, &Pose { time: end_time, matrix: end, pad: 0.0 })
}

/// Identity at time 0, one further along x at time 1.
fn a() -> Move {
    built(0.0, IDENTITY, 1.0, translation(1.0)).unwrap()
}

/// A quarter turn about z, with a shift.
fn quarter_turn() -> Move {
    let end = [[0.0, -1.0, 0.0, 2.0], [1.0, 0.0, 0.0, -1.0], [0.0, 0.0, 1.0, 0.5], [0.0, 0.0, 0.0, 1.0]];
    built(3.0, IDENTITY, 7.0, end).unwrap()
}

#[test]
fn points() {
    assert_eq!(a().point(0.5, [0.0; 3]), Ok([0.5, 0.0, 0.0]));
    assert_eq!(a().point(f32::NEG_INFINITY, [0.0; 3]), Ok([0.0; 3]));
    assert_eq!(a().point(f32::INFINITY, [0.0; 3]), Ok([1.0, 0.0, 0.0]));
    assert_eq!(a().point(f32::NAN, [0.0; 3]), Err(Refusal::Query));
}

#[test]
fn covers() {
    assert_eq!(a().cover(&ORIGIN, 0), Err(Refusal::SquaredLength));
    assert_eq!(a().cover(&ORIGIN, 1), Ok(Bounds { p_min: [0.0; 3], p_max: [1.0, 0.0, 0.0] }));
    assert_eq!(a().cover(&ORIGIN, 13), Err(Refusal::Depth));
    let still = built(0.0, IDENTITY, 1.0, IDENTITY).unwrap();
    let b = Bounds { p_min: [1.0, 2.0, 3.0], p_max: [4.0, 5.0, 6.0] };
    assert_eq!(still.cover(&b, 10), Ok(b));
}

#[test]
fn refused_poses() {
    assert_eq!(built(0.0, IDENTITY, -1.0, translation(1.0)).err(), Some(Refusal::Times));
    assert_eq!(built(-3e38, IDENTITY, 3e38, translation(1.0)).err(), Some(Refusal::Times));
    let mut bottom = IDENTITY;
    bottom[3][0] = 1.0;
    assert_eq!(built(0.0, bottom, 1.0, IDENTITY).err(), Some(Refusal::BottomRow));
    bottom[0][0] = f32::INFINITY;
    assert_eq!(built(0.0, bottom, 1.0, IDENTITY).err(), Some(Refusal::PoseNotFinite));
    let flat = [[0.0; 4], [0.0; 4], [0.0; 4], IDENTITY[3]];
    assert_eq!(built(0.0, flat, 1.0, IDENTITY).err(), Some(Refusal::ZeroPivot));
    // The inverse of so small a scale is not finite.
    let tiny = [[1e-39, 0.0, 0.0, 0.0], [0.0, 1e-39, 0.0, 0.0], [0.0, 0.0, 1e-39, 0.0], IDENTITY[3]];
    assert_eq!(built(0.0, tiny, 1.0, IDENTITY).err(), Some(Refusal::NotFinite));
}

#[test]
fn equal_times() {
    let jump = built(0.0, IDENTITY, 0.0, translation(1.0)).unwrap();
    assert_eq!(jump.point(0.0, [0.0; 3]), Ok([0.0; 3]));
    assert_eq!(jump.point(1e-30, [0.0; 3]), Ok([1.0, 0.0, 0.0]));
}

/// The transform at a time moves a point as the point query does, and its inverse half takes it back.
#[test]
fn interpolate_and_point_agree() {
    let m = quarter_turn();
    let p = [2.0, 0.25, -1.0];
    for k in 0..=16 {
        let time = 2.5 + k as f32 * 0.3125;
        let t = m.interpolate(time).unwrap();
        let row = |r: [f32; 4]| p[0] * r[0] + p[1] * r[1] + p[2] * r[2] + r[3];
        let moved = m.point(time, p).unwrap();
        assert_eq!(moved, [row(t.matrix[0]), row(t.matrix[1]), row(t.matrix[2])]);
        let back = |r: [f32; 4]| moved[0] * r[0] + moved[1] * r[1] + moved[2] * r[2] + r[3];
        assert!((0..3).all(|i| (back(t.inverse[i]) - p[i]).abs() < 1e-4));
    }
}

#[test]
fn moved_points_are_inside_the_cover() {
    let m = quarter_turn();
    let b = Bounds { p_min: [0.0, -0.5, 0.0], p_max: [12.0, 0.5, 0.25] };
    let mut before: Option<Bounds> = None;
    for depth in [4, 8, 12] {
        let cover = m.cover(&b, depth).unwrap();
        assert!(before.is_none_or(|wider| wider.contains(cover.p_min) && wider.contains(cover.p_max)));
        before = Some(cover);
        for k in 0..1000 {
            let part = |n: usize| (k * n % 997) as f32 / 996.0;
            let p = [12.0 * part(7), part(31) - 0.5, 0.25 * part(101)];
            assert!(cover.contains(m.point(2.5 + 5.0 * part(1), p).unwrap()));
        }
    }
}

/// A motion box holds where the two poses take the corners, and the motion box of each corner.
#[test]
fn motion_boxes_hold_the_ends() {
    let m = quarter_turn();
    let b = Bounds { p_min: [0.0, -0.5, 0.0], p_max: [12.0, 0.5, 0.25] };
    let motion = m.motion_bounds(&b).unwrap().bounds;
    for time in [3.0, 7.0] {
        assert!(motion.contains(m.point(time, b.p_min).unwrap()) && motion.contains(m.point(time, b.p_max).unwrap()));
    }
    let corner = m.bound_point_motion(b.p_max).unwrap().bounds;
    assert!(motion.contains(corner.p_min) && motion.contains(corner.p_max));
}

/// A box's counts are the sums over its corners; without a search there are none.
#[test]
fn examined_intervals() {
    let m = quarter_turn();
    let b = Bounds { p_min: [0.0, -0.5, 0.0], p_max: [12.0, 0.5, 0.25] };
    let mut sums = [0; 3];
    for i in 0..8 {
        let corner = [0, 1, 2].map(|axis| if i >> axis & 1 == 0 { b.p_min[axis] } else { b.p_max[axis] });
        let examined = m.bound_point_motion(corner).unwrap().examined;
        sums = [0, 1, 2].map(|axis| sums[axis] + examined[axis]);
    }
    assert!(sums.iter().all(|n| (8..=8 * 511).contains(n)));
    assert_eq!(m.motion_bounds(&b).unwrap().examined, sums);
    // A move without rotation: its box is that of its poses, but a point is searched, and each axis drops 0 to 1 at once.
    assert_eq!(a().motion_bounds(&b).unwrap().examined, [0; 3]);
    assert_eq!(a().bound_point_motion(b.p_max).unwrap().examined, [1; 3]);
    let still = built(0.0, IDENTITY, 1.0, IDENTITY).unwrap();
    assert_eq!(still.bound_point_motion(b.p_max).unwrap().examined, [0; 3]);
}

#[test]
fn ninth_zero() {
    let entry = f32::from_bits;
    let end = [
        [entry(0x3f7f20ae), entry(0xbd2ea87d), 0.0, entry(0x3ea238f7)],
        [entry(0x3dae7ac6), entry(0x3f7fd34d), 0.0, 0.0],
        [0.0, 0.0, 1.0, 0.0],
        [0.0, 0.0, 0.0, 1.0],
    ];
    let m = built(0.0, IDENTITY, 1.0, end).unwrap();
    assert_eq!(m.bound_point_motion([0.0, entry(0x40edcb23), 0.0]), Err(Refusal::NinthZero));
}
