//! Document 01's numbers around the original's calls. Each function walks the original's steps as far as a refusal may be met in them, in the
//! order in which document 01 judges; where nothing is refused it calls the original and insists that both have the same bits.

use crate::core::geometry::bounds::Bounds3f;
use crate::core::geometry::point::Point3f;
use crate::core::geometry::vector::Vector3f;
use crate::core::pbrt::{clamp, lerp};
use crate::core::quaternion::{slerp, Quaternion};
use crate::core::transform::fields::{find_zeros, Fields};
use crate::core::transform::{AnimatedTransform, Matrix4x4, Transform};
use crate::refusal::*;
use crate::{angles, cover, log};
use std::sync::Arc;

/// A value, or a refusal number.
pub type Judged<T> = Result<T, u8>;

/// How a move or a chain is built.
#[derive(Debug, Clone, Copy, PartialEq, Eq)]
pub enum Kind {
    Plain,
    /// With the identity in place of S. The original has no such kind: of a rigid move it gives the coefficients alone.
    Rigid,
}

/// A built move: the original's own, and its fields.
#[derive(Debug, Clone)]
pub struct Move {
    pub kind: Kind,
    pub original: AnimatedTransform,
    pub fields: Fields,
    /// Of the start and the end: the original knows none.
    pub pads: [f32; 2],
}

/// A motion box, and how many intervals were examined for it on each axis.
#[derive(Debug, Clone, Copy)]
pub struct MotionBounds {
    pub bounds: Bounds3f,
    pub examined: [u32; 3],
}

pub fn point_values(p: &Point3f) -> [f32; 3] {
    [p.x, p.y, p.z]
}

pub fn vector_values(v: &Vector3f) -> [f32; 3] {
    [v.x, v.y, v.z]
}

pub fn quaternion_values(q: &Quaternion) -> [f32; 4] {
    [q.v.x, q.v.y, q.v.z, q.w]
}

pub fn bounds_values(b: &Bounds3f) -> [f32; 6] {
    [b.p_min.x, b.p_min.y, b.p_min.z, b.p_max.x, b.p_max.y, b.p_max.z]
}

pub fn finite(values: &[f32]) -> Judged<()> {
    if values.iter().all(|x| x.is_finite()) {
        Ok(())
    } else {
        Err(NOT_FINITE)
    }
}

pub fn finite_matrix(m: &Matrix4x4) -> Judged<()> {
    finite(m.m.as_flattened())
}

/// Both have the same bits, any NaN being any NaN.
fn same(ours: &[f32], original: &[f32]) -> bool {
    let pair = |(a, b): (&f32, &f32)| a.to_bits() == b.to_bits() || a.is_nan() && b.is_nan();
    ours.len() == original.len() && ours.iter().zip(original).all(pair)
}

fn same_matrix(ours: &Matrix4x4, original: &Matrix4x4) -> bool {
    same(ours.m.as_flattened(), original.m.as_flattened())
}

/// The original's Gauss-Jordan steps, left at a zero pivot before its division.
fn gauss_jordan(m: &Matrix4x4) -> Judged<Matrix4x4> {
    let mut a = m.m;
    let mut used = [0; 4];
    let mut places = [(0, 0); 4];
    for place in &mut places {
        let (mut row, mut column, mut big) = (0, 0, 0.0);
        for j in (0..4).filter(|j| used[*j] != 1) {
            for k in (0..4).filter(|k| used[*k] == 0) {
                if a[j][k].abs() >= big {
                    (row, column, big) = (j, k, a[j][k].abs());
                }
            }
        }
        used[column] += 1;
        a.swap(row, column);
        *place = (row, column);
        if a[column][column] == 0.0 {
            return Err(ZERO_PIVOT);
        }
        let reciprocal = 1.0 / a[column][column];
        a[column][column] = 1.0;
        a[column] = a[column].map(|x| x * reciprocal);
        let pivot_row = a[column];
        for j in (0..4).filter(|j| *j != column) {
            let factor = a[j][column];
            a[j][column] = 0.0;
            for k in 0..4 {
                a[j][k] -= pivot_row[k] * factor;
            }
        }
    }
    for (row, column) in places.into_iter().rev() {
        for line in &mut a {
            line.swap(row, column);
        }
    }
    Ok(Matrix4x4 { m: a })
}

/// 4 at a zero pivot, 5 as the last entry is written. The original's own test of the pivot must tell the same.
pub fn inverse(m: &Matrix4x4) -> Judged<Matrix4x4> {
    let ours = gauss_jordan(m);
    log::take_zero_pivot();
    let original = Matrix4x4::inverse(m);
    assert_eq!(log::take_zero_pivot(), ours.is_err(), "a zero pivot of {m:?}");
    let ours = ours?;
    assert!(same_matrix(&ours, &original), "the inverse of {m:?}: {ours:?}, the original {original:?}");
    finite_matrix(&original)?;
    Ok(original)
}

/// Translation, rotation and S of a matrix.
#[derive(Debug, Clone, Copy)]
pub struct Parts {
    pub t: Vector3f,
    pub r: Quaternion,
    pub s: Matrix4x4,
}

impl Parts {
    fn same(&self, other: &Parts) -> bool {
        same(&vector_values(&self.t), &vector_values(&other.t))
            && same(&quaternion_values(&self.r), &quaternion_values(&other.r))
            && same_matrix(&self.s, &other.s)
    }
}

/// Each polar round's inverse and matrix, the inverse inside `from_matrix`, the quaternion, the inverse for S, S; of a rigid move no S, but the identity.
pub fn decompose(kind: Kind, m: &Matrix4x4) -> Judged<Parts> {
    let mut r = Matrix4x4::default();
    for i in 0..3 {
        r.m[i][..3].copy_from_slice(&m.m[i][..3]);
    }
    let mut rounds = 0;
    loop {
        let inverse_transpose = inverse(&Matrix4x4::transpose(&r))?;
        let mut next = Matrix4x4::default();
        let mut norm = 0.0f32;
        for i in 0..4 {
            for j in 0..4 {
                next.m[i][j] = 0.5 * (r.m[i][j] + inverse_transpose.m[i][j]);
            }
        }
        finite_matrix(&next)?;
        for i in 0..3 {
            let moved = |j: usize| (r.m[i][j] - next.m[i][j]).abs();
            norm = norm.max(moved(0) + moved(1) + moved(2));
        }
        r = next;
        rounds += 1;
        if rounds >= 100 || norm <= 0.0001 {
            break;
        }
    }
    let rotation = Quaternion::from(Transform::from_matrices(&r, &inverse(&r)?));
    finite(&quaternion_values(&rotation))?;
    let scale = match kind {
        Kind::Plain => Matrix4x4::mul(&inverse(&r)?, m),
        Kind::Rigid => Matrix4x4::default(),
    };
    finite_matrix(&scale)?;

    let ours = Parts { t: Vector3f::new(m.m[0][3], m.m[1][3], m.m[2][3]), r: rotation, s: scale };
    let mut original = Parts { t: Vector3f::default(), r: Quaternion::default(), s: Matrix4x4::default() };
    AnimatedTransform::decompose(m, &mut original.t, &mut original.r, &mut original.s);
    if kind == Kind::Rigid {
        original.s = scale;
    }
    assert!(ours.same(&original), "the parts of {m:?}: {ours:?}, the original {original:?}");
    Ok(original)
}

/// 2 of a matrix: either zero will do.
pub fn check_bottom_row(m: &Matrix4x4) -> Judged<()> {
    if m.m[3] == [0.0, 0.0, 0.0, 1.0] {
        Ok(())
    } else {
        Err(BOTTOM_ROW)
    }
}

/// Of a matrix of a rigid move 17, then 18.
pub fn check_rigid(m: &Matrix4x4) -> Judged<()> {
    let column = |j: usize| Vector3f::new(m.m[0][j], m.m[1][j], m.m[2][j]);
    let near_zero = |i: usize, j: usize| column(i).dot(&column(j)).abs() <= 0.001;
    let has_scale = Transform::from_matrices(m, &Matrix4x4::default()).has_scale();
    if has_scale || !(near_zero(0, 1) && near_zero(0, 2) && near_zero(1, 2)) {
        return Err(NOT_RIGID);
    }
    let [[a, b, c, _], [d, e, f, _], [g, h, i, _], _] = m.m;
    let determinant = a * (e * i - f * h) - b * (d * i - f * g) + c * (d * h - e * g);
    if determinant > 0.0 {
        Ok(())
    } else {
        Err(DETERMINANT)
    }
}

/// 1, 2, 3; of a rigid move 17 and 18, pose by pose; both inverses; start parts, end parts; the dot product before and after the flip; with rotation, the
/// perpendicular quaternion and the coefficients.
pub fn build(kind: Kind, start_time: f32, start: &Matrix4x4, end_time: f32, end: &Matrix4x4) -> Judged<Move> {
    if finite(&[start_time, end_time]).and(finite_matrix(start)).and(finite_matrix(end)).is_err() {
        return Err(POSE_NOT_FINITE);
    }
    check_bottom_row(start).and(check_bottom_row(end))?;
    if end_time < start_time || !(end_time - start_time).is_finite() {
        return Err(TIMES);
    }
    if kind == Kind::Rigid {
        check_rigid(start).and_then(|()| check_rigid(end))?;
    }
    let inverses = [inverse(start)?, inverse(end)?];
    let mut parts = [decompose(kind, start)?, decompose(kind, end)?];
    let dot = parts[0].r.dot(&parts[1].r);
    finite(&[dot])?;
    if dot < 0.0 {
        parts[1].r = -parts[1].r;
    }
    let dot = parts[0].r.dot(&parts[1].r);
    finite(&[dot])?;

    let poses = [start, end].map(|m| Arc::new(Transform::from_matrix(m)));
    let original = log::telling(kind == Kind::Rigid, || AnimatedTransform::new(poses[0].clone(), poses[1].clone(), start_time, end_time));
    let fields = original.fields();
    for i in 0..2 {
        let theirs = Parts { t: fields.t[i], r: fields.r[i], s: fields.s[i] };
        assert!(parts[i].same(&theirs), "the parts in a move: {:?}, the original {theirs:?}", parts[i]);
        let pose = [&fields.start, &fields.end][i];
        assert!(same_matrix(&inverses[i], &pose.m_inv));
    }
    assert_eq!(fields.has_rotation, dot < 0.9995);
    if fields.has_rotation {
        let perpendicular = (parts[1].r - parts[0].r * dot).normalize();
        finite(&quaternion_values(&perpendicular))?;
    }
    finite(fields.c.as_flattened().as_flattened())?;
    Ok(Move { kind, original, fields, pads: [0.0; 2] })
}

impl Move {
    /// The stored transform that stands for a time, if one does.
    fn stored(&self, time: f32) -> Option<&Transform> {
        if !self.fields.actually_animated || time <= self.fields.start_time {
            Some(&self.fields.start)
        } else if time >= self.fields.end_time {
            Some(&self.fields.end)
        } else {
            None
        }
    }

    /// Document 02's pad at a time: lerp of the two between the end times, that pose's own before and after, and the larger throughout where the poses are equal.
    pub fn pad(&self, time: f32) -> Judged<f32> {
        let Fields { start_time, end_time, actually_animated, .. } = self.fields;
        let [start, end] = self.pads;
        if time.is_nan() {
            return Err(QUERY);
        }
        let pad = if !actually_animated {
            self.larger_pad()
        } else if time <= start_time {
            start
        } else if time >= end_time {
            end
        } else {
            lerp((time - start_time) / (end_time - start_time), start, end)
        };
        finite(&[pad])?;
        Ok(pad)
    }

    pub fn larger_pad(&self) -> f32 {
        let [start, end] = self.pads;
        if start < end {
            end
        } else {
            start
        }
    }

    /// Document 02's cover of a box. With pads of +0 document 01's is asked for, which grows nothing: it must be the same.
    pub fn cover(&self, b: &[f32; 6], depth: u64) -> Judged<[f32; 6]> {
        if self.pads.iter().all(|pad| pad.to_bits() == 0) {
            cover::cover(self, b, depth)
        } else {
            cover::padded_cover(self, b, depth)
        }
    }

    /// The steps of `interpolate` between the end times: quaternion, scale, translation, rotation, first product, the scale's inverse, last product.
    /// The scale of a rigid move is the identity. Without `inverse_half` that half is not judged and stays as it is.
    fn interpolated(&self, time: f32, inverse_half: bool) -> Judged<Transform> {
        let Fields { t, r, s, start_time, end_time, .. } = &self.fields;
        let dt = (time - start_time) / (end_time - start_time);
        let translation = Transform::translate(&(t[0] * (1.0 - dt) + t[1] * dt));
        let rotation = slerp(&r[0], &r[1], dt);
        finite(&quaternion_values(&rotation))?;
        let mut scale = Matrix4x4::default();
        if self.kind == Kind::Plain {
            for i in 0..3 {
                for j in 0..3 {
                    scale.m[i][j] = lerp(dt, s[0].m[i][j], s[1].m[i][j]);
                }
            }
        }
        finite_matrix(&scale)?;
        finite_matrix(&translation.m)?;
        let rotation = Transform::from(rotation);
        finite_matrix(&rotation.m)?;
        let first = translation * rotation;
        finite_matrix(&first.m)?;
        let scale = if inverse_half {
            finite_matrix(&first.m_inv)?;
            Transform::from_matrices(&scale, &inverse(&scale)?)
        } else {
            Transform::from_matrix(&scale)
        };
        let last = first * scale;
        finite_matrix(&last.m)?;
        if inverse_half {
            finite_matrix(&last.m_inv)?;
        }
        Ok(last)
    }

    pub fn interpolate(&self, time: f32) -> Judged<Transform> {
        if time.is_nan() {
            return Err(QUERY);
        }
        let ours = match self.stored(time) {
            Some(transform) => *transform,
            None => self.interpolated(time, true)?,
        };
        if self.kind == Kind::Rigid {
            return Ok(ours);
        }
        let mut original = Transform::default();
        self.original.interpolate(time, &mut original);
        assert!(same_matrix(&ours.m, &original.m) && same_matrix(&ours.m_inv, &original.m_inv), "the pose at {time:?}");
        Ok(original)
    }

    /// A point query after its checks: the matrix half alone.
    fn moved(&self, time: f32, p: &Point3f) -> Judged<Point3f> {
        let ours = match self.stored(time) {
            Some(transform) => *transform,
            None => self.interpolated(time, false)?,
        };
        let ours = ours.transform_point(p);
        finite(&point_values(&ours))?;
        if self.kind == Kind::Rigid {
            return Ok(ours);
        }
        let original = self.original.transform_point(time, p);
        assert!(same(&point_values(&ours), &point_values(&original)), "{p:?} moved at {time:?}");
        Ok(original)
    }

    pub fn transform_point(&self, time: f32, p: &Point3f) -> Judged<Point3f> {
        if time.is_nan() || finite(&point_values(p)).is_err() {
            return Err(QUERY);
        }
        self.moved(time, p)
    }

    /// The moved points in the original's order, each judged as it is met; a ninth zero as its axis is searched.
    /// The original's own run, of a plain move, must examine as many intervals.
    fn point_motion(&self, p: &Point3f) -> Judged<MotionBounds> {
        let f = &self.fields;
        let mut examined = [0; 3];
        let start = f.start.transform_point(p);
        finite(&point_values(&start))?;
        let mut ours = Bounds3f::from_point(&start);
        if f.actually_animated {
            let end = f.end.transform_point(p);
            finite(&point_values(&end))?;
            ours = ours.union_point(&end);
            let theta = angles::acos(clamp(f.r[0].dot(&f.r[1]), -1.0, 1.0));
            for axis in 0..3 {
                log::take_examined();
                let (_, zeros) = zeros(self.original.terms(axis, p), theta)?;
                examined[axis] = log::take_examined();
                for zero in zeros {
                    ours = ours.union_point(&self.moved(lerp(zero, f.start_time, f.end_time), p)?);
                }
            }
        }
        if self.kind == Kind::Plain {
            log::take_examined();
            let original = self.original.bound_point_motion(p);
            assert_eq!(log::take_examined(), examined.iter().sum::<u32>(), "the intervals examined for {p:?}");
            assert_eq!(ours, original, "the motion of {p:?}");
            ours = original;
        }
        assert!(!log::take_out_of_range(), "a range assertion fails for {p:?} of {f:?}");
        Ok(MotionBounds { bounds: ours, examined })
    }

    pub fn bound_point_motion(&self, p: &Point3f) -> Judged<MotionBounds> {
        if finite(&point_values(p)).is_err() {
            return Err(QUERY);
        }
        log::take_out_of_range();
        self.point_motion(p)
    }

    pub fn motion_bounds(&self, b: &Bounds3f) -> Judged<MotionBounds> {
        check_bounds(b)?;
        log::take_out_of_range();
        let f = &self.fields;
        let mut ours = Bounds3f::default();
        let mut examined = [0; 3];
        for i in 0..8 {
            let corner = b.corner(i);
            ours = ours.union_bounds(&if f.has_rotation && f.actually_animated {
                let motion = self.point_motion(&corner)?;
                for axis in 0..3 {
                    examined[axis] += motion.examined[axis];
                }
                motion.bounds
            } else {
                let ends = [&f.start, &f.end].map(|pose| pose.transform_point(&corner));
                finite(&point_values(&ends[0]))?;
                if f.actually_animated {
                    finite(&point_values(&ends[1]))?;
                    Bounds3f::from_points(ends[0], ends[1])
                } else {
                    Bounds3f::from_point(&ends[0])
                }
            });
        }
        if self.kind == Kind::Plain {
            log::take_examined();
            let original = self.original.motion_bounds(b);
            assert_eq!(log::take_examined(), examined.iter().sum::<u32>(), "the intervals examined for {b:?}");
            assert_eq!(ours, original, "the motion of {b:?}");
            ours = original;
        }
        Ok(MotionBounds { bounds: ours, examined })
    }
}

/// A transform's matrix half over a box: 5 where a corner's wp is zero, which the original asserts against, or a moved corner isn't finite.
pub fn transform_bounds(m: &Matrix4x4, b: &Bounds3f) -> Judged<Bounds3f> {
    let transform = Transform::from_matrices(m, &Matrix4x4::default());
    for i in 0..8 {
        let p = b.corner(i);
        let [r0, r1, r2, r3] = m.m[3];
        if p.x * r0 + p.y * r1 + p.z * r2 + r3 == 0.0 {
            return Err(NOT_FINITE);
        }
        finite(&point_values(&transform.transform_point(&p)))?;
    }
    Ok(transform.transform_bounds(b))
}

/// 6, then 7, of a box that a query brings.
pub fn check_bounds(b: &Bounds3f) -> Judged<()> {
    if finite(&bounds_values(b)).is_err() {
        Err(QUERY)
    } else if b.p_min.x > b.p_max.x || b.p_min.y > b.p_max.y || b.p_min.z > b.p_max.z {
        Err(CORNERS)
    } else {
        Ok(())
    }
}

/// The zeros of one search and how many were stored; unused places are 0.
pub fn zeros(c: [f32; 5], theta: f32) -> Judged<(usize, [f32; 8])> {
    let (count, zeros) = find_zeros(c, theta);
    if count > 8 {
        return Err(NINTH_ZERO);
    }
    Ok((count, zeros[..8].try_into().unwrap()))
}

#[cfg(test)]
mod tests {
    use super::*;

    fn rows(bits: [u32; 12]) -> Matrix4x4 {
        let mut m = Matrix4x4::default();
        for (i, x) in bits.into_iter().enumerate() {
            m.m[i / 4][i % 4] = f32::from_bits(x);
        }
        m
    }

    fn diagonal(x: f32, y: f32, z: f32) -> Matrix4x4 {
        let mut m = Matrix4x4::default();
        (m.m[0][0], m.m[1][1], m.m[2][2]) = (x, y, z);
        m
    }

    /// The original ends at its ninth zero; here that is 9.
    #[test]
    fn ninth_zero() {
        let one = 0x3f80_0000;
        let end = rows([0x3f7f20ae, 0xbd2ea87d, 0, 0x3ea238f7, 0x3dae7ac6, 0x3f7fd34d, 0, 0, 0, 0, one, 0]);
        let m = build(Kind::Plain, 0.0, &Matrix4x4::default(), 1.0, &end).unwrap();
        let p = Point3f::new(0.0, f32::from_bits(0x40ed_cb23), 0.0);
        assert_eq!(m.bound_point_motion(&p).unwrap_err(), NINTH_ZERO);
        let ended = std::panic::catch_unwind(|| m.original.bound_point_motion(&p)).unwrap_err();
        assert_eq!(ended.downcast_ref::<String>().unwrap(), "index out of bounds: the len is 8 but the index is 8");
    }

    #[test]
    fn zero_pivot_comes_before_what_is_not_finite() {
        let huge = diagonal(f32::MAX, f32::MAX, 0.0);
        assert_eq!(inverse(&huge).unwrap_err(), ZERO_PIVOT);
        let subnormal = diagonal(f32::from_bits(1), 1.0, 1.0);
        assert_eq!(inverse(&subnormal).unwrap_err(), NOT_FINITE);
        // Where every candidate is a NaN the first place is chosen: a NaN there is no zero, and after an infinite pivot there is one.
        let mut m = Matrix4x4 { m: [[f32::NAN; 4]; 4] };
        assert_eq!(inverse(&m).unwrap_err(), NOT_FINITE);
        m.m[0][0] = f32::INFINITY;
        assert_eq!(inverse(&m).unwrap_err(), ZERO_PIVOT);
    }

    #[test]
    fn building_in_order() {
        let identity = Matrix4x4::default();
        let mut first = diagonal(f32::INFINITY, 1.0, 1.0);
        first.m[3][0] = 1.0;
        let mut second = diagonal(0.0, 0.0, 0.0);
        second.m[3][3] = 2.0;
        let number = |t0, m0: &Matrix4x4, t1, m1: &Matrix4x4| build(Kind::Plain, t0, m0, t1, m1).err();
        assert_eq!(number(0.0, &first, -1.0, &second), Some(POSE_NOT_FINITE));
        assert_eq!(number(0.0, &identity, -1.0, &second), Some(BOTTOM_ROW));
        second.m[3] = [-0.0, 0.0, -0.0, 1.0];
        assert_eq!(number(0.0, &identity, -1.0, &second), Some(TIMES));
        assert_eq!(number(-3e38, &identity, 3e38, &identity), Some(TIMES));
        assert_eq!(number(0.0, &identity, 0.0, &second), Some(ZERO_PIVOT));
        assert_eq!(number(0.0, &diagonal(f32::from_bits(1), 1.0, 1.0), 0.0, &second), Some(NOT_FINITE));
        assert_eq!(number(0.0, &identity, 0.0, &identity), None);
    }

    /// One row is so much greater than the others that S has no inverse in floats on the way; a point is still answered.
    #[test]
    fn point_query_never_gives_4() {
        let start = diagonal(0.996934, 0.995557, 0.990563);
        let end = rows([
            0x5a4f052f, 0xd8c2f967, 0xd9bcebc1, 0x3f400000, 0xbf639b01, 0x415e971e, 0xc0b136c6, 0xbf800000, 0x40ca9f61, 0x40ac0cd1, 0x4147d6d8, 0x40800000,
        ]);
        let m = build(Kind::Plain, 0.0, &start, 1.0, &end).unwrap();
        let time = 0.6575561;
        assert_eq!(m.interpolate(time).unwrap_err(), ZERO_PIVOT);
        assert!(m.transform_point(time, &Point3f::new(1.0, 2.0, 3.0)).is_ok());
    }

    fn turned(angle: f32) -> Matrix4x4 {
        let (sin, cos) = (angles::sin(angle), angles::cos(angle));
        let mut m = Matrix4x4::default();
        (m.m[0], m.m[1]) = ([cos, -sin, 0.0, 0.0], [sin, cos, 0.0, 0.0]);
        m
    }

    /// Squares from 0.999 to 1.001 and a dot product of 0.001 pass, each with its end.
    #[test]
    fn rigid_poses() {
        assert_eq!(check_rigid(&turned(0.7)), Ok(()));
        assert_eq!(check_rigid(&diagonal(1.001, 1.0, 1.0)), Err(NOT_RIGID));
        assert_eq!(check_rigid(&diagonal(1.0, 0.999, 1.0)), Err(NOT_RIGID));
        assert_eq!(check_rigid(&diagonal(-1.0, 1.0, 1.0)), Err(DETERMINANT));
        assert_eq!(check_rigid(&diagonal(-1.0, 1.0, 2.0)), Err(NOT_RIGID));
        assert_eq!(check_rigid(&diagonal(-1.0, -1.0, 1.0)), Ok(()));
        for (i, j) in [(0, 1), (0, 2), (1, 2), (1, 0), (2, 0), (2, 1)] {
            let mut sheared = Matrix4x4::default();
            for sign in [1.0, -1.0] {
                sheared.m[i][j] = sign * 0.001;
                assert_eq!(check_rigid(&sheared), Ok(()));
                sheared.m[i][j] = sign * 0.001f32.next_up();
                assert_eq!(check_rigid(&sheared), Err(NOT_RIGID));
            }
        }
    }

    /// 17 and 18 are judged pose by pose, after 3 and before 4; a rigid move has the identity for S wherever it has one.
    #[test]
    fn rigid_moves() {
        let number = |t1: f32, start: &Matrix4x4, end: &Matrix4x4| build(Kind::Rigid, 0.0, start, t1, end).err();
        let (mirror, flat) = (diagonal(-1.0, 1.0, 1.0), diagonal(1.0, 1.0, 0.0));
        assert_eq!(number(1.0, &mirror, &flat), Some(DETERMINANT));
        assert_eq!(number(1.0, &flat, &mirror), Some(NOT_RIGID));
        assert_eq!(number(-1.0, &flat, &mirror), Some(TIMES));
        let mut end = turned(0.7);
        end.m[0][1] += 0.0005;
        end.m[0][3] = 3.0;
        let [plain, rigid] = [Kind::Plain, Kind::Rigid].map(|kind| build(kind, 0.0, &turned(0.1), 1.0, &end).unwrap());
        assert!(!same_matrix(&plain.fields.s[1], &Matrix4x4::default()));
        assert!(rigid.fields.s.iter().all(|s| same_matrix(s, &Matrix4x4::default())));
        assert!(same_matrix(&rigid.fields.end.m, &end));
        assert_ne!(plain.fields.c, rigid.fields.c);
        // Nearly a rotation in between, and the stored poses at the ends.
        let half = rigid.interpolate(0.5).unwrap();
        assert_eq!(check_rigid(&half.m), Ok(()));
        assert!(same_matrix(&rigid.interpolate(1.0).unwrap().m, &end));
        let cover = rigid.cover(&[1.0, 0.0, 0.0, 1.0, 0.0, 0.0], 6).unwrap();
        let p = point_values(&rigid.transform_point(0.5, &Point3f::new(1.0, 0.0, 0.0)).unwrap());
        assert!((0..3).all(|i| cover[i] <= p[i] && p[i] <= cover[i + 3]));
    }
}
