//! The private parts of an `AnimatedTransform`, for the answers. A child module sees them, so that the original's visibility stays as it is.

use super::*;

/// The fields of a move, by value.
#[derive(Debug, Clone)]
pub struct Fields {
    pub start: Transform,
    pub end: Transform,
    pub start_time: Float,
    pub end_time: Float,
    pub actually_animated: bool,
    pub has_rotation: bool,
    pub t: [Vector3f; 2],
    pub r: [Quaternion; 2],
    pub s: [Matrix4x4; 2],
    /// c1 to c5, each for x, y and z, each kc kx ky kz.
    pub c: [[[Float; 4]; 3]; 5],
}

impl AnimatedTransform {
    pub fn fields(&self) -> Fields {
        Fields {
            start: *self.start_transform,
            end: *self.end_transform,
            start_time: self.start_time,
            end_time: self.end_time,
            actually_animated: self.actually_animated,
            has_rotation: self.has_rotation,
            t: self.t,
            r: self.r,
            s: self.s,
            c: [self.c1, self.c2, self.c3, self.c4, self.c5].map(|c| c.map(|axis| [axis.kc, axis.kx, axis.ky, axis.kz])),
        }
    }

    /// The five terms of an axis at a point, as `bound_point_motion` evaluates them.
    pub fn terms(&self, axis: usize, p: &Point3f) -> [Float; 5] {
        [&self.c1, &self.c2, &self.c3, &self.c4, &self.c5].map(|c| c[axis].eval(p))
    }
}

/// A search of depth 8 has so many leaves, each of which stores at most one zero.
pub const LEAVES: usize = 256;

/// The original's search from 0 to 1 at depth 8, with room for every zero: more than eight would have ended the original.
pub fn find_zeros(c: [Float; 5], theta: Float) -> (usize, [Float; LEAVES]) {
    let mut zeros = [0.0; LEAVES];
    let mut count = 0;
    interval_find_zeros(c[0], c[1], c[2], c[3], c[4], theta, Interval::new(0.0, 1.0), &mut zeros, &mut count, 8);
    (count, zeros)
}
