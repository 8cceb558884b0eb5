//! Moves and questions, the same for the same seed, and the same for both sides.

use jellyplain::{Bounds, Matrix, Move, Pose};
use oracle::core::geometry::bounds::Bounds3f;
use oracle::core::geometry::point::Point3f;
use oracle::core::transform::Matrix4x4;
use oracle::cover::cover;
use oracle::judged;

/// splitmix64.
pub struct Random(pub u64);

impl Random {
    /// From 0 to 1.
    pub fn unit(&mut self) -> f32 {
        self.0 = self.0.wrapping_add(0x9e37_79b9_7f4a_7c15);
        let mut z = self.0;
        z = (z ^ z >> 30).wrapping_mul(0xbf58_476d_1ce4_e5b9);
        z = (z ^ z >> 27).wrapping_mul(0x94d0_49bb_1331_11eb);
        ((z ^ z >> 31) >> 40) as f32 / 16_777_216.0
    }

    pub fn between(&mut self, low: f32, high: f32) -> f32 {
        low + (high - low) * self.unit()
    }

    fn array<const N: usize>(&mut self, low: f32, high: f32) -> [f32; N] {
        std::array::from_fn(|_| self.between(low, high))
    }

    /// A rotation by the quaternion q, made of unit length, with a scale on each axis and a shift.
    fn matrix(&mut self, q: [f32; 4]) -> Matrix {
        let length = q.iter().map(|x| x * x).sum::<f32>().sqrt();
        let [x, y, z, w] = q.map(|component| component / length);
        let rotation = [
            [1.0 - 2.0 * (y * y + z * z), 2.0 * (x * y - w * z), 2.0 * (x * z + w * y)],
            [2.0 * (x * y + w * z), 1.0 - 2.0 * (x * x + z * z), 2.0 * (y * z - w * x)],
            [2.0 * (x * z - w * y), 2.0 * (y * z + w * x), 1.0 - 2.0 * (x * x + y * y)],
        ];
        let (scale, shift): ([f32; 3], [f32; 3]) = (self.array(0.7, 1.4), self.array(-20.0, 20.0));
        let row = |i: usize| [rotation[i][0] * scale[0], rotation[i][1] * scale[1], rotation[i][2] * scale[2], shift[i]];
        [row(0), row(1), row(2), [0.0, 0.0, 0.0, 1.0]]
    }
}

#[derive(Clone, Copy, PartialEq)]
pub enum Kind {
    /// The rotations differ so much that slerp goes by sine and cosine, and the motion box searches for zeros.
    Turning,
    /// They differ so little that slerp is linear, and the motion box is that of the two poses.
    Shifting,
}

/// A move on both sides, with questions about it that neither refuses.
pub struct Case {
    pub poses: [Pose; 2],
    pub port: Move,
    pub original: judged::Move,
    pub times: [f32; CALLS],
    pub points: [[f32; 3]; CALLS],
    pub bounds: Bounds,
}

/// How many points are asked of each move in a round.
pub const CALLS: usize = 16;

pub fn original_matrix(m: &Matrix) -> Matrix4x4 {
    Matrix4x4 { m: *m }
}

pub fn original_point(p: &[f32; 3]) -> Point3f {
    Point3f::new(p[0], p[1], p[2])
}

pub fn original_bounds(b: &Bounds) -> Bounds3f {
    Bounds3f { p_min: original_point(&b.p_min), p_max: original_point(&b.p_max) }
}

pub fn cases(kind: Kind, count: usize, random: &mut Random) -> Vec<Case> {
    let mut cases = Vec::new();
    while cases.len() < count {
        let q: [f32; 4] = random.array(-1.0, 1.0);
        let spread = if kind == Kind::Turning { 1.0 } else { 0.01 };
        let turn: [f32; 4] = random.array(-spread, spread);
        let matrices = [random.matrix(q), random.matrix(std::array::from_fn(|i| q[i] + turn[i]))];
        let start = random.between(0.0, 100.0);
        let times = [start, start + random.between(1.0, 60.0)];
        let poses = [0, 1].map(|i| Pose { time: times[i], matrix: matrices[i], pad: 0.0 });
        let (Ok(port), Ok(original)) = (
            Move::new(&poses[0], &poses[1]),
            judged::build(judged::Kind::Plain, times[0], &original_matrix(&matrices[0]), times[1], &original_matrix(&matrices[1])),
        ) else {
            continue;
        };
        let corner: [f32; 3] = random.array(-10.0, 10.0);
        let size: [f32; 3] = random.array(0.1, 10.0);
        let bounds = Bounds { p_min: corner, p_max: std::array::from_fn(|i| corner[i] + size[i]) };
        let points = std::array::from_fn(|_| std::array::from_fn(|i| corner[i] + size[i] * random.unit()));
        let times = std::array::from_fn(|_| random.between(times[0], times[1]));
        let case = Case { poses, port, original, times, points, bounds };
        if case.original.fields.has_rotation == (kind == Kind::Turning) && case.answers_agree() {
            cases.push(case);
        }
    }
    cases
}

fn same_bits(a: &[f32], b: &[f32]) -> bool {
    a.iter().zip(b).all(|(x, y)| x.to_bits() == y.to_bits())
}

impl Case {
    /// Neither side refuses a question of this case. Where the two answers differ, the program ends.
    fn answers_agree(&self) -> bool {
        for (time, p) in self.times.iter().zip(&self.points) {
            let (Ok(port), Ok(original)) = (self.port.point(*time, *p), self.original.transform_point(*time, &original_point(p))) else { return false };
            assert!(same_bits(&port, &judged::point_values(&original)), "{p:?} at {time}: {port:?}, the original {original:?}");
            let (Ok(port), Ok(original)) = (self.port.interpolate(*time), self.original.interpolate(*time)) else { return false };
            assert!(same_bits(port.matrix.as_flattened(), original.m.m.as_flattened()), "the transform at {time}");
            assert!(same_bits(port.inverse.as_flattened(), original.m_inv.m.as_flattened()), "the inverse at {time}");
        }
        let (Ok(port), Ok(original)) = (self.port.motion_bounds(&self.bounds), self.original.motion_bounds(&original_bounds(&self.bounds))) else {
            return false;
        };
        assert_eq!(array(&port.bounds), judged::bounds_values(&original.bounds), "the motion box of {:?}", self.bounds);
        assert_eq!(port.examined, original.examined, "the intervals examined for {:?}", self.bounds);
        let (Ok(port), Ok(second)) = (self.port.cover(&self.bounds, 8), cover(&self.original, &array(&self.bounds), 8)) else { return false };
        assert!(same_bits(&array(&port), &second), "the cover of {:?}: {port:?}, the second implementation's {second:?}", self.bounds);
        true
    }
}

pub fn array(b: &Bounds) -> [f32; 6] {
    let ([x0, y0, z0], [x1, y1, z1]) = (b.p_min, b.p_max);
    [x0, y0, z0, x1, y1, z1]
}
