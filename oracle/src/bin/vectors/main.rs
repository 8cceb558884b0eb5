//! `vectors KIND COUNT SEED` prints questions of a kind: first the fixed rows at the edges, then COUNT random cases, the same for the same seed.
//! A case is one question, or a move or chain with the questions that are put to it. Only sums, products, quotients and roots make the numbers, so that
//! every machine makes the same, but for the bits of a NaN.

mod chains;
mod days;
mod joins;
mod reach;
mod rigid;
mod rows;
mod sets;
mod stretches;
mod texts;
mod trials;
mod windows;

use oracle::angles;
use oracle::core::geometry::point::Point3f;
use oracle::core::transform::fields::find_zeros;
use oracle::core::transform::Matrix4x4;
use oracle::judged::{self, Kind};
use std::io::{self, BufWriter, Write};

/// Floats at the edges of the format, of rounding and of the tests in the original.
#[rustfmt::skip]
const EDGES: &[u32] = &[
    0x0000_0000, 0x8000_0000, 0x0000_0001, 0x8000_0001, 0x007f_ffff, 0x807f_ffff, 0x0080_0000, 0x8080_0000, 0x0080_0001, 0x0100_0000, // zeros, subnormals, least normals
    0x7f7f_ffff, 0xff7f_ffff, 0x7f7f_fffe, 0x7e80_0000, 0x7f00_0000, 0xff00_0000, 0x5f80_0000, 0x1f80_0000, // greatest, and squares that just overflow or underflow
    0x7f80_0000, 0xff80_0000, 0x7fc0_0000, 0xffc0_0000, 0x7f80_0001, 0xffff_ffff, // infinities and NaNs
    0x3f80_0000, 0xbf80_0000, 0x3f80_0001, 0x3f7f_ffff, 0xbf80_0001, 0xbf7f_ffff, 0x3f00_0000, 0xbf00_0000, 0x4000_0000, 0xc000_0000, // one and its neighbours
    0x3f7f_df3b, 0x3f7f_df3c, 0x3f7f_df3a, 0xbf7f_df3b, // 0.9995 and its neighbours
    0x4b80_0000, 0x4b7f_ffff, 0x4b80_0001, 0xcb80_0000, 0xcb7f_ffff, 0x4b00_0000, 0x4b00_0001, // 2^24 and 2^23
    0x3fc9_0fdb, 0x3fc9_0fda, 0x3fc9_0fdc, 0x4049_0fdb, 0x4049_0fda, 0x4096_cbe4, 0x40c9_0fdb, 0xbfc9_0fdb, 0xc049_0fdb, // quarter turns
    0x3180_0000, 0x317f_ffff, 0x3080_0000, 0x307f_ffff, 0xb080_0000, // 2^-28 and 2^-30
    0x3eaa_aaab, 0x3dcc_cccd, 0x4120_0000, 0x3a83_126f, 0x38d1_b717, // 1/3, 0.1, 10, 0.001, 0.0001
];

const NAN: f32 = f32::NAN;
const INFINITY: f32 = f32::INFINITY;
const IDENTITY: [f32; 16] = [1., 0., 0., 0., 0., 1., 0., 0., 0., 0., 1., 0., 0., 0., 0., 1.];
const ORIGIN: [f32; 6] = [0.0; 6];

fn power_of_two(power: i32) -> f64 {
    f64::from_bits(((power + 1023) as u64) << 52)
}

/// splitmix64.
struct Random(u64);

impl Random {
    fn next(&mut self) -> u64 {
        self.0 = self.0.wrapping_add(0x9e37_79b9_7f4a_7c15);
        let mut z = self.0;
        z = (z ^ z >> 30).wrapping_mul(0xbf58_476d_1ce4_e5b9);
        z = (z ^ z >> 27).wrapping_mul(0x94d0_49bb_1331_11eb);
        z ^ z >> 31
    }

    fn below(&mut self, n: usize) -> usize {
        (self.next() >> 11) as usize % n
    }

    fn one_in(&mut self, n: usize) -> bool {
        self.below(n) == 0
    }

    fn pick<T: Copy>(&mut self, from: &[T]) -> T {
        from[self.below(from.len())]
    }

    /// From -1 to 1, in double precision.
    fn real(&mut self) -> f64 {
        (self.next() >> 11) as f64 / (1u64 << 52) as f64 - 1.0
    }

    fn unit(&mut self) -> f32 {
        self.real() as f32
    }

    fn edge(&mut self) -> f32 {
        f32::from_bits(self.pick(EDGES))
    }

    fn pattern(&mut self) -> f32 {
        f32::from_bits(self.next() as u32)
    }

    /// Either sign, a power of two in the range, and a significand that is often short.
    fn size(&mut self, low: i32, high: i32) -> f32 {
        let significand = match self.below(4) {
            0 => 0,
            1 => (self.next() as u32 & 0x7) << 20,
            _ => self.next() as u32 & 0x7f_ffff,
        };
        let power = low + self.below((high - low + 1) as usize) as i32;
        let size = f64::from(significand | 0x80_0000) / f64::from(0x80_0000) * power_of_two(power);
        let size = size as f32;
        if self.one_in(2) {
            size
        } else {
            -size
        }
    }

    /// A whole number, half or quarter of small size.
    fn small(&mut self) -> f32 {
        (self.below(17) as f32 - 8.0) / self.pick(&[1.0, 1.0, 2.0, 4.0])
    }

    /// Neighbours of a float, some places up or down.
    fn near(&mut self, x: f32) -> f32 {
        let mut near = x;
        for _ in 0..self.below(4) {
            near = near.next_up();
        }
        for _ in 0..self.below(4) {
            near = near.next_down();
        }
        near
    }

    fn number(&mut self) -> f32 {
        match self.below(8) {
            0 => self.edge(),
            1 => self.pattern(),
            2 => self.small(),
            3 => self.size(-149, 127),
            4 => self.size(-8, 8),
            5 => {
                let x = self.edge();
                self.near(x)
            }
            _ => self.unit(),
        }
    }

    fn finite(&mut self) -> f32 {
        loop {
            let x = self.number();
            if x.is_finite() {
                return x;
            }
        }
    }

    fn numbers<const N: usize>(&mut self, mut number: impl FnMut(&mut Random) -> f32) -> [f32; N] {
        std::array::from_fn(|_| number(self))
    }
}

/// Where the questions go.
struct Questions<W: Write>(W);

impl<W: Write> Questions<W> {
    fn ask(&mut self, question: &str, values: &[&[f32]]) {
        let mut line = question.to_owned();
        for x in values.concat() {
            line += &format!(" {:08x}", x.to_bits());
        }
        self.line(&line);
    }

    fn line(&mut self, line: &str) {
        if writeln!(self.0, "{line}").is_err() {
            // The reader has gone.
            std::process::exit(1);
        }
    }

    /// A move and its parts. Tells whether it is built, so that there is something to ask of it.
    fn ask_move(&mut self, m: &Move) -> bool {
        self.ask("move", &[&[m.times[0]], &m.poses[0], &[m.times[1]], &m.poses[1]]);
        self.ask("parts", &[]);
        let [start, end] = m.poses.map(|pose| Matrix4x4::from_row_slice(&pose));
        judged::build(Kind::Plain, m.times[0], &start, m.times[1], &end).is_ok()
    }
}

/// Two poses and their times.
#[derive(Clone)]
struct Move {
    times: [f32; 2],
    poses: [[f32; 16]; 2],
}

fn from_rows(linear: [[f64; 3]; 3], translation: [f32; 3]) -> [f32; 16] {
    let mut m = IDENTITY;
    for i in 0..3 {
        for j in 0..3 {
            m[4 * i + j] = linear[i][j] as f32;
        }
        m[4 * i + 3] = translation[i];
    }
    m
}

fn times(a: [[f64; 3]; 3], b: [[f64; 3]; 3]) -> [[f64; 3]; 3] {
    std::array::from_fn(|i| std::array::from_fn(|j| (0..3).map(|k| a[i][k] * b[k][j]).sum()))
}

fn translated(x: f32, y: f32, z: f32) -> [f32; 16] {
    from_rows([[1., 0., 0.], [0., 1., 0.], [0., 0., 1.]], [x, y, z])
}

/// Poses that leave a box of -0 where it is, and then move it along x: what they make of it has zeros of -0, and a cover's are +0.
fn negative_zeros() -> [[f32; 16]; 3] {
    [translated(-0., -0., -0.), translated(-0., -0., -0.), translated(1., -0., -0.)]
}

fn diagonal(x: f32, y: f32, z: f32, w: f32) -> [f32; 16] {
    [x, 0., 0., 0., 0., y, 0., 0., 0., 0., z, 0., 0., 0., 0., w]
}

fn rotation(q: [f64; 4]) -> [[f64; 3]; 3] {
    let [x, y, z, w] = q;
    [
        [1.0 - 2.0 * (y * y + z * z), 2.0 * (x * y - w * z), 2.0 * (x * z + w * y)],
        [2.0 * (x * y + w * z), 1.0 - 2.0 * (x * x + z * z), 2.0 * (y * z - w * x)],
        [2.0 * (x * z - w * y), 2.0 * (y * z + w * x), 1.0 - 2.0 * (x * x + y * y)],
    ]
}

/// The translation along an axis that brings a point's coordinate back.
fn returning(m: &[f32; 16], p: &[f32; 3], axis: usize) -> f32 {
    p[axis] - (m[4 * axis] * p[0] + m[4 * axis + 1] * p[1] + m[4 * axis + 2] * p[2])
}

fn product(a: [f64; 4], b: [f64; 4]) -> [f64; 4] {
    let ([ax, ay, az, aw], [bx, by, bz, bw]) = (a, b);
    [aw * bx + ax * bw + ay * bz - az * by, aw * by - ax * bz + ay * bw + az * bx, aw * bz + ax * by - ay * bx + az * bw, aw * bw - ax * bx - ay * by - az * bz]
}

impl Random {
    fn direction<const N: usize>(&mut self) -> [f64; N] {
        loop {
            let mut v: [f64; N] = std::array::from_fn(|_| self.real());
            if self.one_in(4) {
                // An axis.
                v = [0.0; N];
                v[self.below(N)] = self.pick(&[1.0, -1.0]);
            }
            let length = v.iter().map(|x| x * x).sum::<f64>().sqrt();
            if length > 0.01 {
                return v.map(|x| x / length);
            }
        }
    }

    /// The quaternion of a turn about some axis, whose half has this cosine.
    fn turn(&mut self, cosine: f64) -> [f64; 4] {
        let cosine = cosine.clamp(-1.0, 1.0);
        let sine = (1.0 - cosine * cosine).sqrt();
        let [x, y, z] = self.direction::<3>();
        [x * sine, y * sine, z * sine, cosine]
    }

    /// Scalings, shears and mirrors.
    fn stretch(&mut self) -> [[f64; 3]; 3] {
        let mut s = [[1.0, 0.0, 0.0], [0.0, 1.0, 0.0], [0.0, 0.0, 1.0]];
        match self.below(10) {
            0 => {
                let factor = f64::from(self.size(-4, 4));
                s = s.map(|row| row.map(|x| x * factor));
            }
            1 => (0..3).for_each(|i| s[i][i] = f64::from(self.size(-4, 4))),
            2 => (0..3).for_each(|i| s[i][i] = 1.0 + 0.01 * self.real()),
            3 => s[self.below(3)][self.below(3)] += f64::from(self.unit()),
            4 => s = std::array::from_fn(|i| std::array::from_fn(|j| s[i][j] + 0.2 * self.real())),
            5 => {
                let i = self.below(3);
                s[i][i] = -1.0;
            }
            _ => (),
        }
        s
    }

    fn translation(&mut self) -> [f32; 3] {
        match self.below(6) {
            0 => [0.0; 3],
            1 => self.numbers(Random::small),
            2 => self.numbers(|r| r.size(-20, 20)),
            3 if self.one_in(4) => self.numbers(|r| r.size(100, 127)),
            _ => self.numbers(|r| 10.0 * r.unit()),
        }
    }

    /// A matrix of any kind.
    fn matrix(&mut self) -> [f32; 16] {
        let mut m = match self.below(16) {
            0 => self.numbers(Random::number),
            1 => self.numbers(Random::small),
            2 => self.numbers(Random::unit),
            3 => self.numbers(|r| r.size(-10, 10)),
            4 => self.numbers(|r| r.size(90, 127)),
            5 => self.numbers(|r| r.size(-149, -100)),
            6 => self.numbers(|r| r.size(-149, 127)),
            7 => self.numbers(|r| r.pick(&[1.0, -1.0])),
            8 => self.numbers(|r| r.pick(&[0.0, 0.0, -0.0, 1.0, -1.0, 2.0])),
            9 => {
                // One row or column is, but for a place or two, made of others.
                let mut m: [f32; 16] = self.numbers(Random::small);
                let (a, b, c) = (self.below(4), self.below(4), self.below(4));
                let (across, along) = self.pick(&[(4, 1), (1, 4)]);
                for k in 0..4 {
                    let sum = m[a * across + k * along] + m[b * across + k * along];
                    m[c * across + k * along] = self.near(sum);
                }
                m
            }
            10 => {
                // A column times a row.
                let (a, b): ([f32; 4], [f32; 4]) = (self.numbers(Random::unit), self.numbers(Random::unit));
                let jitter = self.pick(&[0.0, 1e-7, 1e-4]);
                std::array::from_fn(|i| a[i / 4] * b[i % 4] + jitter * self.unit())
            }
            11 => {
                // A permuted diagonal.
                let mut m = [0.0; 16];
                let first = self.below(4);
                let step = self.pick(&[1, 3]);
                for i in 0..4 {
                    m[4 * i + (first + step * i) % 4] = self.size(-60, 60);
                }
                m
            }
            _ => {
                let turned = self.direction::<4>();
                from_rows(times(rotation(turned), self.stretch()), self.translation())
            }
        };
        if self.one_in(12) {
            m[self.below(16)] = self.edge();
        }
        m
    }

    fn quaternion(&mut self) -> [f32; 4] {
        match self.below(6) {
            0 => self.numbers(Random::number),
            1 => self.numbers(Random::small),
            2 => self.numbers(|r| r.size(-80, 70)),
            _ => self.direction::<4>().map(|x| x as f32),
        }
    }

    /// A quaternion whose dot product with the first is near one of the tests' bounds.
    fn quaternion_near(&mut self, q: [f32; 4]) -> [f32; 4] {
        let dot = self.pick(&[1.0, 0.9999, 0.9995, 0.9995, 0.999, 0.5, 0.0, -0.5, -0.9995, -1.0]);
        let other = product(q.map(f64::from), self.turn(dot));
        other.map(|x| self.near(x as f32))
    }

    fn times(&mut self) -> [f32; 2] {
        match self.below(12) {
            0 => {
                let t = self.finite();
                [t, t]
            }
            1 => [self.finite(), self.finite()],
            2 => [self.number(), self.number()],
            3 => {
                let t = self.size(-10, 10);
                [t, t.next_up()]
            }
            4 => [-1e38, 2.0e38],
            5 | 6 => {
                let (a, b) = (self.unit(), self.unit());
                [a.min(b), a.max(b)]
            }
            _ => [0.0, 1.0],
        }
    }

    /// Two poses that are built, as a rule; `rotating` asks for two turns that differ.
    fn plain_move(&mut self, rotating: bool) -> Move {
        let start = if self.one_in(3) { [0.0, 0.0, 0.0, 1.0] } else { self.direction::<4>() };
        let by = if rotating { self.below(6) } else { 6 };
        let end = match by {
            0 => self.direction::<4>(),
            1 => {
                let about = 0.9995 + 2e-7 * self.real();
                product(start, self.turn(about))
            }
            2 => {
                let small = 1.0 - 0.001 * self.real().abs();
                product(start, self.turn(small))
            }
            3 => {
                let opposite = 1e-6 * self.real();
                product(start, self.turn(opposite))
            }
            4 | 5 => {
                let turn = self.real();
                product(start, self.turn(turn))
            }
            _ => start,
        };
        let stretch = self.stretch();
        let other = if self.one_in(2) { stretch } else { self.stretch() };
        let (from, to) = (self.translation(), self.translation());
        Move { times: self.times(), poses: [from_rows(times(rotation(start), stretch), from), from_rows(times(rotation(end), other), to)] }
    }

    /// A point and a move that brings coordinates of it back to where they started, or nearly, so that there are zeros.
    fn returning_move(&mut self) -> (Move, [f32; 3]) {
        let cosine = self.pick(&[0.5, 0.9, 0.99, 0.999, 0.9994]);
        let turn = self.turn(cosine);
        let stretch = self.stretch();
        let p: [f32; 3] = self.numbers(|r| if r.one_in(3) { 0.0 } else { 10.0 * r.unit() });
        let mut end = from_rows(times(rotation(turn), stretch), [0.0; 3]);
        for i in 0..3 {
            if self.one_in(2) {
                end[4 * i + 3] = returning(&end, &p, i);
            }
        }
        (Move { times: [0.0, 1.0], poses: [IDENTITY, end] }, p)
    }

    /// A slow turn by phi with a symmetric shear that grows to phi / 3 takes a coordinate along nearly a straight line, which the translation
    /// undoes: its derivative is about zero all the way. Of some tries the one with the most zeros is taken; nine are among them.
    fn flat_move(&mut self) -> (Move, [f32; 3]) {
        let mut best = (0, Move { times: [0.0, 1.0], poses: [IDENTITY; 2] }, [0.0; 3]);
        for _ in 0..16 {
            let cosine = 0.9995 - 4e-5 * self.real().abs();
            let sine = (1.0 - cosine * cosine).sqrt() * self.pick(&[1.0, -1.0]);
            let phi = 2.0 * (sine + sine * sine * sine / 6.0);
            let (i, j, k) = self.pick(&[(0, 1, 2), (1, 2, 0), (2, 0, 1)]);
            let mut turn = [0.0, 0.0, 0.0, cosine];
            turn[k] = sine;
            let mut shear = [[1.0, 0.0, 0.0], [0.0, 1.0, 0.0], [0.0, 0.0, 1.0]];
            shear[i][j] = phi / 3.0 * (1.0 + 1e-4 * self.real());
            shear[j][i] = shear[i][j];
            let mut p = [0.0; 3];
            p[j] = 10.0 * self.unit();
            let point = Point3f::new(p[0], p[1], p[2]);
            let mut end = from_rows(times(rotation(turn), shear), [0.0; 3]);
            let build = |end: &[f32; 16]| judged::build(Kind::Plain, 0.0, &Matrix4x4::default(), 1.0, &Matrix4x4::from_row_slice(end));
            // The derivative at the start is c1 + c2, and c1 alone holds the translation.
            let Ok(still) = build(&end) else { continue };
            let [c1, c2, ..] = still.original.terms(i, &point);
            end[4 * i + 3] = self.near(-c1 - c2);
            let Ok(built) = build(&end) else { continue };
            let theta = angles::acos(built.fields.r[0].dot(&built.fields.r[1]));
            let (count, _) = find_zeros(built.original.terms(i, &point), theta);
            if count >= best.0 {
                best = (count, Move { times: [0.0, 1.0], poses: [IDENTITY, end] }, p);
            }
        }
        (best.1, best.2)
    }

    /// The move that finds nine zeros with its axes in another order and in another scale, and at times a neighbour of it.
    fn ninth_zero_move(&mut self) -> (Move, [f32; 3]) {
        let (m, p) = ninth_zero();
        let first = self.below(3);
        let scale = f32::from_bits((117 + self.below(20) as u32) << 23);
        let axis = |i: usize| (i + 3 - first) % 3;
        let mut end = IDENTITY;
        for i in 0..3 {
            for j in 0..3 {
                end[4 * i + j] = m.poses[1][4 * axis(i) + axis(j)];
            }
            end[4 * i + 3] = m.poses[1][4 * axis(i) + 3] * scale;
        }
        if self.one_in(2) {
            let i = self.below(12);
            end[i] = self.near(end[i]);
        }
        (Move { times: m.times, poses: [IDENTITY, end] }, std::array::from_fn(|i| p[axis(i)] * scale))
    }

    /// Poses of every kind, refused ones among them.
    fn any_move(&mut self) -> Move {
        let mut m = match self.below(10) {
            0 => {
                let mut poses = [self.matrix(), self.matrix()];
                poses.iter_mut().for_each(|pose| pose[12..].copy_from_slice(&IDENTITY[12..]));
                Move { times: self.times(), poses }
            }
            1 => self.returning_move().0,
            2 => {
                // Equal poses, but for the signs of zeros.
                let mut m = self.plain_move(false);
                m.poses[1] = m.poses[0].map(|x| if x == 0.0 && self.one_in(2) { -x } else { x });
                m
            }
            3 => self.plain_move(false),
            _ => self.plain_move(true),
        };
        match self.below(24) {
            0 => m.poses[self.below(2)][self.below(12)] = self.edge(),
            1 => m.poses[self.below(2)][12 + self.below(4)] = self.edge(),
            2 => {
                let i = 12 + self.below(3);
                m.poses[self.below(2)][i] = -0.0;
            }
            3 => {
                // A linear part without an inverse, or nearly.
                let (pose, from, to) = (self.below(2), self.below(3), self.below(3));
                for j in 0..3 {
                    m.poses[pose][4 * to + j] = if from == to { 0.0 } else { self.near(m.poses[pose][4 * from + j]) };
                }
            }
            4 => {
                let (pose, factor) = (self.below(2), self.size(-100, 100).abs());
                for i in 0..12 {
                    if i % 4 != 3 {
                        m.poses[pose][i] *= factor;
                    }
                }
            }
            5 => {
                let (pose, row, factor) = (self.below(2), self.below(3), self.size(-60, 60));
                (0..3).for_each(|j| m.poses[pose][4 * row + j] *= factor);
            }
            _ => (),
        }
        m
    }

    fn time_of(&mut self, m: &Move) -> f32 {
        let [start, end] = m.times;
        match self.below(12) {
            0 => start,
            1 => end,
            2 => start.next_up(),
            3 => end.next_down(),
            4 => self.number(),
            5 => start + (end - start) * 0.5,
            _ => start + (end - start) * (0.5 + 0.5 * self.unit()),
        }
    }

    fn point(&mut self) -> [f32; 3] {
        match self.below(10) {
            0 => self.numbers(Random::number),
            1 => self.numbers(Random::finite),
            2 => self.numbers(Random::small),
            3 => [0.0; 3],
            _ => self.numbers(|r| 10.0 * r.unit()),
        }
    }

    fn bounds(&mut self) -> [f32; 6] {
        let (a, b) = (self.point(), self.point());
        let small = self.pick(&[0.0, 0.0, 0.001, 1.0]);
        let b = match self.below(3) {
            0 => b,
            _ => std::array::from_fn(|i| a[i] + small * b[i].abs()),
        };
        if self.one_in(12) {
            return [a[0], a[1], a[2], b[0], b[1], b[2]];
        }
        std::array::from_fn(|i| if i < 3 { a[i].min(b[i]) } else { a[i - 3].max(b[i - 3]) })
    }
}

/// The kinds of question: from `chains` on they are `chain_answers`', the others `answers`'.
const KINDS: &[&str] = &[
    "numbers",
    "angles",
    "matrices",
    "bounds",
    "moves",
    "motion",
    "covers",
    "boxes",
    "chains",
    "sets",
    "arcs",
    "texts",
    "rigid",
    "trials",
    "joins",
    "stretches",
    "windows",
    "days",
    "rows",
    "reach",
];

/// A box that a matrix carries: turned about, mirrored, carried to infinity, with wp of zero and a bottom row that isn't 0 0 0 1.
fn fixed_boxes<W: Write>(q: &mut Questions<W>) {
    let unit = [-1.0, -1.0, -1.0, 1.0, 1.0, 1.0];
    let scales = [1.0, -1.0, 0.0, -0.0, f32::MAX, f32::from_bits(1), INFINITY, NAN];
    for x in scales {
        for w in scales {
            q.ask("bounds", &[&diagonal(x, 1.0, -1.0, w), &unit]);
        }
    }
    let mut projective = diagonal(1.0, 1.0, 1.0, 1.0);
    for depth in [1.0, 0.5, -0.5, f32::MAX] {
        projective[14] = depth;
        q.ask("bounds", &[&projective, &unit]);
    }
}

fn random_box<W: Write>(q: &mut Questions<W>, r: &mut Random) {
    let mut m = r.matrix();
    if !r.one_in(3) {
        m[12..].copy_from_slice(&[0.0, 0.0, 0.0, 1.0]);
    }
    let b = r.bounds();
    q.ask("bounds", &[&m, &b]);
}

fn fixed_numbers<W: Write>(q: &mut Questions<W>) {
    for edge in EDGES.iter().map(|bits| f32::from_bits(*bits)) {
        q.ask("abs", &[&[edge]]);
        q.ask("root", &[&[edge]]);
    }
    let few = [0.0, -0.0, 1.0, -1.0, f32::from_bits(1), f32::MAX, f32::MIN, INFINITY, -INFINITY, NAN];
    for a in few {
        for b in few {
            q.ask("least", &[&[a, b]]);
            q.ask("greatest", &[&[a, b]]);
            for c in few {
                q.ask("lerp", &[&[a, b, c]]);
                q.ask("clamp", &[&[a, b, c]]);
            }
        }
    }
    for power in 0..64 {
        let n = 1u64 << power;
        for n in [n - 1, n, n + 1, n + (n >> 24), n + 3 * (n >> 24), n + (n >> 24) + 1, n + (n >> 24).saturating_sub(1)] {
            q.line(&format!("whole {n}"));
        }
    }
    for n in [u64::MAX, u64::MAX - (1 << 39), u64::MAX - (1 << 39) + 1, u64::MAX - (1 << 39) - 1, (1 << 24) + 3, (1 << 25) + 6, (1 << 25) + 2] {
        q.line(&format!("whole {n}"));
    }
}

fn random_number<W: Write>(q: &mut Questions<W>, r: &mut Random) {
    match r.below(8) {
        0 => q.ask("abs", &[&[r.number()]]),
        1 => q.ask("root", &[&[r.pattern()]]),
        2 => {
            // A square, or a root that lies just beside a float.
            let x = r.size(-70, 60);
            let square = r.near(x * x);
            q.ask("root", &[&[square]]);
        }
        3 => q.ask("least", &[&[r.number(), r.number()]]),
        4 => q.ask("greatest", &[&[r.number(), r.number()]]),
        5 => q.ask("lerp", &[&[r.number(), r.number(), r.number()]]),
        6 => q.ask("clamp", &[&[r.number(), r.number(), r.number()]]),
        _ => {
            let width = r.below(65) as u32;
            let mut n = r.next().checked_shr(64 - width).unwrap_or(0);
            if width > 24 && r.one_in(2) {
                // A tie, or one beside it.
                let places = width - 24;
                n = n >> places << places | 1 << (places - 1);
                n = n.wrapping_add_signed(r.pick(&[0, 0, 1, -1]));
            }
            q.line(&format!("whole {n}"));
        }
    }
}

fn fixed_angles<W: Write>(q: &mut Questions<W>) {
    for edge in EDGES.iter().map(|bits| f32::from_bits(*bits)) {
        for question in ["sin", "cos", "acos"] {
            q.ask(question, &[&[edge]]);
        }
    }
    for k in 0..64 {
        let quarter = (k * angles::QUARTER_TURN) as f32 / (1 << 28) as f32;
        for a in [quarter, quarter.next_up(), quarter.next_down(), -quarter] {
            q.ask("sin", &[&[a]]);
            q.ask("cos", &[&[a]]);
        }
    }
    for c in cosines_of_the_table() {
        q.ask("acos", &[&[c]]);
    }
}

/// The table's cosines, with the floats beside them.
fn cosines_of_the_table() -> impl Iterator<Item = f32> {
    angles::TABLE.iter().step_by(64).flat_map(|entry| {
        let c = *entry as f32 / angles::ONE as f32;
        [c, c.next_up(), c.next_down(), -c, -c.next_up(), -c.next_down()]
    })
}

fn random_cosine(r: &mut Random) -> f32 {
    match r.below(6) {
        0 => r.number(),
        1 => 1.0 - r.size(-30, -1).abs(),
        2 => r.size(-30, -1).abs() - 1.0,
        3 => {
            let c = r.pick(&angles::TABLE) as f32 / angles::ONE as f32;
            let c = r.near(c);
            r.pick(&[c, -c])
        }
        4 => r.size(-40, -1),
        _ => r.unit(),
    }
}

/// Arc cosines with the number of cosines that were worked out.
fn fixed_arcs<W: Write>(q: &mut Questions<W>) {
    for c in EDGES.iter().map(|bits| f32::from_bits(*bits)).chain(cosines_of_the_table()) {
        q.ask("acosn", &[&[c]]);
    }
    for line in ["acosn", "acosn ", "acosn 0", "acosn 0 00000000", "acosn 00000000 00000000", "Acosn 00000000"] {
        q.line(line);
    }
}

fn random_arc<W: Write>(q: &mut Questions<W>, r: &mut Random) {
    let c = random_cosine(r);
    q.ask("acosn", &[&[c]]);
}

fn random_angle<W: Write>(q: &mut Questions<W>, r: &mut Random) {
    let question = r.pick(&["sin", "cos", "acos"]);
    let a = if question == "acos" {
        random_cosine(r)
    } else {
        match r.below(6) {
            0 => r.number(),
            1 => r.size(-30, 24),
            2 => {
                let width = r.below(26);
                let turns = r.below(1 << width) as u64;
                let quarter = (turns * angles::QUARTER_TURN) as f32 / (1 << 28) as f32;
                let a = r.near(quarter);
                r.pick(&[a, -a])
            }
            3 => r.size(20, 25),
            _ => 7.0 * r.unit(),
        }
    };
    q.ask(question, &[&[a]]);
}

fn fixed_matrices<W: Write>(q: &mut Questions<W>) {
    let half_turns = [diagonal(1., -1., -1., 1.), diagonal(-1., 1., -1., 1.), diagonal(-1., -1., 1., 1.)];
    let third_turn = [0., 0., 1., 0., 1., 0., 0., 0., 0., 1., 0., 0., 0., 0., 0., 1.];
    let mut matrices = vec![
        IDENTITY,
        [0.0; 16],
        [-0.0; 16],
        [1.0; 16],
        [NAN; 16],
        [INFINITY; 16],
        [f32::MAX; 16],
        [f32::from_bits(1); 16],
        third_turn,
        diagonal(1e-45, 1., 1., 1.),
        diagonal(1e-38, 1e-38, 1e-38, 1.),
        diagonal(1e38, 1e38, 1e38, 1.),
        diagonal(f32::MAX, f32::MAX, f32::MAX, f32::MAX),
        diagonal(1e38, 1e-38, 1., 1.),
        diagonal(0., 1., 1., 1.),
        diagonal(-0., 1., 1., 1.),
        diagonal(NAN, 1., 1., 1.),
        diagonal(0., 0., 0., NAN),
        diagonal(0., 0., 0., INFINITY),
        translated(1., 2., 3.),
        translated(f32::MAX, f32::MIN, 1e-45),
        [1., 2., 3., 4., 5., 6., 7., 8., 9., 10., 11., 12., 13., 14., 15., 16.],
        [1., 1., 1., 1., 1., -1., 1., -1., 1., 1., -1., -1., 1., -1., -1., 1.],
        [0., 1., 0., 0., 1., 0., 0., 0., 0., 0., 0., 1., 0., 0., 1., 0.],
        [1e20, 1e20, 0., 0., 1e20, 1e20, 0., 0., 0., 0., 1., 0., 0., 0., 0., 1.],
        [3e38, -3e38, 1., 0., 3e38, 3e38, 0., 1., 1., 0., 3e38, 3e38, 0., 1., -3e38, 3e38],
    ];
    matrices.extend(half_turns);
    for i in 0..16 {
        for x in [NAN, INFINITY, f32::MAX, 0.0] {
            let mut m = third_turn;
            m[i] = x;
            matrices.push(m);
        }
    }
    for m in &matrices {
        q.ask("inverse", &[m]);
        q.ask("quat", &[m]);
        q.ask("decompose", &[m]);
        q.ask("mul", &[m, &matrices[21]]);
        q.ask("mul", &[&matrices[24], m]);
    }
    let ends = [1.0, f32::from_bits(0x3f7f_df3c), f32::from_bits(0x3f7f_df3b), f32::from_bits(0x3f7f_df3a), 0.5, 0.0, -0.5, -0.9995, -1.0];
    let mut quaternions = vec![[0.0; 4], [-0.0; 4], [NAN; 4], [f32::MAX; 4], [1e-30; 4], [1e-23, 0., 0., 0.], [1e19; 4], [0.5; 4], [0., INFINITY, 0., 1.]];
    for w in ends {
        quaternions.push([0.0, (1.0 - w * w).sqrt(), 0.0, w]);
        quaternions.push([w, 0.0, 0.0, (1.0 - w * w).sqrt()]);
    }
    for a in &quaternions {
        q.ask("rotation", &[a]);
        q.ask("normalize", &[a]);
        for b in [[0.0, 0.0, 0.0, 1.0], [1.0, 0.0, 0.0, 0.0], *a, a.map(|x| -x), [0.0; 4]] {
            q.ask("dot", &[a, &b]);
            for t in [0.0, 0.25, 0.5, 1.0, -1.0, 2.0, f32::from_bits(1), 1e30, INFINITY, NAN] {
                q.ask("slerp", &[&[t], a, &b]);
            }
        }
    }
}

fn random_matrix<W: Write>(q: &mut Questions<W>, r: &mut Random) {
    match r.below(12) {
        0..=3 => q.ask("inverse", &[&r.matrix()]),
        4 => q.ask("mul", &[&r.matrix(), &r.matrix()]),
        5 => q.ask("quat", &[&r.matrix()]),
        6 => {
            // Turns of nearly half a turn, and of a third, at which the trace is about zero.
            let cosine = r.pick(&[0.0, 1e-4, 0.5]) * r.pick(&[1.0, -1.0]);
            let m = from_rows(rotation(r.turn(cosine)), [0.0; 3]).map(|x| r.near(x));
            q.ask("quat", &[&m]);
        }
        7 => q.ask("rotation", &[&r.quaternion()]),
        8 => {
            let a = r.quaternion();
            let b = if r.one_in(2) { r.quaternion() } else { r.quaternion_near(a) };
            q.ask("dot", &[&a, &b]);
        }
        9 => q.ask("normalize", &[&r.quaternion()]),
        10 => {
            let a = r.quaternion();
            let b = if r.one_in(4) { r.quaternion() } else { r.quaternion_near(a) };
            let t = if r.one_in(4) { r.number() } else { 0.5 + 0.5 * r.unit() };
            q.ask("slerp", &[&[t], &a, &b]);
        }
        _ => q.ask("decompose", &[&r.matrix()]),
    }
}

/// Document 01's move A, from the identity to a shift by one, and B, which stands still.
fn move_a() -> Move {
    Move { times: [0.0, 1.0], poses: [IDENTITY, translated(1.0, 0.0, 0.0)] }
}

fn move_b() -> Move {
    Move { times: [0.0, 1.0], poses: [IDENTITY, IDENTITY] }
}

/// A quarter turn about z with a shift.
fn quarter_turn() -> Move {
    Move { times: [-1.0, 3.0], poses: [IDENTITY, [0., -1., 0., 2., 1., 0., 0., 0., 0., 0., 1., 1., 0., 0., 0., 1.]] }
}

/// Nine zeros are found for the point 0, 7.43, 0.
fn ninth_zero() -> (Move, [f32; 3]) {
    let bits = [0x3f7f20ae, 0xbd2ea87d, 0, 0x3ea238f7, 0x3dae7ac6, 0x3f7fd34d, 0, 0, 0, 0, 0x3f800000, 0, 0, 0, 0, 0x3f800000];
    (Move { times: [0.0, 1.0], poses: [IDENTITY, bits.map(f32::from_bits)] }, [0.0, f32::from_bits(0x40ed_cb23), 0.0])
}

/// Poses whose dot product is the float 0.9995 or beside it, about z.
fn threshold_moves() -> Vec<Move> {
    let mut moves = Vec::new();
    for step in -40..=40 {
        let w = 0.9995 + f64::from(step) * 2e-8;
        let z = (1.0 - w * w).sqrt();
        moves.push(Move { times: [0.0, 1.0], poses: [IDENTITY, from_rows(rotation([0.0, 0.0, z, w]), [0.0; 3])] });
    }
    moves
}

/// Poses at which building stops, each at another place of its work, and at last one that is built.
fn stopping_poses() -> Vec<[f32; 16]> {
    let p = power_of_two;
    let linear = |rows| from_rows(rows, [0.0; 3]);
    let far = (1.5 * p(127)) as f32;
    vec![
        // The inverse: 4, 5.
        diagonal(1., 1., 0., 1.),
        diagonal(1e-45, 1., 1., 1.),
        // The inverse of the first polar round: 4, 5.
        linear([[0., 0., p(-90)], [p(81), 0., p(88)], [0., 1., 0.]]),
        linear([[p(80), 0., p(50)], [0., 1., p(-61)], [p(-80), p(-71), 0.]]),
        // The inverse of a later round: 4.
        linear([[1., 0., 0.], [p(115), p(124), p(88)], [1., 0., p(-119)]]),
        // S, whose last column is the translation turned back: 5.
        from_rows([[2., -2., 0.], [2., 2., 0.], [0., 0., 4.]], [far, far, 0.0]),
        // The hundredth polar round is the last, and the first with a small norm.
        linear([[0., 1., 0.], [0., 0., 1.], [p(-96), 0., 0.]]),
        IDENTITY,
    ]
}

/// Each question of a move, where none is kept.
fn ask_none<W: Write>(q: &mut Questions<W>) {
    q.ask("parts", &[]);
    q.ask("point", &[&[0.0; 4]]);
    q.ask("interp", &[&[0.0]]);
    q.ask("motion", &[&ORIGIN]);
    q.ask("pmotion", &[&[0.0; 3]]);
    q.ask("cover 0", &[&ORIGIN]);
}

/// A move's poses and points at times.
fn ask_at<W: Write>(q: &mut Questions<W>, times: &[f32]) {
    for time in times {
        q.ask("point", &[&[*time], &[0.0, 0.0, 0.0]]);
        q.ask("point", &[&[*time], &[1.0, -2.0, 3.5]]);
        q.ask("interp", &[&[*time]]);
    }
}

fn fixed_moves<W: Write>(q: &mut Questions<W>) {
    // No move is kept yet.
    ask_none(q);
    for line in ["nothing", "move", "sin", "sin 0", "sin 00000000 00000000", "whole x"] {
        q.line(line);
    }
    let poses = |m: Move, pose: usize, entry: usize, x: f32| {
        let mut changed = m;
        changed.poses[pose][entry] = x;
        changed
    };
    let times = |m: Move, start: f32, end: f32| Move { times: [start, end], ..m };
    let far = power_of_two(127) as f32;
    let half_turn_about_x = [[1., 0., 0.], [0., -1., 0.], [0., 0., -1.]];
    let moves = vec![
        move_a(),
        move_b(),
        quarter_turn(),
        times(move_a(), 0.0, -1.0),
        times(move_a(), 0.0, 0.0),
        times(move_a(), 0.0, -0.0),
        times(move_a(), -3e38, 3e38),
        times(move_a(), -1.7e38, 1.7e38),
        times(move_a(), NAN, 1.0),
        times(move_a(), 0.0, INFINITY),
        times(move_a(), 1.0, f32::from_bits(0x3f80_0001)),
        times(quarter_turn(), 0.0, f32::from_bits(1)),
        poses(poses(move_a(), 0, 5, INFINITY), 0, 12, 1.0),
        poses(move_a(), 1, 12, 1.0),
        poses(move_a(), 1, 15, 2.0),
        poses(move_a(), 0, 13, -0.0),
        poses(move_a(), 1, 15, 0.0),
        poses(move_b(), 1, 1, -0.0),
        Move { times: [0.0, 1.0], poses: [diagonal(0., 0., 0., 1.), IDENTITY] },
        Move { times: [0.0, 1.0], poses: [IDENTITY, diagonal(0., 0., 0., 1.)] },
        Move { times: [0.0, 1.0], poses: [diagonal(1., 1., 0., 1.), diagonal(1e-45, 1., 1., 1.)] },
        Move { times: [0.0, 1.0], poses: [diagonal(1e-45, 1., 1., 1.), diagonal(1., 1., 0., 1.)] },
        Move { times: [0.0, 1.0], poses: [diagonal(-1., -1., -1., 1.), IDENTITY] },
        Move { times: [0.0, 1.0], poses: [diagonal(1., -1., -1., 1.), IDENTITY] },
        Move { times: [0.0, 1.0], poses: [diagonal(-1., 1., -1., 1.), diagonal(1., -1., -1., 1.)] },
        Move { times: [0.0, 1.0], poses: [diagonal(2., 2., 2., 1.), diagonal(-2., -2., -2., 1.)] },
        Move { times: [0.0, 1.0], poses: [diagonal(1e30, 1e30, 1e30, 1.), IDENTITY] },
        Move { times: [0.0, 1.0], poses: [diagonal(1e-30, 1., 1e30, 1.), IDENTITY] },
        Move { times: [0.0, 1.0], poses: [translated(f32::MAX, 0., 0.), translated(f32::MAX, 0., 0.)] },
        Move { times: [0.0, 1.0], poses: [translated(f32::MAX, 0., 0.), translated(f32::MIN, 1., 0.)] },
        ninth_zero().0,
        // A mirror has a quaternion that is shorter than 1: parallel to the other one it leaves no perpendicular, 5.
        Move { times: [0.0, 1.0], poses: [IDENTITY, diagonal(1., 1., -1., 1.)] },
        Move { times: [0.0, 1.0], poses: [diagonal(-1., 1., 1., 1.), diagonal(1., -1., 1., 1.)] },
        Move { times: [0.0, 1.0], poses: [diagonal(-1., -1., -1., 1.), diagonal(-1., -1., -1., 1.)] },
        // Coefficients that are not finite, 5: of the translations alone, and of the linear parts alone. Without rotation there are none.
        Move { times: [0.0, 1.0], poses: [translated(0., -far, 0.), from_rows(half_turn_about_x, [0.0, far, 0.0])] },
        Move { times: [0.0, 1.0], poses: [translated(0., -far, 0.), translated(0., far, 0.)] },
        Move {
            times: [0.0, 1.0],
            poses: [
                from_rows([[0., power_of_two(127), 0.], [1., 0., 0.], [0., 0., 1.]], [0.0; 3]),
                from_rows([[1., 0., 0.], [0., 0., 1.], [0., 1., 0.]], [0.0; 3]),
            ],
        },
        // Every zero negative.
        Move { times: [-0.0, -0.0], poses: [IDENTITY, IDENTITY].map(|pose| pose.map(|x| if x == 0.0 { -0.0 } else { x })) },
        Move { times: [-0.0, 0.0], poses: quarter_turn().poses.map(|pose| pose.map(|x| if x == 0.0 { -0.0 } else { x })) },
    ];
    let between = |m: &Move| [m.times[0].next_up(), 0.5 * (m.times[0] + m.times[1]), m.times[1].next_down()];
    for m in &moves {
        if !q.ask_move(m) {
            continue;
        }
        let [start, end] = m.times;
        ask_at(q, &[-INFINITY, start - 1.0, start]);
        ask_at(q, &between(m));
        ask_at(q, &[end, end + 1.0, INFINITY, NAN, f32::from_bits(1)]);
        for p in [[NAN, 0.0, 0.0], [0.0, INFINITY, 0.0], [0.0, 0.0, -INFINITY], [f32::MAX; 3], [f32::from_bits(1); 3], [-0.0; 3]] {
            q.ask("point", &[&[0.5], &p]);
        }
    }
    for m in &threshold_moves() {
        q.ask_move(m);
        ask_at(q, &between(m));
    }
    for start in stopping_poses() {
        for end in stopping_poses() {
            q.ask_move(&Move { times: [0.0, 1.0], poses: [start, end] });
        }
    }
    // One row is so much greater than the others that S has no inverse on the way, 4; a point is still answered.
    let [a, b, c] =
        [[0x5a4f052f, 0xd8c2f967, 0xd9bcebc1], [0xbf639b01, 0x415e971e, 0xc0b136c6], [0x40ca9f61, 0x40ac0cd1, 0x4147d6d8]].map(|row| row.map(f32::from_bits));
    let end = from_rows([a, b, c].map(|row| row.map(f64::from)), [0.75, -1.0, 4.0]);
    q.ask_move(&Move { times: [0.0, 1.0], poses: [diagonal(0.996934, 0.995557, 0.990563, 1.), end] });
    q.ask("interp", &[&[0.6575561]]);
    q.ask("point", &[&[0.6575561], &[1.0, 2.0, 3.0]]);
    // A malformed line leaves the move that is kept.
    q.ask_move(&move_a());
    q.ask("move", &[&[0.0], &IDENTITY, &IDENTITY]);
    q.ask("move", &[&[0.0], &IDENTITY, &[1.0], &IDENTITY, &[0.0]]);
    for line in ["move", "parts ", "parts 00000000", "Parts", "point 00000000", "interp", "interp 0"] {
        q.line(line);
    }
    q.ask("point", &[&[0.5], &[0.0; 3]]);
    // A refused one does not.
    q.ask_move(&times(move_a(), 0.0, -1.0));
    ask_none(q);
}

fn random_move<W: Write>(q: &mut Questions<W>, r: &mut Random) {
    let m = r.any_move();
    if !q.ask_move(&m) {
        return;
    }
    for _ in 0..7 {
        q.ask("point", &[&[r.time_of(&m)], &r.point()]);
    }
    if !r.one_in(4) {
        q.ask("interp", &[&[r.time_of(&m)]]);
    }
}

const BOXES: &[[f32; 6]] = &[
    ORIGIN,
    [1., 2., 3., 4., 5., 6.],
    [-1., -1., -1., 1., 1., 1.],
    [-0., 0., -0., 0., -0., 0.],
    [1., 0., 0., 0., 1., 1.],
    [0., 0., 1., 1., 1., 0.],
    [NAN, 0., 0., 1., 1., 1.],
    [1., 0., 0., 0., INFINITY, 1.],
    [f32::MIN, f32::MIN, f32::MIN, f32::MAX, f32::MAX, f32::MAX],
    [0., 0., 0., 1e38, 1e38, 1e38],
    [3e38, 0., 0., 3e38, 0., 0.], // carried by a turn, its terms of the derivative are not finite
    [0., 7., 0., 0., 7.5, 0.],
];

fn fixed_bounds<W: Write>(q: &mut Questions<W>) {
    for m in [
        move_a(),
        move_b(),
        Move { times: [0.0, 1.0], poses: [diagonal(2., -3., 4., 1.), translated(1., 2., 3.)] },
        Move { times: [1.0, 1.0], poses: [diagonal(1., 1., 2., 1.), diagonal(1., 1., 2., 1.)] },
    ] {
        q.ask_move(&m);
        for b in BOXES {
            q.ask("motion", &[b]);
        }
    }
}

/// Moves without rotation, which need no search: boxes are carried by the poses alone.
fn random_bounds<W: Write>(q: &mut Questions<W>, r: &mut Random) {
    let mut m = r.plain_move(false);
    if r.one_in(3) {
        m.poses[1] = m.poses[0];
    }
    if !q.ask_move(&m) {
        return;
    }
    q.ask("motion", &[&r.bounds()]);
    q.ask("motion", &[&r.bounds()]);
    q.ask("pmotion", &[&r.point()]);
}

fn fixed_motion<W: Write>(q: &mut Questions<W>) {
    let (nine, p) = ninth_zero();
    q.ask_move(&nine);
    q.ask("pmotion", &[&p]);
    q.ask("motion", &[&p, &p]);
    q.ask("motion", &[&[0.0, 0.0, 0.0], &p]);
    let mut moves = vec![move_a(), move_b(), quarter_turn(), nine];
    moves.extend(threshold_moves());
    for m in moves {
        q.ask_move(&m);
        for b in BOXES {
            q.ask("motion", &[b]);
            q.ask("pmotion", &[&b[..3]]);
        }
    }
    let few = [0.0, 1.0, -1.0, 1e-30, 1e30, INFINITY, NAN];
    for a in few {
        for b in few {
            for theta in [0.0, -0.0, 0.03, 0.5, 1.5707964, 3.0, -1.0, 4.0, 1e8, INFINITY, NAN] {
                q.ask("zeros", &[&[a, b, 0.5, -a, b, theta]]);
                q.ask("zeros", &[&[0.1, a, b, b, -0.7, theta]]);
            }
        }
    }
}

fn random_motion<W: Write>(q: &mut Questions<W>, r: &mut Random) {
    let c: [f32; 5] = match r.below(4) {
        0 => r.numbers(Random::number),
        1 => r.numbers(|r| r.size(-20, 20)),
        2 => r.numbers(Random::small),
        _ => r.numbers(Random::unit),
    };
    let theta = match r.below(4) {
        0 => r.number(),
        1 => r.unit().abs() * 0.1,
        _ => r.unit().abs() * 1.5707964,
    };
    q.ask("zeros", &[&c, &[theta]]);
    let (m, p) = match r.below(8) {
        0 => r.returning_move(),
        1 => r.flat_move(),
        2 => r.ninth_zero_move(),
        3 => (r.any_move(), r.point()),
        _ => (r.plain_move(true), r.point()),
    };
    if !q.ask_move(&m) {
        return;
    }
    q.ask("pmotion", &[&p]);
    q.ask("pmotion", &[&r.point()]);
    if r.one_in(4) {
        // The point is a corner of the box.
        let other: [f32; 3] = r.numbers(|r| r.unit().abs());
        q.ask("motion", &[&p, &std::array::from_fn::<f32, 3, _>(|i| p[i] + other[i])]);
    } else {
        q.ask("motion", &[&r.bounds()]);
    }
}

fn ask_cover<W: Write>(q: &mut Questions<W>, depth: u64, b: &[f32]) {
    q.ask(&format!("cover {depth}"), &[b]);
}

fn fixed_covers<W: Write>(q: &mut Questions<W>) {
    for m in [move_a(), move_b(), quarter_turn(), Move { times: [2.0, 2.0], ..move_a() }, Move { times: [2.0, 2.0], ..quarter_turn() }, ninth_zero().0] {
        q.ask_move(&m);
        for b in BOXES {
            for depth in [0, 1, 2, 5, 10, 12, 13, 4_294_967_295] {
                ask_cover(q, depth, b);
            }
        }
    }
    for m in threshold_moves() {
        q.ask_move(&m);
        for depth in [0, 1, 4] {
            ask_cover(q, depth, BOXES[2].as_slice());
        }
    }
    q.ask_move(&quarter_turn());
    for depth in (0..=13).chain([1 << 32, (1 << 32) + 1, u64::MAX]) {
        ask_cover(q, depth, BOXES[1].as_slice());
    }
    for depth in ["", "x", "-1", "+1", "007", "18446744073709551616"] {
        q.ask(&format!("cover {depth}"), &[&ORIGIN]);
    }
    let [there, still, away] = negative_zeros();
    for poses in [[there, still], [still, away], [away, still]] {
        q.ask_move(&Move { times: [0.0, 1.0], poses });
        for depth in [1, 4] {
            ask_cover(q, depth, &[-0.0; 6]);
            ask_cover(q, depth, BOXES[3].as_slice());
        }
    }
}

fn random_cover<W: Write>(q: &mut Questions<W>, r: &mut Random) {
    let m = match r.below(4) {
        0 => r.any_move(),
        1 => r.returning_move().0,
        _ => r.plain_move(true),
    };
    if !q.ask_move(&m) {
        return;
    }
    let b = r.bounds();
    let depth = r.below(5) as u64;
    ask_cover(q, depth, &b);
    ask_cover(q, depth + 1, &b);
    let depth = if r.one_in(8) { 9 + r.below(5) } else { 3 + r.below(6) };
    ask_cover(q, depth as u64, &r.bounds());
}

fn main() {
    let arguments: Vec<String> = std::env::args().skip(1).collect();
    let usage = || -> ! {
        eprintln!("usage: vectors KIND COUNT SEED, where KIND is one of {}", KINDS.join(" "));
        std::process::exit(2)
    };
    let [kind, count, seed] = arguments.as_slice() else { usage() };
    let (Ok(count), Ok(seed)) = (count.parse::<u64>(), seed.parse::<u64>()) else { usage() };
    let q = &mut Questions(BufWriter::new(io::stdout().lock()));
    type Fixed<W> = fn(&mut Questions<W>);
    type Case<W> = fn(&mut Questions<W>, &mut Random);
    let (fixed, case): (Fixed<_>, Case<_>) = match kind.as_str() {
        "numbers" => (fixed_numbers, random_number),
        "angles" => (fixed_angles, random_angle),
        "matrices" => (fixed_matrices, random_matrix),
        "bounds" => (fixed_bounds, random_bounds),
        "moves" => (fixed_moves, random_move),
        "motion" => (fixed_motion, random_motion),
        "covers" => (fixed_covers, random_cover),
        "boxes" => (fixed_boxes, random_box),
        "chains" => (chains::fixed, chains::random),
        "sets" => (sets::fixed, sets::random),
        "texts" => (texts::fixed, texts::random),
        "trials" => (trials::fixed, trials::random),
        "joins" => (joins::fixed, joins::random),
        "windows" => (windows::fixed, windows::random),
        "arcs" => (fixed_arcs, random_arc),
        "rigid" => (rigid::fixed, rigid::random),
        "stretches" => (stretches::fixed, stretches::random),
        "days" => (days::fixed, days::random),
        "rows" => (rows::fixed, rows::random),
        "reach" => (reach::fixed, reach::random),
        _ => usage(),
    };
    // Each kind has numbers of its own, whatever the seed. A kind more leaves those of the others as they are.
    let place = KINDS.iter().position(|k| k == kind).unwrap() as u64;
    let mut random = Random(seed.wrapping_mul(8).wrapping_add(place % 8) ^ (place / 8) << 60);
    random.0 = random.next();
    fixed(q);
    for _ in 0..count {
        case(q, &mut random);
    }
}
