//! Questions about rigid chains and moves: poses at the edges of 17 and 18, the order of the numbers, and chains of turns with slight scales and shears.

use super::chains::{ask_each, ask_of_chain, at_times, at_whole_times, of_move, swing_of_six, Chain, Pose, SLOTS};
use super::*;

const UNIT: [[f64; 3]; 3] = [[1., 0., 0.], [0., 1., 0.], [0., 0., 1.]];

impl<W: Write> Questions<W> {
    fn ask_rigid(&mut self, slot: usize, poses: &[Pose]) -> bool {
        self.ask_poses_as(Kind::Rigid, "chain", slot, poses)
    }
}

/// The floats from some places below a float to as many above it.
fn about(x: f32, places: i32) -> impl Iterator<Item = f32> {
    (-places..=places).map(move |place| f32::from_bits((x.to_bits() as i32 + place) as u32))
}

/// The identity with one entry changed.
fn with_entry(row: usize, column: usize, x: f32) -> [f32; 16] {
    let mut m = IDENTITY;
    m[4 * row + column] = x;
    m
}

/// A scale, a shear and a mirror at each place, at, below and above what is allowed.
fn edge_poses() -> Vec<[f32; 16]> {
    let mut poses = Vec::new();
    for i in 0..3 {
        // Roots of 0.999 and 1.001, of which a rounded square is or isn't beyond.
        for root in [0.999f64, 1.001].map(|square| square.sqrt() as f32) {
            poses.extend(about(root, 3).flat_map(|x| [with_entry(i, i, x), with_entry(i, i, -x)]));
        }
        for j in (0..3).filter(|j| *j != i) {
            poses.extend(about(0.001, 2).flat_map(|x| [with_entry(i, j, x), with_entry(i, j, -x)]));
            // A turn of small angle, and the same with a shear as large.
            for x in [0.02f32, 0.03, 0.04] {
                let mut turn = with_entry(i, j, x);
                turn[4 * j + i] = -x;
                let mut shear = turn;
                shear[4 * j + i] = x;
                poses.extend([turn, shear]);
            }
        }
        poses.extend([0.0, -0.0, -1.0, 2.0, f32::MAX, 1e-30].map(|x| with_entry(i, i, x)));
    }
    for signs in 0..8 {
        let sign = |axis: usize| if signs >> axis & 1 == 1 { -1.0 } else { 1.0 };
        poses.push(diagonal(sign(0), sign(1), sign(2), 1.));
        // Columns in another order: half of these mirror.
        for [a, b, c] in [[1, 2, 0], [2, 0, 1], [1, 0, 2], [0, 2, 1], [2, 1, 0]] {
            let mut m = diagonal(0., 0., 0., 1.);
            (m[a], m[4 + b], m[8 + c]) = (sign(0), sign(1), sign(2));
            poses.push(m);
        }
    }
    poses.push(diagonal(0., 0., 0., 1.));
    poses
}

fn fixed_edges<W: Write>(q: &mut Questions<W>) {
    q.new_case();
    for (place, pose) in edge_poses().into_iter().enumerate() {
        if q.ask_rigid(0, &at_whole_times(&[IDENTITY, pose])) {
            q.ask("cpoint 0", &[&[0.75], &[1.0, 2.0, 3.0]]);
            if place % 8 == 0 {
                q.line("cparts 0 0");
                q.ask("cinterp 0 0", &[&[0.5]]);
                q.ask("ccover 0 2", &[&BOXES[2]]);
            }
        }
    }
}

/// Each over the whole chain before the next: 1, 2, 16, 12, 3; then 17 and 18 pose by pose; then 4 and 5.
fn fixed_order<W: Write>(q: &mut Questions<W>) {
    type Fault = fn(&mut Pose);
    let faults: [Fault; 7] = [
        |pose| pose.matrix[3] = INFINITY,
        |pose| pose.matrix[12] = 1.0,
        |pose| pose.pad = -1.0,
        |pose| pose.time = 0.5,
        |pose| pose.matrix[0] *= 2.0,
        |pose| (0..3).for_each(|i| pose.matrix[4 * i] *= -1.0),
        |pose| (0..3).for_each(|i| pose.matrix[4 * i + 2] = 0.0),
    ];
    q.new_case();
    // Of a chain two faults at its ends, either first, or at one pose; of a move by itself one at each pose.
    for (question, count, place, other) in [("chain", 3, 0, 2), ("chain", 3, 2, 0), ("chain", 3, 1, 1), ("lone", 2, 0, 1), ("lone", 2, 1, 0)] {
        for fault in faults {
            for second in faults {
                let mut poses = swing_of_six()[..count].to_vec();
                fault(&mut poses[place]);
                second(&mut poses[other]);
                q.ask_poses_as(Kind::Rigid, question, 1, &poses);
            }
        }
    }
    // 3 of the last pair before 17 of the first pose, and 12 before both.
    let mut far = at_times(&[f32::MIN, 0.0, f32::MAX], &[diagonal(2., 1., 1., 1.), IDENTITY, diagonal(-1., 1., 1., 1.)]);
    q.ask_rigid(1, &far);
    far.remove(1);
    q.ask_rigid(1, &far);
    far[1].time = far[0].time;
    q.ask_rigid(1, &far);
    q.ask_poses_as(Kind::Rigid, "lone", 1, &far);
    for count in [0, 1, 33] {
        let times: Vec<f32> = (0..count).map(|i| i as f32).collect();
        q.ask_rigid(1, &at_times(&times, &[IDENTITY, diagonal(2., 1., 1., 1.)]));
    }
}

fn fixed_queries<W: Write>(q: &mut Questions<W>) {
    let chain = swing_of_six();
    q.new_case();
    q.ask_rigid(2, &chain);
    for place in 0..=5 {
        q.line(&format!("cparts 2 {place}"));
        for time in [-INFINITY, 0.5, 1.0, 2.25, 7.5, 8.0, NAN] {
            q.ask(&format!("cinterp 2 {place}"), &[&[time]]);
        }
        for b in &BOXES[..4] {
            q.ask(&format!("cmotion 2 {place}"), &[b]);
            q.ask(&format!("cpmotion 2 {place}"), &[&b[..3]]);
        }
    }
    for b in BOXES {
        for depth in [0, 1, 4, 13] {
            q.ask(&format!("ccover 2 {depth}"), &[b]);
        }
    }
    q.ask("cset 2 3", &[BOXES[1].as_slice(), BOXES[2].as_slice()]);
    q.ask("write 2 5000", &[&BOXES[1]]);
    for time in (0..33).map(|i| i as f32 / 4.0) {
        q.ask("cpoint 2", &[&[time], &[1.0, -2.0, 3.5]]);
    }
    // So far that S overflows, and the products with the identity do not, or do.
    for far in [1e38, 2e38, 3e38, 3.4e38, f32::MAX] {
        for turn in [[0.0, 0.0, 0.6, 0.8], [0.5; 4], [0.0, 0.0, 0.0, 1.0], [0.0, 0.0, 0.28, 0.96]] {
            let pose = from_rows(rotation(turn), [far, far, -far]);
            for kind in [Kind::Plain, Kind::Rigid] {
                if q.ask_poses_as(kind, "lone", 3, &at_whole_times(&[IDENTITY, pose])) {
                    ask_each(q, 3);
                }
            }
        }
    }
    // A scale that passes, and so far that S overflows where the matrix's own inverse doesn't: accepted as rigid alone.
    let turned = rotation([0.0, 0.0, 0.28, 0.96]);
    let mut grown = from_rows(turned.map(|row| row.map(|x| 1.0004 * x)), [0.0; 3]);
    (0..3).for_each(|i| grown[4 * i + 3] = (1.00015 * f64::from(f32::MAX) * turned[i][0]) as f32);
    for kind in [Kind::Rigid, Kind::Plain] {
        q.ask_poses_as(kind, "lone", 3, &at_whole_times(&[IDENTITY, grown]));
        ask_each(q, 3);
    }
    // A refused chain empties its slot; another kind is no question.
    q.ask_rigid(2, &at_whole_times(&[IDENTITY, diagonal(2., 1., 1., 1.)]));
    ask_each(q, 2);
    for line in [
        "chain 0 rigid",
        "chain 0 rigid ",
        "chain 0 rigi",
        "chain 0 rigidly",
        "chain rigid",
        "lone 0 rigid",
        "chain 4 rigid",
        "chain 0 plain rigid",
        "Chain 0 rigid",
    ] {
        q.line(line);
    }
    for m in [move_a(), move_b(), quarter_turn(), ninth_zero().0] {
        for question in ["lone", "chain"] {
            if q.ask_poses_as(Kind::Rigid, question, 3, &of_move(&m)) {
                ask_each(q, 3);
                q.ask("ccover 3 3", &[&BOXES[2]]);
            }
        }
    }
}

pub fn fixed<W: Write>(q: &mut Questions<W>) {
    fixed_edges(q);
    fixed_order(q);
    fixed_queries(q);
}

impl Random {
    /// Mostly the identity, or so near to it that the pose passes; at times at an edge, or beyond it.
    fn slight_stretch(&mut self) -> [[f64; 3]; 3] {
        let mut s = UNIT;
        let (i, j) = (self.below(3), self.below(3));
        match self.below(24) {
            0..=11 => (),
            12..=14 => s = s.map(|row| row.map(|x| x + 1e-4 * self.real())),
            15 => s = s.map(|row| row.map(|x| x + 6e-4 * self.real())),
            16 | 17 => s[i][i] = self.pick(&[0.999f64, 1.001]).sqrt() + 3e-7 * self.real(),
            18 | 19 if i != j => s[i][j] = self.pick(&[0.001, -0.001]) + 3e-9 * self.real(),
            // Two columns drawn together by half each.
            20 if i != j => (s[i][j], s[j][i]) = (0.0005, 0.0005 + 1e-7 * self.real()),
            21 => s[i][i] = -1.0,
            22 => s = self.stretch(),
            _ => s[i][i] += 4e-4 * self.real(),
        }
        s
    }

    /// Turns that follow each other, with slight stretches or none.
    fn rigid_swing(&mut self, count: usize) -> Vec<[f32; 16]> {
        let is_pure = self.one_in(2);
        let mut turn = if self.one_in(3) { [0.0, 0.0, 0.0, 1.0] } else { self.direction::<4>() };
        let mut poses: Vec<[f32; 16]> = Vec::new();
        for _ in 0..count {
            if let (Some(last), true) = (poses.last().copied(), self.one_in(12)) {
                // The same pose again, but for the signs of zeros.
                poses.push(last.map(|x| if x == 0.0 && self.one_in(4) { -x } else { x }));
                continue;
            }
            let cosine = match self.below(8) {
                0 => 1.0,
                1 => 0.9995 + 2e-7 * self.real(),
                2 => 1e-6 * self.real(),
                3 => 1.0 - 0.001 * self.real().abs(),
                _ => self.real(),
            };
            turn = if self.one_in(8) { self.direction::<4>() } else { product(turn, self.turn(cosine)) };
            let stretch = if is_pure { UNIT } else { self.slight_stretch() };
            let translation = if self.one_in(3) { self.translation() } else { self.numbers(|r| 10.0 * r.unit()) };
            poses.push(from_rows(times(rotation(turn), stretch), translation));
        }
        poses
    }

    pub fn rigid_chain(&mut self) -> Chain {
        let count = self.pose_count();
        let matrices = self.rigid_swing(count);
        let mut chain = at_times(&self.rising_times(count), &matrices);
        chain.iter_mut().for_each(|pose| pose.pad = self.pad());
        if count > 0 && self.one_in(12) {
            self.spoil(&mut chain);
        }
        chain
    }
}

pub fn random<W: Write>(q: &mut Questions<W>, r: &mut Random) {
    q.new_case();
    let slot = r.below(SLOTS);
    if r.one_in(8) {
        // A chain or a move of any sort, which is mostly refused; a move that searches long.
        let poses = if r.one_in(2) { r.chain() } else { of_move(&r.any_move()) };
        q.ask_rigid(slot, &poses);
        return;
    }
    let is_lone = r.one_in(8);
    let poses = if is_lone {
        let times = r.times();
        at_times(&times, &r.rigid_swing(2))
    } else {
        r.rigid_chain()
    };
    if !q.ask_poses_as(Kind::Rigid, if is_lone { "lone" } else { "chain" }, slot, &poses) {
        if r.one_in(8) {
            ask_each(q, slot);
        }
        return;
    }
    ask_of_chain(q, r, slot, &poses, is_lone);
    if !is_lone && r.one_in(4) {
        let depth = r.depth(poses.len());
        q.ask(&format!("cset {slot} {depth}"), &[&r.bounds(), &r.bounds()]);
        q.ask(&format!("write {slot} 4200"), &[&r.bounds()]);
    }
    if r.one_in(4) {
        // The same poses as plain, in another slot.
        let other = (slot + 1) % SLOTS;
        if q.ask_poses(if is_lone { "lone" } else { "chain" }, other, &poses) {
            ask_of_chain(q, r, other, &poses, is_lone);
        }
    }
}
