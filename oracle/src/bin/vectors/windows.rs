//! Questions about two booms over one bay: each case fills two slots and asks for the windows in which the two meet, and for the covers of single windows.

use super::chains::{at_whole_times, of_move, swing_of_six, Chain, Pose};
use super::*;

const FIRST: usize = 0;
const SECOND: usize = 1;
/// As many as are asked, and one more.
const MOST_TICKS: usize = 64;

impl<W: Write> Questions<W> {
    fn ask_windows(&mut self, slots: [usize; 2], depth: usize, b: &[f32; 6], c: &[f32; 6], ticks: &[f32]) {
        self.ask(&format!("windows {} {} {depth}", slots[0], slots[1]), &[b, c, ticks]);
    }

    fn ask_window(&mut self, slot: usize, depth: usize, b: &[f32; 6], ticks: [f32; 2]) {
        self.ask(&format!("wcover {slot} {depth}"), &[b, &ticks]);
    }
}

fn shifted(chain: &[Pose], x: f32, y: f32, z: f32) -> Chain {
    let mut moved = chain.to_vec();
    moved.iter_mut().for_each(|pose| [x, y, z].iter().zip([3, 7, 11]).for_each(|(by, entry)| pose.matrix[entry] += by));
    moved
}

/// A swing with a rest in it, whose pads at the rest differ, so that the larger holds at its end too.
pub fn padded_swing() -> Chain {
    let mut chain = swing_of_six();
    chain.iter_mut().zip([0.0, 2.0, -0.0, 1.5, 0.25, 3.0]).for_each(|(pose, pad)| pose.pad = pad);
    chain
}

/// Every window between two of these ticks, by itself: at, beside and between the poses' times, outside and to the infinities.
fn fixed_covers<W: Write>(q: &mut Questions<W>) {
    q.new_case();
    let chain = padded_swing();
    q.ask_chain(FIRST, &chain);
    let rest = chain[4].time;
    let ticks =
        [-INFINITY, -1.0, 0.0, f32::from_bits(1), 0.3, 1.0, 2.0, 2.5, 2.5f32.next_up(), 5.0, rest.next_down(), rest, rest.next_up(), 7.5, 8.0, 9.0, INFINITY];
    for (i, earlier) in ticks.iter().enumerate() {
        for later in &ticks[i + 1..] {
            q.ask_window(FIRST, 2, &BOXES[1], [*earlier, *later]);
        }
    }
    for b in BOXES {
        for depth in [0, 1, 5, 12, 13] {
            q.ask_window(FIRST, depth, b, [0.5, 0.75]);
        }
        for ticks in [[1.0, 1.0], [2.0, 1.0], [-0.0, 0.0], [NAN, 1.0], [1.0, NAN], [INFINITY, INFINITY]] {
            q.ask_window(FIRST, 13, b, ticks);
        }
    }
    // A rest at either end, and nothing but rests.
    for turns in [[0, 0, 1], [0, 1, 1], [1, 1, 1]] {
        q.new_case();
        let poses = quarter_turn().poses;
        let chain: Chain = turns.iter().enumerate().map(|(i, turn)| Pose { time: i as f32, matrix: poses[*turn], pad: [2.0, 0.5, 1.0][i] }).collect();
        q.ask_chain(FIRST, &chain);
        for ticks in [[-2.0, -1.0], [-1.0, 0.0], [0.0, 1.0], [0.5, 0.75], [1.0, 1.5], [1.0, 2.0], [1.5, 2.0], [2.0, 3.0], [3.0, 4.0], [-1.0, 3.0]] {
            q.ask_window(FIRST, 1, &BOXES[1], ticks);
        }
    }
    // Zeros of -0: before the chain, at its rest, in a slice.
    q.new_case();
    q.ask_chain(FIRST, &at_whole_times(&negative_zeros()));
    for ticks in [[-1.0, -0.5], [0.0, 0.5], [0.5, 1.5], [1.25, 1.5], [1.5, 3.0]] {
        q.ask_window(FIRST, 1, &[-0.0; 6], ticks);
    }
    // A slice that is refused with 10 before a pose or a rest that is refused with 5: the poses turn so far that a quaternion's square may be zero.
    q.new_case();
    let half = from_rows([[-1., 0., 0.], [0., -1., 0.], [0., 0., 1.]], [0.0; 3]);
    let far = translated(3e38, 0.0, 0.0);
    let chain: Chain = [far, far, IDENTITY, half].iter().enumerate().map(|(i, matrix)| Pose { time: i as f32, matrix: *matrix, pad: 1e38 }).collect();
    q.ask_chain(FIRST, &chain);
    for depth in 0..4 {
        for ticks in [[0.0, 3.0], [2.0, 3.0], [0.0, 0.5], [0.5, 2.5], [1.0, 2.0]] {
            q.ask_window(FIRST, depth, &BOXES[2], ticks);
        }
    }
}

/// Touching, meeting and apart; the order of the numbers; how many ticks there may be.
fn fixed_pairs<W: Write>(q: &mut Questions<W>) {
    q.new_case();
    let chain = padded_swing();
    q.ask_chain(FIRST, &chain);
    let b = &BOXES[1];
    let ticks = [-1.0, 0.0, 0.5, 1.0, 2.0, 2.25, 2.5, 7.0, 7.5, 8.0, 9.0];
    for by in [0.0, 3.0, 5.0, 5.0f32.next_up(), 7.0, 12.0, 40.0] {
        for [x, y, z] in [[by, 0.0, 0.0], [0.0, by, 0.0], [0.0, 0.0, -by], [by, by, by]] {
            q.ask_chain(SECOND, &shifted(&chain, x, y, z));
            for depth in [0, 3] {
                q.ask_windows([FIRST, SECOND], depth, b, b, &ticks);
                q.ask_windows([SECOND, FIRST], depth, b, &BOXES[2], &ticks);
            }
        }
    }
    for ticks in [
        &[][..],
        &[0.0],
        &[0.0, 0.0],
        &[-0.0, 0.0],
        &[0.0, -0.0],
        &[1.0, 0.0],
        &[NAN, 0.0],
        &[0.0, NAN],
        &[0.0, 1.0, 1.0],
        &[0.0, NAN, 1.0],
        &[-INFINITY, INFINITY],
    ] {
        q.ask_windows([FIRST, SECOND], 1, b, b, ticks);
        q.ask_windows([FIRST, SECOND], 13, &BOXES[4], &BOXES[6], ticks);
    }
    let many: Vec<f32> = (0..=MOST_TICKS).map(|i| i as f32 / 8.0).collect();
    for count in [2, MOST_TICKS - 1, MOST_TICKS, MOST_TICKS + 1] {
        q.ask_windows([FIRST, SECOND], 1, b, b, &many[..count]);
    }
    for b in BOXES {
        for c in BOXES {
            q.ask_windows([FIRST, SECOND], 13, b, c, &[0.0, 1.0]);
            q.ask_windows([FIRST, SECOND], 0, b, c, &[0.0, 0.25, 9.0]);
        }
    }
    // The first chain is refused in a later window than the second, and in the same one.
    let far = |from: usize| -> Chain { chain.iter().enumerate().map(|(i, pose)| Pose { pad: if i < from { 0.0 } else { f32::MAX }, ..*pose }).collect() };
    for [first, second] in [[4, 1], [1, 4], [2, 2], [6, 3]] {
        q.ask_chain(FIRST, &far(first));
        q.ask_chain(SECOND, &far(second));
        q.ask_windows([FIRST, SECOND], 1, &BOXES[9], &BOXES[8], &ticks);
        q.ask_windows([SECOND, FIRST], 1, &BOXES[8], &BOXES[2], &ticks);
    }
}

fn fixed_slots<W: Write>(q: &mut Questions<W>) {
    q.new_case();
    let pair = of_move(&quarter_turn());
    q.ask_chain(FIRST, &pair);
    q.ask_poses("lone", SECOND, &pair);
    for slots in [[0, 0], [0, 1], [1, 0], [1, 1], [0, 2], [2, 0], [0, 4], [4, 0]] {
        q.ask_windows(slots, 1, &BOXES[1], &BOXES[2], &[0.0, 0.5, 1.0]);
    }
    for slot in [1, 2, 4] {
        q.ask_window(slot, 1, &BOXES[1], [0.0, 1.0]);
    }
    q.ask_windows([0, 0], 4_294_967_296, &BOXES[1], &BOXES[2], &[0.0, 1.0]);
    q.ask_window(0, 4_294_967_297, &BOXES[1], [0.0, 1.0]);
    for line in ["windows", "windows 0", "windows 0 0", "windows 0 0 1", "wcover", "wcover 0", "wcover 0 1", "Windows 0 0 1", "windows 0 0 x", "wcover 0 -1"] {
        q.line(line);
    }
    q.ask("windows 0 0 1", &[&BOXES[1], &BOXES[2][..5]]);
    q.ask("wcover 0 1", &[&BOXES[1], &[0.0]]);
    q.ask("wcover 0 1", &[&BOXES[1], &[0.0, 1.0, 2.0]]);
}

pub fn fixed<W: Write>(q: &mut Questions<W>) {
    fixed_covers(q);
    fixed_pairs(q);
    fixed_slots(q);
}

impl Random {
    /// Ticks of one chain or the other, mostly rising and few.
    pub fn ticks(&mut self, chains: [&Chain; 2]) -> Vec<f32> {
        let count = match self.below(24) {
            0 => self.pick(&[0, 1, MOST_TICKS, MOST_TICKS + 1]),
            1 | 2 => 10 + self.below(20),
            _ => 2 + self.below(6),
        };
        let mut ticks: Vec<f32> = (0..count).map(|_| self.time_in(chains[self.0 as usize % 2])).collect();
        if !self.one_in(20) {
            ticks.retain(|tick| !tick.is_nan());
            ticks.sort_by(|a, b| a.partial_cmp(b).unwrap());
            ticks.dedup();
        }
        ticks
    }

    /// A plain or a rigid chain, with rests in it at times.
    pub fn either_chain(&mut self) -> (Kind, Chain) {
        let (kind, mut chain) = if self.one_in(3) { (Kind::Rigid, self.rigid_chain()) } else { (Kind::Plain, self.chain()) };
        if chain.len() > 1 && self.one_in(3) {
            for _ in 0..1 + self.below(2) {
                let place = 1 + self.below(chain.len() - 1);
                chain[place].matrix = chain[place - 1].matrix;
            }
        }
        (kind, chain)
    }
}

pub fn random<W: Write>(q: &mut Questions<W>, r: &mut Random) {
    q.new_case();
    let (kind, first) = r.either_chain();
    let (other_kind, second) = match r.below(4) {
        0 => (kind, first.clone()),
        1 => {
            let [x, y, z] = r.numbers(Random::small);
            (kind, shifted(&first, x, y, z))
        }
        _ => r.either_chain(),
    };
    let is_first = q.ask_poses_as(kind, "chain", FIRST, &first);
    let is_second = q.ask_poses_as(other_kind, "chain", SECOND, &second);
    let (b, c) = (r.bounds(), r.bounds());
    if !is_first || !is_second {
        if r.one_in(8) {
            q.ask_windows([FIRST, SECOND], 1, &b, &c, &[0.0, 1.0]);
        }
        return;
    }
    for _ in 0..1 + r.below(3) {
        let ticks = r.ticks([&first, &second]);
        let depth = r.depth(first.len().max(second.len()) - 1).min(if r.one_in(12) { 13 } else { 6 });
        let c = if r.one_in(3) { b } else { c };
        q.ask_windows([FIRST, SECOND], depth, &b, &c, &ticks);
        if r.one_in(4) {
            q.ask_windows([SECOND, FIRST], depth, &c, &b, &ticks);
        }
        for pair in ticks.windows(2) {
            if r.one_in(3) {
                q.ask_window(r.below(2), depth, &b, [pair[0], pair[1]]);
            }
        }
        if r.one_in(10) {
            let ticks = [r.time_in(&first), r.time_in(&second)];
            q.ask_window(FIRST, depth, &c, ticks);
        }
    }
}
