//! Questions about poses that are tried: each case fills a slot and tries a pose at some places, at times with the cover of the chain as it is.

use super::chains::{at_whole_times, of_move, swing_of_six, Chain, Pose, SLOTS};
use super::*;

impl<W: Write> Questions<W> {
    fn ask_trial(&mut self, slot: usize, place: usize, depth: usize, pose: &Pose, b: &[f32; 6]) {
        self.ask(&format!("try {slot} {place} {depth}"), &[&[pose.time], &pose.matrix, &[pose.pad], b]);
    }
}

pub fn fixed<W: Write>(q: &mut Questions<W>) {
    let chain = swing_of_six();
    let (last, b) = (chain.len() - 1, &BOXES[1]);
    q.new_case();
    q.ask_trial(1, 0, 2, &chain[0], b);
    q.ask_chain(1, &chain);
    // The pose itself, a dragged one, and each that is refused, at every place and beyond the last.
    for place in (0..last + 4).chain([255, 256, 65_536, usize::MAX]) {
        let own = chain[place.min(last)];
        let moved = Pose { matrix: translated(0.5, -2.0, 1.0), pad: 0.25, ..own };
        q.ask_trial(1, place, 3, &own, b);
        q.ask_trial(1, place, 3, &moved, b);
        let edges = [chain[place.saturating_sub(1).min(last)].time, chain[(place.min(last) + 1).min(last)].time];
        for time in edges.into_iter().flat_map(|t| [t.next_down(), t, t.next_up()]).chain([f32::MIN, f32::MAX, NAN, INFINITY]) {
            q.ask_trial(1, place, 1, &Pose { time, ..moved }, b);
        }
        for pad in [-1.0, -0.0, NAN, f32::MAX] {
            q.ask_trial(1, place, 1, &Pose { pad, ..moved }, b);
        }
        let flat = Pose { matrix: diagonal(1.0, 0.0, 1.0, 1.0), ..moved };
        q.ask_trial(1, place, 1, &flat, b);
        // The order: 19, the numbers of building, then 6, 7, 8.
        let boxes = if place == 1 || place == last + 1 { BOXES } else { &BOXES[..0] };
        for b in boxes {
            for depth in [0, 13] {
                q.ask_trial(1, place, depth, &moved, b);
                q.ask_trial(1, place, depth, &flat, b);
            }
        }
        // The chain is as it was.
        q.ask("ccover 1 3", &[b]);
    }
    for entry in 0..16 {
        let mut bent = chain[2];
        bent.matrix[entry] = if entry < 12 { f32::MAX } else { 0.5 };
        q.ask_trial(1, 2, 1, &bent, b);
    }
    for numbers in ["18446744073709551615 3", "18446744073709551616 3", "1 4294967296", "-1 3", " 3", "x 3", "1"] {
        q.ask(&format!("try 1 {numbers}"), &[&[0.5], &IDENTITY, &[0.0], b]);
    }
    for line in ["try", "try 1", "try 1 0", "try 4 0 1", "try 2 0 1", "Try 1 0 1"] {
        q.line(line);
    }
    q.ask("try 1 1 3", &[&[0.5], &IDENTITY, b]);
    q.ask("try 1 1 3", &[&[0.5], &IDENTITY, &[0.0], b, &[0.0]]);
    // A move by itself is no chain; two poses are one.
    for question in ["lone", "chain"] {
        let pair = of_move(&quarter_turn());
        q.ask_poses(question, 2, &pair);
        for place in 0..3 {
            q.ask_trial(2, place, 3, &Pose { matrix: translated(1.0, 2.0, 3.0), ..pair[place.min(1)] }, b);
        }
    }
    // A rigid chain stays one: a pose that scales is 17 and one that mirrors 18, in the trial as in a copy.
    let mut turns = swing_of_six();
    turns.iter_mut().for_each(|pose| pose.pad = 0.5);
    if q.ask_poses_as(Kind::Rigid, "chain", 0, &turns) {
        for place in 0..turns.len() + 1 {
            let own = turns[place.min(last)];
            for matrix in [translated(2.0, -1.0, 0.5), diagonal(2.0, 1.0, 1.0, 1.0), diagonal(-1.0, 1.0, 1.0, 1.0), diagonal(0.0, 1.0, 1.0, 1.0)] {
                q.ask_trial(0, place, 3, &Pose { matrix, ..own }, b);
            }
        }
    }
    // Zeros of -0.
    let zeros = at_whole_times(&negative_zeros());
    q.ask_chain(0, &zeros);
    for (place, pose) in zeros.iter().enumerate() {
        q.ask_trial(0, place, 1, pose, &[-0.0; 6]);
        q.ask_trial(0, place, 1, &Pose { matrix: translated(-0.0, 2.0, -0.0), ..*pose }, &[-0.0; 6]);
    }
    // The fullest chain: its first place, its last and one in the middle.
    let full: Chain = (0..32).map(|i| Pose { time: i as f32, matrix: translated(i as f32, 0.0, 0.0), pad: 0.0 }).collect();
    q.ask_chain(3, &full);
    for place in [0, 1, 15, 30, 31, 32] {
        q.ask_trial(3, place, 1, &Pose { matrix: translated(0.5, 40.0, 0.0), ..full[place.min(31)] }, b);
    }
}

impl Random {
    /// A pose near the one at the place: dragged in space, in time or in its pad; at times one that is refused, or any other.
    fn dragged(&mut self, chain: &Chain, place: usize) -> Pose {
        let mut near = chain.clone();
        match self.below(10) {
            0 | 1 => self.spoil(&mut near),
            2 => return self.pick(chain),
            3 => near[place].matrix = self.any_move().poses[0],
            4 => near[place].pad = self.pad(),
            5 => near[place].time = self.time_in(chain),
            _ => (),
        }
        if self.one_in(2) {
            for axis in 0..3 {
                near[place].matrix[4 * axis + 3] += self.small();
            }
        }
        near[place]
    }
}

pub fn random<W: Write>(q: &mut Questions<W>, r: &mut Random) {
    q.new_case();
    let slot = r.below(SLOTS);
    let (kind, poses) = if r.one_in(3) { (Kind::Rigid, r.rigid_chain()) } else { (Kind::Plain, r.chain()) };
    if !q.ask_poses_as(kind, "chain", slot, &poses) {
        if let Some(pose) = poses.first().filter(|_| r.one_in(8)) {
            q.ask_trial(slot, 0, 1, pose, &ORIGIN);
        }
        return;
    }
    for _ in 0..2 + r.below(5) {
        let place = r.below(poses.len());
        let pose = r.dragged(&poses, place);
        let asked = if r.one_in(12) { poses.len() + r.below(3) } else { place };
        let depth = r.depth(poses.len() - 1);
        let b = r.bounds();
        q.ask_trial(slot, asked, depth, &pose, &b);
        if r.one_in(6) {
            q.ask(&format!("ccover {slot} {depth}"), &[&b]);
        }
    }
}
