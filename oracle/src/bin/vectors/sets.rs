//! Questions about sets of boxes: each case fills a slot and asks for the covers of some boxes at one depth, and at times for a box's own.

use super::chains::{at_whole_times, of_move, swing_of_six, Chain, SLOTS};
use super::*;
use oracle::chain::MOST_BOXES;

/// More boxes than this don't go into a line.
const MOST_IN_A_LINE: usize = 147;

type Bounds = [f32; 6];

impl<W: Write> Questions<W> {
    fn ask_set(&mut self, slot: usize, depth: usize, boxes: &[Bounds]) {
        self.ask(&format!("cset {slot} {depth}"), &[boxes.as_flattened()]);
    }
}

pub fn fixed<W: Write>(q: &mut Questions<W>) {
    let good: Vec<Bounds> = BOXES.iter().copied().filter(|b| b.iter().all(|x| x.abs() < 100.0) && (0..3).all(|i| b[i] <= b[i + 3])).collect();
    let some = |count: usize| -> Vec<Bounds> { good.iter().copied().cycle().take(count).collect() };
    q.new_case();
    q.ask_set(0, 4, &good);
    q.ask_chain(0, &swing_of_six());
    for count in [0, 1, 2, 15, 16, 17, 18, 33, MOST_IN_A_LINE] {
        q.ask_set(0, 4, &some(count));
    }
    // 14 before every other number; a set of refused boxes alone.
    let nan = [NAN; 6];
    for depth in [0, 13] {
        q.ask_set(0, depth, &[]);
        q.ask_set(0, depth, &[nan; 17]);
        q.ask_set(0, depth, &[nan; 16]);
        q.ask_set(0, depth, &some(16));
    }
    // The first refused box's number: every box of the list at each of two places, the other places good.
    for first in BOXES {
        for second in BOXES {
            for (before, between) in [(0, 0), (1, 2)] {
                q.ask_set(0, 3, &[some(before), vec![*first], some(between), vec![*second], some(1)].concat());
            }
        }
        for depth in [0, 3, 13] {
            q.ask_set(0, depth, &[*first, nan]);
        }
    }
    for place in [0, 1, 7, 15] {
        let mut boxes = some(16);
        boxes[place][4] = INFINITY;
        q.ask_set(0, 2, &boxes);
    }
    // Zeros of both signs.
    let zeros = [[0.0; 6], [-0.0; 6]];
    q.ask_set(0, 2, &zeros);
    q.ask_set(0, 2, &[zeros[1], zeros[0]]);
    q.ask_chain(3, &at_whole_times(&negative_zeros()));
    q.ask_set(3, 2, &zeros);
    q.ask_set(3, 2, &[zeros[1], zeros[0], zeros[1]]);
    for depth in ["4294967296", "18446744073709551615", "18446744073709551616", "", "x", "-1"] {
        q.ask(&format!("cset 0 {depth}"), &[&good[1]]);
    }
    for line in ["cset", "cset 0", "cset 4 1", "cset 1 1", "cset 0 1 ", "cset 0 1 00000000", "Cset 0 1"] {
        q.line(line);
    }
    q.ask("cset 0 1", &[good[..2].as_flattened(), &[0.0]]);
    // A move by itself is asked for no set; as a chain it is.
    for question in ["lone", "chain"] {
        q.ask_poses(question, 2, &of_move(&quarter_turn()));
        q.ask_set(2, 5, &good);
    }
}

impl Random {
    /// The parts of a boom: boxes about as large as each other, which share faces.
    fn boom(&mut self, count: usize) -> Vec<Bounds> {
        let length = 0.25 + self.real().abs() as f32;
        let across = self.one_in(2);
        (0..count)
            .map(|i| {
                let (low, high) = (length * i as f32, length * (i + 1) as f32);
                if across && i % 2 == 1 {
                    [-high, 0.0, 0.0, high, 0.5, 0.5]
                } else {
                    [low, -0.5, 0.0, high, 0.0, 0.5]
                }
            })
            .collect()
    }

    /// Mostly 1 to 16 boxes, some of them the same; now and then none, or too many.
    fn boxes(&mut self) -> Vec<Bounds> {
        let count = match self.below(24) {
            0 => self.pick(&[0, 17, 17, 18, 40, MOST_IN_A_LINE]),
            1 | 2 => MOST_BOXES,
            3..=6 => 1 + self.below(MOST_BOXES),
            _ => 1 + self.below(5),
        };
        let mut boxes = if self.one_in(3) { self.boom(count) } else { (0..count).map(|_| self.bounds()).collect() };
        if count > 1 && self.one_in(4) {
            boxes[self.below(count)] = boxes[self.below(count)];
        }
        if count > 0 && self.one_in(4) {
            // A box that is refused, or nearly, at any place.
            boxes[self.below(count)] = self.pick(BOXES);
        }
        boxes
    }
}

pub fn random<W: Write>(q: &mut Questions<W>, r: &mut Random) {
    q.new_case();
    let slot = r.below(SLOTS);
    let poses: Chain = if r.one_in(4) { of_move(&r.any_move()) } else { r.chain() };
    if !q.ask_chain(slot, &poses) {
        if r.one_in(8) {
            q.ask_set(slot, 1, &r.boxes());
        }
        return;
    }
    for _ in 0..1 + r.below(3) {
        let boxes = r.boxes();
        // Many boxes are asked less deep.
        let depth = r.depth(poses.len() - 1 + boxes.len() / 4);
        q.ask_set(slot, depth, &boxes);
        if let Some(b) = boxes.first().filter(|_| r.one_in(4)) {
            q.ask(&format!("ccover {slot} {depth}"), &[b]);
        }
    }
}
