//! Questions about rows, window by window, and about boxes in parts: each case fills a slot and asks which rows are named, many of them at the faces of the boxes that the windows have.

use super::chains::{built, of_move, swing_of_six, Chain};
use super::windows::padded_swing;
use super::*;
use oracle::chain::{self, MOST_BOXES};
use oracle::reach::cut;
use oracle::windows::{windows_of, Window};

type Bounds = [f32; 6];

const SLOT: usize = 0;
const OTHER: usize = 1;
const MOST_TICKS: usize = 64;
/// More floats than this don't go into a line, behind the name and the numbers.
const MOST_FLOATS: usize = 884;
/// So many pieces are asked for at most, boxes, windows, moves and slices together.
const MOST_PIECES: usize = 4096;

impl<W: Write> Questions<W> {
    fn ask_reach(&mut self, slot: usize, depth: usize, boxes: &[Bounds], ticks: &[f32], rows: &[Bounds]) {
        self.ask(&format!("reach {slot} {depth} {} {} {}", boxes.len(), ticks.len(), rows.len()), &[boxes.as_flattened(), ticks, rows.as_flattened()]);
    }

    fn ask_cut(&mut self, count: u64, b: &Bounds) {
        self.ask(&format!("cut {count}"), &[b]);
    }
}

/// A box around a point, as wide as it says.
fn around(p: [f32; 3], width: f32) -> Bounds {
    std::array::from_fn(|i| if i < 3 { p[i] - width } else { p[i - 3] + width })
}

/// Rows on a grid in the plane, as high as the boom.
fn grid(from: i32, to: i32, width: f32) -> Vec<Bounds> {
    (from..to).flat_map(|x| (from..to).map(move |y| [x as f32, y as f32, -9.0, x as f32 + width, y as f32 + width, 9.0])).collect()
}

/// Rows that touch a box from outside on each axis, overlap it by the least or miss it by the least.
fn beside(b: &Bounds) -> Vec<Bounds> {
    let mut rows = Vec::new();
    for axis in 0..3 {
        for (face, is_low) in [(b[axis], true), (b[axis + 3], false)] {
            for at in [face.next_down(), face, face.next_up()] {
                let mut row = *b;
                (row[axis], row[axis + 3]) = if is_low { (at - 1.0, at) } else { (at, at + 1.0) };
                rows.push(row);
            }
        }
    }
    rows
}

fn fixed_cuts<W: Write>(q: &mut Questions<W>) {
    q.new_case();
    let huge = [f32::MIN, 0.0, 0.0, f32::MAX, 1.0, 1.0];
    // The rounded length is beside the true one, so that the last face would miss the high end if it were worked out.
    let rounded = [-1.0, 0.0, 0.0, 1e-8, 0.5, 0.5];
    let boxes =
        [[0., 0., 0., 3., 1., 1.], [0., 0., 0., 1., 3., 1.], [0., 0., 0., 1., 1., 3.], [0., 0., 0., 1., 2., 2.], [0., 0., 0., 2., 1., 2.], huge, rounded];
    for b in boxes.iter().chain(BOXES) {
        for count in 0..=MOST_BOXES as u64 + 1 {
            q.ask_cut(count, b);
        }
    }
    // Subnormal lengths, equal ends, a length of one step.
    for b in [[0.0, 0.0, 0.0, 1e-45, 0.0, 0.0], [5.0; 6], [1.0, 0.0, 0.0, 1.0f32.next_up(), 0.0, 0.0], [-0.0, 0.0, -0.0, 0.0, -0.0, 0.0]] {
        [1, 2, 3, 16].iter().for_each(|count| q.ask_cut(*count, &b));
    }
    [255, 4_294_967_295, 4_294_967_296, 4_294_967_297, u64::MAX].iter().for_each(|count| q.ask_cut(*count, &BOXES[1]));
    for line in ["cut", "cut 1", "cut  1", "cut x", "Cut 1", "cut 18446744073709551616 00000000 00000000 00000000 3f800000 3f800000 3f800000"] {
        q.line(line);
    }
    q.ask("cut 2", &[&BOXES[1][..5]]);
    q.ask("cut 2", &[BOXES[1].as_slice(), &[0.0]]);
}

/// Every depth, parts or the whole, all time and windows; rows at the faces of every piece.
fn fixed_swings<W: Write>(q: &mut Questions<W>) {
    let whole = BOXES[1];
    for chain in [swing_of_six(), padded_swing()] {
        q.new_case();
        q.ask_chain(SLOT, &chain);
        let kept = built(Kind::Plain, "chain", &chain).expect("a swing is built");
        for depth in 0..=13 {
            q.ask_reach(SLOT, depth, &[whole], &[-INFINITY, INFINITY], &grid(-6, 4, 0.5));
        }
        for count in [1, 2, 5, 16] {
            let parts = cut(&whole, count).expect("a box is cut");
            q.ask_reach(SLOT, 2, &parts, &[-INFINITY, 0.5, 2.0, 2.5, 7.0, 7.5, INFINITY], &grid(-5, 4, 0.5));
        }
        let ticks = [-1.0, 0.0, 1.0, 2.25, 7.0, 8.0, 9.0];
        for w in windows_of(&ticks).expect("they rise") {
            for piece in kept.window_boxes(&whole, 1, w).expect("a window is accepted") {
                q.ask_reach(SLOT, 1, &[whole], &ticks, &beside(&piece));
            }
        }
    }
    // So many windows that the highest bit is that of the last; one tick more.
    q.new_case();
    q.ask_chain(SLOT, &swing_of_six());
    let many: Vec<f32> = (0..=MOST_TICKS).map(|i| -1.0 + i as f32 / 6.0).collect();
    for count in [0, 1, 2, 3, MOST_TICKS - 1, MOST_TICKS, MOST_TICKS + 1] {
        q.ask_reach(SLOT, 1, &[whole], &many[..count], &grid(-5, 4, 0.5));
    }
}

/// 14 of the boxes, 14 of the rows, 21, 6 and 7 of the boxes, then of the rows, 8, and then those of the windows: each two at once.
fn fixed_order<W: Write>(q: &mut Questions<W>) {
    q.new_case();
    q.ask_chain(SLOT, &swing_of_six());
    let (good, rising) = (BOXES[1], [0.0, 1.0, 2.0]);
    let sets: [Vec<Bounds>; 6] = [vec![], vec![good; 17], vec![good], vec![good, BOXES[4]], vec![BOXES[6], good], vec![good, BOXES[5], BOXES[6]]];
    for boxes in &sets {
        for rows in &sets {
            for ticks in [&rising[..], &[0.0], &[1.0, 0.0], &[0.0, NAN]] {
                for depth in [1, 13] {
                    q.ask_reach(SLOT, depth, boxes, ticks, rows);
                }
            }
        }
    }
    for b in BOXES {
        for row in BOXES {
            q.ask_reach(SLOT, 3, &[good, *b], &rising, &[good, *row]);
        }
    }
    for ticks in [&[][..], &[0.0], &[0.0, 0.0], &[-0.0, 0.0], &[1.0, 0.0], &[NAN, 0.0], &[0.0, NAN], &[0.0, 1.0, 1.0], &[0.0, NAN, 1.0], &[-INFINITY, INFINITY]]
    {
        q.ask_reach(SLOT, 1, &[good], ticks, &[good, BOXES[2]]);
    }
    // Windows that are refused in the middle, at the first or at the last; of two boxes one alone; after rows that would be named.
    let chain = swing_of_six();
    let half = from_rows([[-1., 0., 0.], [0., -1., 0.], [0., 0., 1.]], [0.0; 3]);
    let far = [3e38, 0.0, 0.0, 3e38, 0.0, 0.0];
    for place in 0..chain.len() {
        let mut padded = chain.clone();
        padded[place].pad = f32::MAX;
        q.new_case();
        q.ask_chain(SLOT, &padded);
        for boxes in [vec![good], vec![good, far], vec![far, good]] {
            q.ask_reach(SLOT, 1, &boxes, &[-1.0, 0.5, 1.5, 2.25, 5.0, 7.5, 9.0], &grid(-3, 3, 0.5));
            q.ask_reach(SLOT, 1, &boxes, &[-INFINITY, -1.0, -0.5], &grid(-3, 3, 0.5));
        }
    }
    q.new_case();
    let turning: Chain = at_turns(&[IDENTITY, IDENTITY, half, IDENTITY, IDENTITY]);
    q.ask_chain(SLOT, &turning);
    for depth in 0..5 {
        for ticks in [&[0.0, 0.5, 1.0][..], &[0.0, 0.5, 1.5], &[1.0, 1.25, 1.5, 2.0], &[3.0, 3.5, 4.0], &[-INFINITY, 0.0, 4.0, INFINITY]] {
            q.ask_reach(SLOT, depth, &[BOXES[2], BOXES[1]], ticks, &grid(-3, 3, 0.5));
        }
    }
}

fn at_turns(matrices: &[[f32; 16]]) -> Chain {
    super::chains::at_whole_times(matrices)
}

/// Moves by themselves, with equal times too; empty slots; malformed lines.
fn fixed_slots<W: Write>(q: &mut Questions<W>) {
    q.new_case();
    let pair = of_move(&quarter_turn());
    q.ask_poses("lone", SLOT, &pair);
    let ticks = [-INFINITY, -1.0, 0.0, 0.25, 0.5, 1.0, 2.0, INFINITY];
    for depth in [0, 1, 4, 12, 13] {
        q.ask_reach(SLOT, depth, &[BOXES[1]], &ticks, &grid(-6, 4, 0.5));
    }
    for turn in [quarter_turn(), Move { poses: [quarter_turn().poses[0]; 2], ..quarter_turn() }] {
        q.ask_poses("lone", OTHER, &of_move(&Move { times: [0.25, 0.25], ..turn }));
        for depth in [0, 3] {
            q.ask_reach(OTHER, depth, &[BOXES[1]], &ticks, &grid(-6, 4, 0.5));
        }
    }
    q.ask_chain(OTHER, &pair);
    q.ask_reach(OTHER, 4, &[BOXES[1]], &ticks, &grid(-6, 4, 0.5));
    for slot in [2, 4] {
        q.ask_reach(slot, 1, &[BOXES[1]], &[0.0, 1.0], &[BOXES[2]]);
    }
    q.ask_reach(SLOT, 4_294_967_296, &[BOXES[1]], &[0.0, 1.0], &[BOXES[2]]);
    for line in ["reach", "reach 0", "reach 0 1", "reach 0 1 0", "reach 0 1 0 0", "reach 0 1 0 0 0", "reach 0 1 0 0 x", "Reach 0 1 0 0 0", "reach 0 -1 0 0 0"] {
        q.line(line);
    }
    // Counts that don't fit the floats, or no machine's memory.
    let floats = [BOXES[1].as_slice(), &[0.0, 1.0], &BOXES[2]];
    for counts in
        ["1 2 1", "1 2 0", "1 2 2", "1 1 1", "0 2 2", "2 2 0", "0 14 0", "18446744073709551615 2 1", "1 2 18446744073709551615", "3074457345618258603 2 1"]
    {
        q.ask(&format!("reach 0 1 {counts}"), &floats);
    }
    q.ask("reach 0 1 1 2 1", &[BOXES[1].as_slice(), &[0.0, 1.0], &BOXES[2], &[0.0]]);
    q.ask_reach(SLOT, 1, &[BOXES[1]], &[0.0, 1.0], &vec![BOXES[2]; (MOST_FLOATS - 8) / 6]);
    q.ask_reach(SLOT, 1, &[BOXES[1]], &[0.0, 1.0], &vec![BOXES[2]; (MOST_FLOATS - 8) / 6 + 2]);
}

pub fn fixed<W: Write>(q: &mut Questions<W>) {
    fixed_cuts(q);
    fixed_swings(q);
    fixed_order(q);
    fixed_slots(q);
}

impl Random {
    /// A boom in parts, several boxes, or now and then none or too many.
    fn boom_boxes(&mut self, b: Bounds) -> Vec<Bounds> {
        let count = match self.below(32) {
            0 => self.pick(&[0, 17, 17, 20]),
            1..=3 => MOST_BOXES,
            4..=8 => 1 + self.below(MOST_BOXES),
            _ => 1 + self.below(4),
        };
        let mut boxes = match cut(&b, count as u64) {
            Ok(parts) if !self.one_in(4) => parts,
            _ => (0..count).map(|_| self.bounds()).collect(),
        };
        if count > 0 && self.one_in(12) {
            boxes[self.below(count)] = self.pick(BOXES);
        }
        boxes
    }

    /// Ticks of one chain, few of them for many boxes.
    fn few_ticks(&mut self, poses: &Chain, boxes: usize) -> Vec<f32> {
        let mut ticks = match self.below(8) {
            0 => vec![-INFINITY, INFINITY],
            1 => vec![-INFINITY, self.time_in(poses), INFINITY],
            _ => self.ticks([poses, poses]),
        };
        if boxes > 4 && ticks.len() > 12 && ticks.len() <= MOST_TICKS {
            ticks.truncate(12);
        }
        ticks
    }

    /// A row beside, at or inside a face of a box that some window has, near such a box, or anywhere.
    fn row(&mut self, pieces: &[Bounds]) -> Bounds {
        if pieces.is_empty() || self.one_in(8) {
            return self.bounds();
        }
        let piece = self.pick(pieces);
        let mut row = piece;
        for axis in 0..3 {
            let (low, high) = (piece[axis], piece[axis + 3]);
            let width = self.pick(&[0.0, 0.25, 1.0]);
            (row[axis], row[axis + 3]) = match self.below(8) {
                0 => (high, high + width),
                1 => (low - width, low),
                2 => {
                    let at = self.near(high);
                    (at, at + width)
                }
                3 => {
                    let at = self.near(low);
                    (at - width, at)
                }
                4 => (high + width, high + 2.0 * width),
                _ => (low, high),
            };
        }
        row
    }

    /// Mostly few rows, now and then as many as a line has room for, none or refused ones.
    fn reach_rows(&mut self, pieces: &[Bounds], room: usize) -> Vec<Bounds> {
        let count = match self.below(40) {
            0 => 0,
            1 | 2 => room,
            3..=8 => 1 + self.below(room.max(1)),
            _ => 1 + self.below(16.min(room.max(1))),
        };
        let mut rows: Vec<Bounds> = (0..count).map(|_| self.row(pieces)).collect();
        if count > 0 && self.one_in(10) {
            rows[self.below(count)] = self.pick(BOXES);
        }
        rows
    }
}

/// The boxes of some windows, of some of the boom's boxes, to lay rows beside.
fn some_pieces(r: &mut Random, kept: &chain::Chain, boxes: &[Bounds], depth: usize, ticks: &[f32]) -> Vec<Bounds> {
    let windows: Vec<Window> = windows_of(ticks).unwrap_or_default();
    if windows.is_empty() || boxes.is_empty() || depth > 12 {
        return vec![];
    }
    let mut pieces = Vec::new();
    for _ in 0..3 {
        let (b, w) = (r.pick(boxes), r.pick(&windows));
        // A coarse depth is enough of a place, and the asked one gives the very faces.
        let depth = if r.one_in(2) { depth.min(5) } else { depth.min(2) };
        pieces.extend(kept.window_boxes(&b, depth as u64, w).unwrap_or_default());
    }
    pieces
}

fn ask_any<W: Write>(q: &mut Questions<W>, r: &mut Random, poses: &Chain, kept: &chain::Chain) {
    let mut b = r.bounds();
    if r.one_in(2) {
        // A boom along x.
        let length = 1.0 + r.below(24) as f32;
        b = [0.0, -0.25, 0.0, length, 0.25, 0.5];
    }
    let boxes = r.boom_boxes(b);
    let ticks = r.few_ticks(poses, boxes.len());
    let windows = ticks.len().saturating_sub(1).max(1);
    // A move's slices are shared among the windows, and each window has the poses and at least one piece a move that it meets.
    let most = (MOST_PIECES / (boxes.len().max(1) * (poses.len() + windows))).max(1).ilog2() as usize;
    let depth = match r.below(24) {
        0 => most.min(12),
        1 if boxes.len() == 1 && poses.len() < 4 && windows < 4 => r.pick(&[10, 11, 12]),
        2 => r.pick(&[0, 13]),
        _ => r.below(most.min(5) + 1),
    };
    let pieces = some_pieces(r, kept, &boxes, depth, &ticks);
    let room = MOST_FLOATS.saturating_sub(6 * boxes.len() + ticks.len()) / 6;
    let rows = r.reach_rows(&pieces, room);
    q.ask_reach(SLOT, depth, &boxes, &ticks, &rows);
    // The same at a greater depth, by one box of the parts, or in fewer windows.
    match r.below(8) {
        0 => q.ask_reach(SLOT, (depth + 1).min(12), &boxes, &ticks, &rows),
        1 if !boxes.is_empty() => q.ask_reach(SLOT, depth, &[b], &ticks, &rows),
        2 if ticks.len() > 2 => q.ask_reach(SLOT, depth, &boxes, &[ticks[0], ticks[ticks.len() - 1]], &rows),
        _ => (),
    }
    if r.one_in(2) {
        let count = r.below(MOST_BOXES + 2) as u64;
        let b = if r.one_in(2) { r.bounds() } else { around(r.point(), r.unit().abs()) };
        q.ask_cut(count, &b);
    }
}

pub fn random<W: Write>(q: &mut Questions<W>, r: &mut Random) {
    q.new_case();
    let (kind, mut poses) = r.either_chain();
    let mut question = "chain";
    if r.one_in(5) {
        question = "lone";
        if kind == Kind::Plain {
            poses = of_move(&r.any_move());
            poses.iter_mut().for_each(|pose| pose.pad = r.pad());
        }
        poses.truncate(2);
    }
    if question == "lone" && poses.len() == 2 {
        if r.one_in(4) {
            poses[1].time = poses[0].time;
        }
        if r.one_in(4) {
            poses[1].matrix = poses[0].matrix;
        }
    } else if poses.len() > 2 && r.one_in(5) {
        // A window in the middle is refused.
        let place = r.below(poses.len());
        poses[place].pad = r.pick(&[f32::MAX, 3e38]);
    }
    q.ask_poses_as(kind, question, SLOT, &poses);
    match built(kind, question, &poses) {
        Some(kept) => (0..1 + r.below(3)).for_each(|_| ask_any(q, r, &poses, &kept)),
        None if r.one_in(8) => q.ask_reach(SLOT, 1, &[BOXES[1]], &[0.0, 1.0], &[BOXES[2]]),
        None => (),
    }
}
