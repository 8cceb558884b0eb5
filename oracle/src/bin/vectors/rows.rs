//! Questions about the rows that a boom reaches: each is a whole case, a cover and rows.

use super::*;

/// More rows than this don't go into a line.
const MOST_IN_A_LINE: usize = 147;

impl<W: Write> Questions<W> {
    fn ask_rows(&mut self, cover: &[f32; 6], rows: &[[f32; 6]]) {
        self.new_case();
        self.ask("rows", &[cover, rows.as_flattened()]);
    }
}

const UNIT: [f32; 6] = [0.0, 0.0, 0.0, 1.0, 1.0, 1.0];

/// A row along x.
fn along(low: f32, high: f32) -> [f32; 6] {
    [low, 0.0, 0.0, high, 1.0, 1.0]
}

pub fn fixed<W: Write>(q: &mut Questions<W>) {
    for count in [0, 1, 2, 8, 16, 17, 64, MOST_IN_A_LINE] {
        q.ask_rows(&UNIT, &vec![UNIT; count]);
        q.ask_rows(&UNIT, &vec![along(2.0, 3.0); count]);
        // Every other one, and the last alone.
        q.ask_rows(&UNIT, &(0..count).map(|i| along((i % 2 * 2) as f32, 3.0)).collect::<Vec<_>>());
        q.ask_rows(&UNIT, &(0..count).map(|i| if i + 1 == count { UNIT } else { along(2.0, 3.0) }).collect::<Vec<_>>());
    }
    // 14 before 6 and 7, the cover's before a row's, and of the rows the first.
    for cover in BOXES {
        q.ask_rows(cover, &[]);
        for row in BOXES {
            q.ask_rows(cover, &[*row]);
            q.ask_rows(&UNIT, &[UNIT, *cover, *row, UNIT]);
        }
    }
    // Apart, touching and overlapping by the least, on each axis and below zero too.
    for axis in 0..3 {
        for low in [1.0f32.next_down(), 1.0, 1.0f32.next_up()] {
            let mut row = UNIT;
            (row[axis], row[axis + 3]) = (low, low + 1.0);
            let (mut below, mut cover) = (UNIT, UNIT);
            (below[axis], below[axis + 3]) = (-low - 1.0, -low);
            (cover[axis], cover[axis + 3]) = (-1.0, 1.0);
            q.ask_rows(&UNIT, &[row, along(5.0, 6.0), row]);
            q.ask_rows(&row, &[UNIT, along(5.0, 6.0), row]);
            q.ask_rows(&cover, &[row, below, along(5.0, 6.0)]);
        }
    }
    // Zeros of both signs touch, and a row may be a point or a plane.
    q.ask_rows(&[-1.0, -1.0, -1.0, -0.0, -0.0, -0.0], &[UNIT, ORIGIN, [-0.0; 6], along(f32::from_bits(1), 1.0)]);
    q.ask_rows(&ORIGIN, &[[-1.0, -1.0, -1.0, -0.0, -0.0, -0.0], along(-0.0, -0.0), along(f32::from_bits(1), 1.0)]);
    for line in ["rows ", "Rows", "row", "rows 0", "rows 00000000", "rows 00000000 00000000 00000000 00000000 00000000 00000000 1"] {
        q.line(line);
    }
    q.ask("rows", &[&UNIT, &UNIT[..5]]);
    q.ask("rows", &[&UNIT, &UNIT, &UNIT[..1]]);
    // One box more than a line has room for.
    q.ask("rows", &[&[0.0; 6 * (MOST_IN_A_LINE + 2)]]);
}

pub fn random<W: Write>(q: &mut Questions<W>, r: &mut Random) {
    let count = match r.below(48) {
        0 => r.pick(&[0, 1, MOST_IN_A_LINE - 1, MOST_IN_A_LINE, MOST_IN_A_LINE]),
        1..=4 => 1 + r.below(MOST_IN_A_LINE),
        _ => 1 + r.below(12),
    };
    let size = 1 + r.below(8);
    let is_any = r.one_in(8);
    let mut boxes: Vec<[f32; 6]> = (0..=count).map(|_| if is_any { r.bounds() } else { r.field_box(size) }).collect();
    if !is_any {
        // A box of the field may have its greatest corner below its least by a few bits: most are put right.
        for b in boxes.iter_mut().filter(|_| !r.one_in(40)) {
            for axis in 0..3 {
                if b[axis + 3] < b[axis] {
                    b[axis + 3] = b[axis];
                }
            }
        }
    }
    if r.one_in(8) {
        boxes[r.below(count + 1)] = r.pick(BOXES);
    }
    if r.one_in(4) {
        // Rows that touch the cover at a face, or miss it by little.
        let cover = boxes[0];
        for row in &mut boxes[1..] {
            let axis = r.below(3);
            let width = r.below(3) as f32;
            let at = r.near(cover[axis + 3]);
            (row[axis], row[axis + 3]) = (at, at + width);
        }
    }
    q.ask_rows(&boxes[0], &boxes[1..]);
}
