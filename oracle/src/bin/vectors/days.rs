//! Questions about days of booms: each is a whole case.

use super::*;
use oracle::day::{MOST_BOOMS, MOST_TICKS};

/// More booms than this don't go into a line.
const MOST_IN_A_LINE: usize = 142;

type Boom = ([f32; 6], u64);

impl<W: Write> Questions<W> {
    fn ask_day(&mut self, booms: &[Boom]) {
        let mut line = "day".to_owned();
        for (cover, ticks) in booms {
            for x in cover {
                line += &format!(" {:08x}", x.to_bits());
            }
            line += &format!(" {ticks}");
        }
        self.new_case();
        self.line(&line);
    }
}

/// A box along x.
fn along(low: f32, high: f32) -> [f32; 6] {
    [low, 0.0, 0.0, high, 1.0, 1.0]
}

pub fn fixed<W: Write>(q: &mut Questions<W>) {
    let unit = along(0.0, 1.0);
    for count in [0, 1, 2, 7, 8, 9, 10, 16, 33, MOST_IN_A_LINE] {
        q.ask_day(&vec![(unit, 3); count]);
        q.ask_day(&(0..count).map(|i| (along(2.0 * i as f32, 2.0 * i as f32 + 1.0), 1 + i as u64)).collect::<Vec<_>>());
    }
    // Run lengths at their ends, and 22 before 6 and 7.
    for ticks in [0, 1, 2, 999, 1000, 1001, 1 << 16, 1 << 32, (1 << 32) + 1, u64::MAX] {
        for cover in [unit, [NAN; 6], along(1.0, 0.0)] {
            q.ask_day(&[(cover, ticks)]);
            q.ask_day(&[(unit, 5), (cover, ticks)]);
            q.ask_day(&[(cover, ticks), (unit, 5), (unit, 1)]);
        }
    }
    // 6 and 7 box by box.
    for first in BOXES {
        for second in BOXES {
            q.ask_day(&[(*first, 2), (*second, 3)]);
        }
    }
    // Apart, touching and overlapping by the least, on each axis.
    for axis in 0..3 {
        for low in [1.0f32.next_down(), 1.0, 1.0f32.next_up(), -1.0, -1.0f32.next_up(), -1.0f32.next_down(), 0.0, -0.0] {
            let mut other = [0.0, 0.0, 0.0, 1.0, 1.0, 1.0];
            other[axis] = low.min(low + 1.0);
            other[axis + 3] = other[axis] + 1.0;
            for ticks in [1, 4] {
                q.ask_day(&[([0.0, 0.0, 0.0, 1.0, 1.0, 1.0], 3), (other, ticks)]);
                q.ask_day(&[(other, ticks), ([0.0, 0.0, 0.0, 1.0, 1.0, 1.0], 3), (other, 2)]);
            }
        }
    }
    // Zeros of both signs touch.
    q.ask_day(&[([-1.0, -1.0, -1.0, -0.0, -0.0, -0.0], 2), ([0.0, 0.0, 0.0, 1.0, 1.0, 1.0], 2)]);
    // One that stops makes way in the same tick; one that starts in a tick keeps the next from starting in it.
    q.ask_day(&[(along(0.0, 1.0), 4), (along(1.0, 2.0), 4), (along(2.0, 3.0), 4), (along(3.0, 4.0), 4), (along(1.5, 3.5), 1)]);
    // Each waits for all others: as late as can be.
    q.ask_day(&[(unit, MOST_TICKS); MOST_BOOMS]);
    for line in ["day ", "day 5", "day 00000000", "Day", "days"] {
        q.line(line);
    }
    for last in ["", "x", "-1", "1.", "0x1", "18446744073709551616", "00000000000000000000000000007"] {
        q.line(&format!("day 00000000 00000000 00000000 3f800000 3f800000 3f800000 {last}"));
        q.line(&format!("day 00000000 00000000 00000000 3f800000 3f800000 3f800000 {last} 00000000 00000000 00000000 3f800000 3f800000 3f800000 4"));
    }
    q.line("day 00000000 00000000 00000000 3f800000 3f800000 3f800000 4 ");
    q.line("day 00000000 00000000 00000000 3f800000 3f800000 3f800000 4  00000000");
    q.line("day 00000000 00000000 00000000 3f800000 3f800000 4 3f800000");
}

impl Random {
    fn run_length(&mut self) -> u64 {
        match self.below(24) {
            0 => self.pick(&[0, 0, 1001, 1001, 1 << 16, 1 << 32, u64::MAX]),
            1 => self.pick(&[999, MOST_TICKS]),
            2..=6 => 1 + self.below(MOST_TICKS as usize) as u64,
            _ => 1 + self.below(6) as u64,
        }
    }

    /// Boxes of a field of few whole metres, so that many touch; or any.
    pub fn field_box(&mut self, size: usize) -> [f32; 6] {
        let mut b = [0.0; 6];
        for axis in 0..3 {
            let low = self.below(size) as f32;
            let high = low + self.below(3) as f32;
            (b[axis], b[axis + 3]) = (low, high);
            if self.one_in(24) {
                b[axis + 3] = self.near(high);
            }
        }
        b
    }
}

pub fn random<W: Write>(q: &mut Questions<W>, r: &mut Random) {
    let count = match r.below(24) {
        0 => r.pick(&[0, 9, 9, 12, MOST_IN_A_LINE]),
        1..=12 => MOST_BOOMS - r.below(3),
        _ => 1 + r.below(MOST_BOOMS),
    };
    let size = 1 + r.below(6);
    let is_any = r.one_in(8);
    let is_good = !r.one_in(3);
    let mut booms: Vec<Boom> = Vec::new();
    for _ in 0..count {
        let cover = if is_any { r.bounds() } else { r.field_box(size) };
        let ticks = r.run_length();
        booms.push((cover, if is_good { ticks.clamp(1, MOST_TICKS) } else { ticks }));
    }
    if count > 0 && r.one_in(6) {
        booms[r.below(count)].0 = r.pick(BOXES);
    }
    q.ask_day(&booms);
}
