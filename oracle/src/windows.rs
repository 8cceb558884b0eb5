//! Document 02's two booms over one bay: covers of one window of times, and the windows in which those of two chains meet. Written from document 02.

use crate::chain::Chain;
use crate::cover::{self, MAX_DEPTH};
use crate::judged::{Judged, Move};
use crate::refusal::*;

pub const MOST_TICKS: usize = 64;

/// The times from one tick to a later one, both included.
#[derive(Debug, Clone, Copy)]
pub struct Window {
    pub earlier: f32,
    pub later: f32,
}

/// The windows between neighbouring ticks: 21 where a tick is NaN, there are too few, too many, or they don't rise.
pub fn windows_of(ticks: &[f32]) -> Judged<Vec<Window>> {
    let windows: Vec<Window> = ticks.windows(2).map(|pair| Window { earlier: pair[0], later: pair[1] }).collect();
    if ticks.len() < 2 || ticks.len() > MOST_TICKS || !windows.iter().all(|w| w.earlier < w.later) {
        return Err(TICKS);
    }
    Ok(windows)
}

/// Where a tick lies in a move, by the original's own formula, limited to 0 and 1.
fn share_end(m: &Move, tick: f32) -> f32 {
    let f = &m.fields;
    let dt = (tick - f.start_time) / (f.end_time - f.start_time);
    if dt < 0.0 {
        0.0
    } else if dt > 1.0 {
        1.0
    } else {
        dt
    }
}

/// The pieces of an interval of dt, cut by rounded midpoints, in rising order.
fn cut(low: f32, high: f32, times: u64, pieces: &mut Vec<[f32; 2]>) {
    if times == 0 {
        pieces.push([low, high]);
        return;
    }
    let middle = (low + high) * 0.5;
    cut(low, middle, times - 1, pieces);
    cut(middle, high, times - 1, pieces);
}

impl Chain {
    /// The boxes of a window in working order: slices of all moves, poses, moves with equal poses.
    pub fn window_boxes(&self, b: &[f32; 6], depth: u64, w: Window) -> Judged<Vec<[f32; 6]>> {
        let mut boxes = Vec::new();
        let is_equal = |m: &Move| m.fields.start == m.fields.end;
        let last = self.moves.len() - 1;
        for m in self.moves.iter().filter(|m| !is_equal(m) && m.fields.start_time < w.later && m.fields.end_time > w.earlier) {
            let mut pieces = Vec::new();
            cut(share_end(m, w.earlier), share_end(m, w.later), depth, &mut pieces);
            for [low, high] in pieces {
                boxes.push(cover::padded_piece(m, low, high, b)?);
            }
        }
        for (place, pose) in self.poses.iter().enumerate() {
            let lies_in = w.earlier <= pose.time && pose.time <= w.later;
            let is_outside = (place == 0 && w.earlier < pose.time) || (place == last + 1 && pose.time < w.later);
            if lies_in || is_outside {
                boxes.push(cover::padded_pose(&pose.matrix, pose.pad, b)?);
            }
        }
        for (place, m) in self.moves.iter().enumerate().filter(|(_, m)| is_equal(m)) {
            let has_begun = place == 0 || w.later > m.fields.start_time;
            let is_over = place < last && w.earlier > m.fields.end_time;
            if has_begun && !is_over {
                boxes.push(cover::padded_pose(&m.fields.start.m, cover::greatest(m.pads[0], m.pads[1]), b)?);
            }
        }
        Ok(boxes)
    }

    /// 21 for ticks that don't rise, 6, 7, 8, then the union of the window's boxes, its zeros +0.
    pub fn window_cover(&self, b: &[f32; 6], depth: u64, w: Window) -> Judged<[f32; 6]> {
        if !(w.earlier < w.later) {
            return Err(TICKS);
        }
        cover::check_box(b)?;
        if depth > MAX_DEPTH {
            return Err(DEPTH);
        }
        let covered = self.window_boxes(b, depth, w)?.into_iter().reduce(cover::union).expect("a time of the window belongs to a move");
        Ok(cover::positive_zeros(covered))
    }

    /// The windows, from 0, in which the covers of two chains meet: 21, 6 and 7 of each box, 8, then each window's covers, this chain's first.
    pub fn windows(&self, other: &Chain, b: &[f32; 6], c: &[f32; 6], depth: u64, ticks: &[f32]) -> Judged<Vec<usize>> {
        let windows = windows_of(ticks)?;
        cover::check_box(b)?;
        cover::check_box(c)?;
        if depth > MAX_DEPTH {
            return Err(DEPTH);
        }
        let mut met = Vec::new();
        for (place, w) in windows.into_iter().enumerate() {
            let (x, y) = (self.window_cover(b, depth, w)?, other.window_cover(c, depth, w)?);
            if (0..3).all(|i| x[i] <= y[i + 3] && y[i] <= x[i + 3]) {
                met.push(place);
            }
        }
        Ok(met)
    }
}
