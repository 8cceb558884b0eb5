//! Our own query after document 02's fourteen: a box in parts (`cut`), and which rows a boom may wet in which windows of times (`reach`). A window's boxes are those of `windows`,
//! each asked by itself and not by their union.

use crate::chain::{Chain, MOST_BOXES};
use crate::cover::{check_box, least, MAX_DEPTH};
use crate::day::meet;
use crate::judged::Judged;
use crate::refusal::{DEPTH, SET};
use crate::rows::MOST_ROWS;
use crate::windows::windows_of;

/// A box in n parts along its longest axis, the first of equals: 14 for none or more than 16, then 6 and 7.
pub fn cut(b: &[f32; 6], n: u64) -> Judged<Vec<[f32; 6]>> {
    if n == 0 || n > MOST_BOXES as u64 {
        return Err(SET);
    }
    check_box(b)?;
    let length = |axis: usize| b[axis + 3] - b[axis];
    let longest = (1..3).fold(0, |longest, axis| if length(axis) > length(longest) { axis } else { longest });
    let (low, high) = (b[longest], b[longest + 3]);
    let mut faces = vec![low];
    faces.extend((1..n).map(|i| least(low + (high - low) * (i as f32 / n as f32), high)));
    faces.push(high);
    let part = |ends: &[f32]| {
        let mut part = *b;
        (part[longest], part[longest + 3]) = (ends[0], ends[1]);
        part
    };
    Ok(faces.windows(2).map(part).collect())
}

impl Chain {
    /// One mask a row, whose bit w says that a box of window w, of one of the boom's boxes, meets the row. 14 of the boxes, 14 of the rows, 21, 6 and 7 box by box, then row by row, 8, and
    /// then the number of the first window's cover that is refused, in a window that of the first box.
    pub fn reach(&self, boxes: &[[f32; 6]], depth: u64, ticks: &[f32], rows: &[[f32; 6]]) -> Judged<Vec<u64>> {
        if boxes.is_empty() || boxes.len() > MOST_BOXES || rows.is_empty() || rows.len() > MOST_ROWS {
            return Err(SET);
        }
        let windows = windows_of(ticks)?;
        boxes.iter().try_for_each(check_box)?;
        rows.iter().try_for_each(check_box)?;
        if depth > MAX_DEPTH {
            return Err(DEPTH);
        }
        let mut masks = vec![0; rows.len()];
        for (place, w) in windows.into_iter().enumerate() {
            for b in boxes {
                let wetted = self.window_boxes(b, depth, w)?;
                for (mask, row) in masks.iter_mut().zip(rows) {
                    if wetted.iter().any(|piece| meet(piece, row)) {
                        *mask |= 1u64 << place;
                    }
                }
            }
        }
        Ok(masks)
    }
}

#[cfg(test)]
mod tests {
    use super::*;
    use crate::chain::Pose;
    use crate::core::transform::Matrix4x4;
    use crate::judged::Kind;

    fn shifted(time: f32, x: f32, pad: f32) -> Pose {
        let mut matrix = Matrix4x4::default();
        matrix.m[0][3] = x;
        Pose { time, matrix, pad }
    }

    /// Along x from 0 to 8 in 8 s, a rest of 2 s, and back; rigid, so that the slices of a shift are as wide as the shift alone.
    fn there_and_back(pads: [f32; 4]) -> Chain {
        let poses = [(0.0, 0.0), (8.0, 8.0), (10.0, 8.0), (18.0, 0.0)];
        let poses: Vec<Pose> = poses.iter().zip(pads).map(|(&(time, x), pad)| shifted(time, x, pad)).collect();
        Chain::build(Kind::Rigid, &poses).unwrap()
    }

    /// Rows along x, each from its first number to its second.
    fn rows(ends: &[(f32, f32)]) -> Vec<[f32; 6]> {
        ends.iter().map(|&(low, high)| [low, 0.0, 0.0, high, 1.0, 1.0]).collect()
    }

    const BOOM: [f32; 6] = [0.0, 0.0, 0.0, 0.5, 1.0, 1.0];

    #[test]
    fn parts() {
        let ends = |b: &[f32; 6], n: u64, axis: usize| -> Vec<f32> { cut(b, n).unwrap().iter().flat_map(|part| [part[axis], part[axis + 3]]).collect() };
        assert_eq!(ends(&[0.0, 0.0, 0.0, 3.0, 1.0, 1.0], 3, 0), [0.0, 1.0, 1.0, 2.0, 2.0, 3.0]);
        assert_eq!(ends(&[0.0, 0.0, 0.0, 3.0, 1.0, 1.0], 3, 1), [0.0, 1.0, 0.0, 1.0, 0.0, 1.0]);
        // The longest axis, the first of equals.
        assert_eq!(ends(&[0.0, 0.0, 0.0, 1.0, 1.0, 2.0], 2, 2), [0.0, 1.0, 1.0, 2.0]);
        assert_eq!(ends(&[0.0, 0.0, 0.0, 1.0, 2.0, 2.0], 2, 1), [0.0, 1.0, 1.0, 2.0]);
        // The rounded length is 1, and the last face the high end all the same.
        assert_eq!(ends(&[-1.0, 0.0, 0.0, 1e-8, 0.0, 0.0], 2, 0), [-1.0, -0.5, -0.5, 1e-8]);
        // A length beyond the floats: no face is above the high end.
        assert_eq!(ends(&[f32::MIN, 0.0, 0.0, f32::MAX, 0.0, 0.0], 2, 0), [f32::MIN, f32::MAX, f32::MAX, f32::MAX]);
    }

    #[test]
    fn parts_that_are_refused() {
        let (nan, crossed) = ([f32::NAN; 6], [1.0, 0.0, 0.0, 0.0, 1.0, 1.0]);
        assert_eq!((cut(&nan, 0), cut(&nan, 17), cut(&nan, 16)), (Err(14), Err(14), Err(6)));
        assert_eq!((cut(&crossed, 1), cut(&BOOM, u64::MAX)), (Err(7), Err(14)));
        assert_eq!(cut(&BOOM, 1), Ok(vec![BOOM]));
    }

    #[test]
    fn rows_by_windows() {
        let chain = there_and_back([0.0; 4]);
        let field = rows(&[(1.0, 1.25), (4.0, 4.25), (8.25, 9.0), (8.5, 9.0), (8.5f32.next_up(), 9.0), (-1.0, -0.0), (-1.0, (-0.0f32).next_down())]);
        let masks = chain.reach(&[BOOM], 6, &[f32::NEG_INFINITY, 2.0, 6.0, 9.0, 12.0, 16.0, f32::INFINITY], &field);
        assert_eq!(masks, Ok(vec![0b100001, 0b010010, 0b001100, 0b001100, 0, 0b100001, 0]));
        // The windows side by side are all time.
        assert_eq!(chain.reach(&[BOOM], 6, &[f32::NEG_INFINITY, f32::INFINITY], &field), Ok(vec![1, 1, 1, 1, 0, 1, 0]));
        // A tick belongs to both windows beside it.
        assert_eq!(chain.reach(&[[0.0; 6]], 6, &[-1.0, 0.0, 1.0], &rows(&[(-1.0, 0.0)])), Ok(vec![0b11]));
    }

    /// A row between two pieces lies in the cover and is not named; a coarser depth names it, and so does one box around two parts.
    #[test]
    fn pieces_and_parts() {
        let mut far = there_and_back([0.0; 4]).poses[1];
        far.matrix.m[1][3] = 8.0;
        let chain = Chain::build(Kind::Rigid, &[shifted(0.0, 0.0, 0.0), far]).unwrap();
        let corner = [[4.0, 1.0, 0.0, 4.25, 2.0, 1.0]];
        let all_time = [f32::NEG_INFINITY, f32::INFINITY];
        let named = |boxes: &[[f32; 6]], depth: u64| chain.reach(boxes, depth, &all_time, &corner).unwrap()[0];
        assert_eq!([1, 3, 4].map(|depth| named(&[BOOM], depth)), [1, 0, 0]);
        let ends = [[0.0, 0.0, 0.0, 0.5, 0.5, 1.0], [6.0, 5.0, 0.0, 6.5, 5.5, 1.0]];
        assert_eq!((named(&ends, 4), named(&[[0.0, 0.0, 0.0, 6.5, 5.5, 1.0]], 4)), (0, 1));
    }

    /// Each pose's box grows by its own pad, that of the rest by the larger.
    #[test]
    fn pads() {
        let chain = there_and_back([0.0, 1.0, 3.0, 0.0]);
        let field = rows(&[(11.5, 12.0), (11.5f32.next_up(), 12.0)]);
        assert_eq!(chain.reach(&[BOOM], 5, &[8.5, 9.0, 9.5], &field), Ok(vec![0b11, 0]));
        assert_eq!(chain.reach(&[BOOM], 5, &[f32::NEG_INFINITY, 0.0], &field), Ok(vec![0, 0]));
    }

    #[test]
    fn a_move_by_itself_with_equal_times() {
        let jump = Chain::lone(Kind::Rigid, &[shifted(1.0, 0.0, 0.0), shifted(1.0, 4.0, 0.0)]).unwrap();
        let field = rows(&[(0.25, 0.25), (2.0, 2.0), (4.25, 4.25)]);
        let masks = jump.reach(&[BOOM], 1, &[0.0, 0.5, 1.0, 1.5, 2.0], &field).unwrap();
        // The tick 1 has both poses; a window around it has the move itself too.
        assert_eq!(masks, [0b0111, 0, 0b1110]);
        assert_eq!(jump.reach(&[BOOM], 1, &[0.0, 2.0], &field), Ok(vec![1, 1, 1]));
    }

    #[test]
    fn refusals_in_order() {
        let chain = there_and_back([0.0, 0.0, 0.0, f32::MAX]);
        let (nan, crossed) = ([f32::NAN; 6], [1.0, 0.0, 0.0, 0.0, 1.0, 1.0]);
        let number = |boxes: &[[f32; 6]], depth: u64, ticks: &[f32], rows: &[[f32; 6]]| chain.reach(boxes, depth, ticks, rows).err();
        assert_eq!(number(&[], 13, &[], &[nan]), Some(14));
        assert_eq!(number(&[nan; 17], 13, &[], &[nan]), Some(14));
        assert_eq!(number(&[nan; 16], 13, &[], &[]), Some(14));
        assert_eq!(number(&[nan], 13, &[], &[nan; 257]), Some(14));
        assert_eq!(number(&[nan], 13, &[0.0], &[nan; 256]), Some(21));
        assert_eq!(number(&[BOOM, crossed, nan], 13, &[0.0, 1.0], &[nan]), Some(7));
        assert_eq!(number(&[nan, crossed], 13, &[0.0, 1.0], &[crossed]), Some(6));
        assert_eq!(number(&[BOOM], 13, &[0.0, 1.0], &[BOOM, nan, crossed]), Some(6));
        assert_eq!(number(&[BOOM], 13, &[0.0, 1.0], &[BOOM]), Some(8));
        // The last move's windows alone are refused: its pad overflows.
        let far = [3e38, 0.0, 0.0, 3e38, 0.0, 0.0];
        assert_eq!(number(&[BOOM, far], 1, &[0.0, 1.0, 9.0, 10.0], &[BOOM]), None);
        assert_eq!(number(&[BOOM, far], 1, &[0.0, 1.0, 11.0, 12.0], &[BOOM]), Some(5));
    }
}
