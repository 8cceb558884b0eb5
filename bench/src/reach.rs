//! Which rows are named, beside the set's covers of the same boxes at the same depth, and a box in parts beside the second implementation.

use crate::chains::asked;
use crate::inputs::{array, original_matrix, Case};
use crate::{compare, Bounds};
use jellyplain::{cut, Chain, Pose, BOXES, ROWS};
use oracle::chain;
use oracle::judged;
use std::hint::black_box;

const ALL_TIME: [f32; 2] = [f32::NEG_INFINITY, f32::INFINITY];
/// The rows stand on a grid of so many by so many.
const ROWS_A_SIDE: usize = 16;
const PARTS: u32 = 16;

/// Rows that fill a box in the plane, as high as it is: the square of a side of the grid, three quarters of it row and a quarter lane.
fn grid(b: &Bounds) -> Vec<Bounds> {
    let at = |axis: usize, place: f32| b.p_min[axis] + (b.p_max[axis] - b.p_min[axis]) * place / ROWS_A_SIDE as f32;
    let row = |i: usize| {
        let (x, y) = ((i % ROWS_A_SIDE) as f32, (i / ROWS_A_SIDE) as f32);
        Bounds { p_min: [at(0, x), at(1, y), b.p_min[2]], p_max: [at(0, x + 0.75), at(1, y + 0.75), b.p_max[2]] }
    };
    (0..ROWS).map(row).collect()
}

/// The second implementation's chain of the same poses.
fn second(poses: &[Pose]) -> chain::Chain {
    let poses: Vec<chain::Pose> = poses.iter().map(|pose| chain::Pose { time: pose.time, matrix: original_matrix(&pose.matrix), pad: pose.pad }).collect();
    chain::Chain::build(judged::Kind::Plain, &poses).expect("what the port builds is built")
}

fn arrays(boxes: &[Bounds]) -> Vec<[f32; 6]> {
    boxes.iter().map(array).collect()
}

/// Rows all over the set's union; rows above it, which each slice meets on the two axes that are asked first; and rows that the first slice meets.
fn fields(chain: &Chain, parts: &[Bounds], depth: u32) -> [(&'static str, Vec<Bounds>); 3] {
    let covers = chain.covers(parts, depth).expect("a set is covered where each of its boxes is");
    let all = covers.union;
    let [x0, y0, _] = all.p_min;
    let [x1, y1, top] = all.p_max;
    let above = Bounds { p_min: [x0, y0, top + 1.0], p_max: [x1, y1, top + 2.0] };
    [("256 rows", grid(&all)), ("256 rows above", vec![above; ROWS]), ("256 rows under all", vec![all; ROWS])]
}

fn compare_reach(name: &str, poses: &[Pose], bounds: &Bounds) {
    let chain = Chain::new(poses).expect("a part of a chain that is built is built");
    let (parts, second) = (cut(bounds, PARTS).expect("a box is cut"), second(poses));
    assert_eq!(arrays(&parts), oracle::reach::cut(&array(bounds), u64::from(PARTS)).expect("a box is cut"));
    assert_eq!(parts.len(), BOXES);
    for (depth, rounds) in [(4, 60), (8, 20)] {
        for (what, rows) in fields(&chain, &parts, depth) {
            let masks = chain.reach(&parts, depth, &ALL_TIME, &rows).expect("a window is accepted where the cover is");
            let by_second = second.reach(&arrays(&parts), u64::from(depth), &ALL_TIME, &arrays(&rows)).expect("what the port answers is answered");
            assert_eq!(masks, by_second, "rows of depth {depth}, {name}");
            let named = masks.iter().filter(|mask| **mask != 0).count();
            let name = format!("{what}, depth {depth}, {name}: {named}");
            let reach = || asked(chain.reach(black_box(&parts), depth, &ALL_TIME, &rows));
            compare(&name, rounds, 1, &mut || reach(), &mut || asked(chain.covers(black_box(&parts), depth)));
        }
    }
}

/// A move that turns, and the chain of as many as there are: each beside its set of 16 covers. Then a box in 16 parts.
pub fn compare_all(cases: &[Case]) {
    for case in cases.iter().take(2) {
        compare_reach("a move", &case.poses, &case.bounds);
    }
    let chained = |count: usize| -> Vec<Pose> {
        cases.iter().zip(0u8..).take(count).map(|(case, second)| Pose { time: f32::from(second), matrix: case.poses[0].matrix, pad: 0.0 }).collect()
    };
    let bounds = cases[0].bounds;
    let poses =
        (2..=8).rev().map(chained).find(|poses| Chain::new(poses).is_ok_and(|chain| chain.cover(&bounds, 4).is_ok())).expect("a chain of two is covered");
    compare_reach(&format!("{} moves", poses.len() - 1), &poses, &bounds);
    let arrays: Vec<[f32; 6]> = cases.iter().map(|case| array(&case.bounds)).collect();
    let port = || cases.iter().for_each(|case| asked(cut(black_box(&case.bounds), PARTS)));
    let second = || arrays.iter().for_each(|b| asked(oracle::reach::cut(black_box(b), u64::from(PARTS))));
    compare("a box in 16 parts, beside second", 300, cases.len(), &mut || port(), &mut || second());
}
