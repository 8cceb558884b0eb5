//! Rows by windows, and boxes in parts.

use jellyplain::{cut, Bounds, Chain, Matrix, Move, Pose, Refusal, BOXES, IDENTITY, ROWS};

const NAN: Bounds = Bounds { p_min: [f32::NAN; 3], p_max: [1.0; 3] };
const BOOM: Bounds = Bounds { p_min: [0.0, -0.25, 0.0], p_max: [12.0, 0.25, 0.5] };
const ALL_TIME: [f32; 2] = [f32::NEG_INFINITY, f32::INFINITY];

/// A row from one place to another along x.
fn row(low: f32, high: f32) -> Bounds {
    Bounds { p_min: [low, 0.0, 0.0], p_max: [high, 1.0, 1.0] }
}

fn turned(angle: f32, x: f32) -> Matrix {
    let (s, c) = angle.sin_cos();
    [[c, -s, 0.0, x], [s, c, 0.0, 0.0], [0.0, 0.0, 1.0, 0.0], [0.0, 0.0, 0.0, 1.0]]
}

/// A swing, a rest, and back by another way, with pads.
fn swing() -> Chain {
    let pose = |time: f32, angle: f32, x: f32, pad: f32| Pose { time, matrix: turned(angle, x), pad };
    Chain::rigid(&[pose(0.0, -0.5, 0.0, 0.0), pose(4.0, 0.75, 1.0, 0.5), pose(6.0, 0.75, 1.0, 0.25), pose(9.0, 0.0, 2.0, 1.0)]).unwrap()
}

/// Blocks of a metre and a half on a grid of two.
fn blocks() -> Vec<Bounds> {
    let at = |i: u8| 2.0 * f32::from(i % 16) - 14.0;
    (0..=255u8).map(|i| Bounds { p_min: [at(i), at(i / 16), 0.0], p_max: [at(i) + 1.5, at(i / 16) + 1.5, 0.5] }).collect()
}

#[test]
fn parts_of_a_box() {
    let b = Bounds { p_min: [0.0, -1.0, 2.0], p_max: [1.0, 3.0, 6.0] };
    let parts = cut(&b, 4).unwrap();
    let faces: Vec<f32> = parts.iter().map(|part| part.p_min[1]).chain([parts[3].p_max[1]]).collect();
    assert_eq!(faces, [-1.0, 0.0, 1.0, 2.0, 3.0]);
    assert!(parts.iter().all(|part| (part.p_min[0], part.p_min[2], part.p_max[0], part.p_max[2]) == (0.0, 2.0, 1.0, 6.0)));
    assert_eq!(cut(&b, 1).unwrap(), [b]);
    assert_eq!(cut(&BOOM, 16).unwrap().len(), BOXES);
    for n in [0, 17, u32::MAX] {
        assert_eq!(cut(&NAN, n), Err(Refusal::Set));
    }
    assert_eq!((cut(&NAN, 16), cut(&row(1.0, 0.0), 1)), (Err(Refusal::Query), Err(Refusal::Corners)));
}

#[test]
fn rows_by_windows() {
    let mut end = IDENTITY;
    end[0][3] = 8.0;
    let pose = |time: f32, matrix: Matrix| Pose { time, matrix, pad: 0.0 };
    let poses = [pose(0.0, IDENTITY), pose(8.0, end), pose(10.0, end), pose(18.0, IDENTITY)];
    let chain = Chain::rigid(&poses).unwrap();
    let (boom, field) = (row(0.0, 0.5), [row(1.0, 1.25), row(4.0, 4.25), row(8.5, 9.0), row(8.75, 9.0)]);
    let ticks = [f32::NEG_INFINITY, 2.0, 6.0, 9.0, 12.0, 16.0, f32::INFINITY];
    assert_eq!(chain.reach(&[boom], 6, &ticks, &field).unwrap(), [0b10_0001, 0b01_0010, 0b00_1100, 0]);
    assert_eq!(chain.reach(&[boom], 6, &ALL_TIME, &field).unwrap(), [1, 1, 1, 0]);
    // A move by itself stands where it ended.
    let there = Move::rigid(&poses[0], &poses[1]).unwrap();
    assert_eq!(there.reach(&[boom], 6, &ticks, &field).unwrap(), [0b00_0001, 0b00_0010, 0b11_1100, 0]);
    assert_eq!(chain.moves().next().unwrap().reach(&[boom], 6, &ticks, &field), there.reach(&[boom], 6, &ticks, &field));
}

/// Parts name no more rows than the whole box, a greater depth no more than a lesser, and each named row meets the window's cover of a part.
#[test]
fn parts_and_depths_name_no_more() {
    let (chain, field, parts) = (swing(), blocks(), cut(&BOOM, 16).unwrap());
    let ticks = [f32::NEG_INFINITY, 0.0, 1.0, 3.0, 5.0, 7.5, f32::INFINITY];
    let count = |masks: &[u64]| masks.iter().map(|mask| mask.count_ones()).sum::<u32>();
    let mut coarser = chain.reach(&[BOOM], 2, &ticks, &field).unwrap();
    for depth in 2..8 {
        let masks = chain.reach(&parts, depth, &ticks, &field).unwrap();
        assert!(masks.iter().zip(&coarser).all(|(fine, coarse)| fine & !coarse == 0), "depth {depth}");
        for (window, pair) in ticks.windows(2).enumerate() {
            let covers: Vec<Bounds> = parts.iter().map(|part| chain.window_cover(part, depth, pair[0], pair[1]).unwrap()).collect();
            for (mask, block) in masks.iter().zip(&field) {
                let meets = |b: &Bounds| (0..3).all(|i| b.p_min[i] <= block.p_max[i] && block.p_min[i] <= b.p_max[i]);
                assert!(mask >> window & 1 == 0 || covers.iter().any(meets));
            }
        }
        coarser = masks;
    }
    let whole = chain.reach(&[BOOM], 7, &ticks, &field).unwrap();
    assert!(count(&coarser) * 3 < count(&whole) * 2, "{} of {}", count(&coarser), count(&whole));
}

/// What is promised: points of the boom, less and plus the pad, are in no row that is not named in a window of their time.
#[test]
fn rows_that_are_not_named_stay_dry() {
    let (chain, field, parts) = (swing(), blocks(), cut(&BOOM, 8).unwrap());
    let ticks = [f32::NEG_INFINITY, 0.5, 2.0, 4.0, 6.0, 6.5, 9.0, f32::INFINITY];
    let masks = chain.reach(&parts, 6, &ticks, &field).unwrap();
    assert!(masks.contains(&0) && masks.iter().any(|mask| *mask != 0));
    for k in -8i16..80 {
        let time = f32::from(k) / 8.0;
        let pad = chain.pad(time).unwrap();
        for i in 0..=24u8 {
            let q = chain.point(time, [0.5 * f32::from(i), 0.25, 0.5]).unwrap();
            for (window, pair) in ticks.windows(2).enumerate().filter(|(_, pair)| pair[0] <= time && time <= pair[1]) {
                for (mask, block) in masks.iter().zip(&field) {
                    let is_wet = (0..3).all(|i| block.p_min[i] <= q[i] + pad && q[i] - pad <= block.p_max[i]);
                    assert!(!is_wet || mask >> window & 1 == 1, "at {time}, window {window} from {}", pair[0]);
                }
            }
        }
    }
}

#[test]
fn refused_questions() {
    let (chain, good, crossed, ticks) = (swing(), row(0.0, 1.0), row(1.0, 0.0), [0.0, 1.0]);
    let refused = |boxes: &[Bounds], depth: u32, ticks: &[f32], rows: &[Bounds]| chain.reach(boxes, depth, ticks, rows).err();
    assert_eq!(Chain::EMPTY.reach(&[], 13, &[], &[]), Err(Refusal::Chain));
    assert_eq!(refused(&[], 13, &[], &[NAN]), Some(Refusal::Set));
    assert_eq!(refused(&[NAN; BOXES + 1], 13, &[], &[NAN]), Some(Refusal::Set));
    assert_eq!(refused(&[NAN], 13, &[], &[]), Some(Refusal::Set));
    assert_eq!(refused(&[NAN], 13, &[], &[NAN; ROWS + 1]), Some(Refusal::Set));
    for bad in [&[][..], &[0.0], &[1.0, 1.0], &[0.0, f32::NAN], &[0.0; 65]] {
        assert_eq!(refused(&[NAN], 13, bad, &[NAN; ROWS]), Some(Refusal::Ticks));
    }
    assert_eq!(refused(&[good, crossed, NAN], 13, &ticks, &[NAN]), Some(Refusal::Corners));
    assert_eq!(refused(&[NAN, crossed], 13, &ticks, &[crossed]), Some(Refusal::Query));
    assert_eq!(refused(&[good], 13, &ticks, &[good, NAN, crossed]), Some(Refusal::Query));
    assert_eq!(refused(&[good], 13, &ticks, &[good]), Some(Refusal::Depth));
    let shift = Move::new(&Pose { time: 0.0, matrix: IDENTITY, pad: 0.0 }, &Pose { time: 1.0, matrix: turned(0.0, 1.0), pad: 0.0 }).unwrap();
    assert_eq!(shift.reach(&[good], 0, &[-1.0, 0.0, 2.0], &[good]), Err(Refusal::SquaredLength));
    assert_eq!(refused(&[good; BOXES], 4, &ticks, &[good; ROWS]), None);
}
