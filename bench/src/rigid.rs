//! Rigid moves beside the same poses built as plain: what building and a cover take, and how much smaller the covers are, of the swings in examples/ too.

use crate::inputs::{array, original_matrix, Case};
use crate::{compare, median, quantile, Bounds};
use jellyplain::{Chain, Move, MoveFile, Pose};
use oracle::cover::cover;
use oracle::judged;
use std::hint::black_box;

/// The same poses on both sides, one move of each kind, with a box, and the rigid move of the second implementation.
pub struct Pair {
    poses: [Pose; 2],
    plain: Move,
    pub rigid: Move,
    pub second: judged::Move,
    pub bounds: Bounds,
}

/// A pose with the columns of its rotation made of length 1.
fn without_scale(pose: &Pose) -> Pose {
    let mut turned = *pose;
    for j in 0..3 {
        let length = (0..3).map(|i| pose.matrix[i][j] * pose.matrix[i][j]).sum::<f32>().sqrt();
        (0..3).for_each(|i| turned.matrix[i][j] /= length);
    }
    turned
}

/// The moves of some cases without their scales. The rigid one's cover must be the second implementation's.
pub fn pairs(cases: &[Case]) -> Vec<Pair> {
    let pair = |case: &Case| {
        let poses = case.poses.map(|pose| without_scale(&pose));
        let (plain, rigid) = (Move::new(&poses[0], &poses[1]).ok()?, Move::rigid(&poses[0], &poses[1]).ok()?);
        let [start, end] = poses.map(|pose| original_matrix(&pose.matrix));
        let second = judged::build(judged::Kind::Rigid, poses[0].time, &start, poses[1].time, &end).expect("what the port builds is built");
        let covered = rigid.cover(&case.bounds, 8).ok()?;
        assert_eq!(cover(&second, &array(&case.bounds), 8), Ok(array(&covered)), "the rigid cover of {:?}", case.bounds);
        plain.cover(&case.bounds, 8).ok()?;
        Some(Pair { poses, plain, rigid, second, bounds: case.bounds })
    };
    cases.iter().filter_map(pair).collect()
}

fn volume(b: &Bounds) -> f64 {
    (0..3).map(|i| f64::from(b.p_max[i]) - f64::from(b.p_min[i])).product()
}

fn build(pairs: &[Pair], build: fn(&Pose, &Pose) -> Result<Move, jellyplain::Refusal>) {
    for pair in pairs {
        black_box(build(black_box(&pair.poses[0]), black_box(&pair.poses[1]))).ok();
    }
}

fn covers(pairs: &[Pair], depth: u32, of: fn(&Pair) -> &Move) {
    for pair in pairs {
        black_box(of(pair).cover(black_box(&pair.bounds), depth)).ok();
    }
}

pub fn rigid_cover(pairs: &[Pair], depth: u32) {
    covers(pairs, depth, |pair| &pair.rigid);
}

pub fn compare_kinds(kind: &str, cases: &[Case]) {
    let pairs = pairs(cases);
    compare(&format!("build, {kind}"), 300, pairs.len(), &mut || build(&pairs, Move::rigid), &mut || build(&pairs, Move::new));
    for (depth, rounds, some) in crate::COVERS {
        let some = &pairs[..some.min(pairs.len())];
        let name = format!("cover of depth {depth}, {kind}");
        compare(&name, rounds, some.len(), &mut || rigid_cover(some, depth), &mut || covers(some, depth, |pair| &pair.plain));
    }
}

const DEPTHS: [u32; 5] = [4, 6, 8, 10, 12];

/// Volumes of rigid covers, in parts of the plain ones: the median and the quartiles over the moves.
pub fn compare_volumes(kind: &str, cases: &[Case]) {
    let pairs = pairs(cases);
    for depth in DEPTHS {
        let part = |pair: &Pair| Some(volume(&pair.rigid.cover(&pair.bounds, depth).ok()?) / volume(&pair.plain.cover(&pair.bounds, depth).ok()?));
        let mut parts: Vec<f64> = pairs.iter().filter_map(part).collect();
        println!(
            "{:32} {:>12} {:>12.5}   {:.5} to {:.5}",
            format!("depth {depth}, {kind}"),
            parts.len(),
            median(&mut parts),
            quantile(&mut parts, 0.25),
            quantile(&mut parts, 0.75)
        );
    }
}

/// The swings of examples/ that are rigid: cubic metres of the rigid cover and of the plain one, at each depth.
pub fn compare_examples() {
    let folder = concat!(env!("CARGO_MANIFEST_DIR"), "/../examples");
    let mut files: Vec<_> = std::fs::read_dir(folder).expect(folder).map(|entry| entry.expect(folder).path()).collect();
    files.retain(|path| path.extension().is_some_and(|extension| extension == "txt"));
    files.sort();
    for path in files {
        let name = path.file_stem().unwrap_or_default().to_string_lossy().into_owned();
        let file = MoveFile::read(&std::fs::read(&path).expect(&name)).expect(&name);
        let plain = Chain::new(&file.poses).expect(&name);
        let Ok(rigid) = Chain::rigid(&file.poses) else {
            println!("{name}: not rigid");
            continue;
        };
        for depth in DEPTHS {
            let [a, b] = [&rigid, &plain].map(|chain| volume(&chain.cover(&file.bounds, depth).expect(&name)));
            println!("{:32} {a:>12.3} {b:>12.3} {:>8.4}", format!("{name}, depth {depth}"), a / b);
        }
    }
}
