//! A chain of 32 poses beside its own 31 moves: its cover beside theirs, a list of times beside a query for each, a set of boxes beside a cover for each, a pose that is tried beside a changed copy, the
//! shortest refused run of a chain beside building it, and the windows of two chains beside covers of all their moves.

use crate::inputs::{cases, Kind, Random};
use crate::{compare, Bounds};
use jellyplain::{Chain, Move, Pose};
use std::hint::black_box;

const POSES: usize = 32;
const TIMES: usize = 10_000;
const BOXES: usize = 16;

/// Poses of moves that turn, one a second, such that the chain is built and its cover accepted.
fn chain(random: &mut Random) -> (Vec<Pose>, Chain, Bounds) {
    loop {
        let cases = cases(Kind::Turning, POSES, random);
        let poses: Vec<Pose> = cases.iter().zip(0u8..).map(|(case, second)| Pose { time: f32::from(second), matrix: case.poses[0].matrix, pad: 0.0 }).collect();
        let bounds = cases[0].bounds;
        if let Ok(chain) = Chain::new(&poses) {
            if chain.cover(&bounds, 8).is_ok() {
                return (poses, chain, bounds);
            }
        }
    }
}

/// What is answered is kept from the optimiser, and not looked at.
pub fn asked<T>(answer: T) {
    black_box(answer);
}

pub fn compare_chains(random: &mut Random) {
    let (poses, chain, bounds) = chain(random);
    let moves: Vec<Move> = chain.moves().collect();
    let pairs = || poses.windows(2).for_each(|pair| asked(Move::new(&pair[0], &pair[1])));
    compare("build, 32 poses beside 31 moves", 100, 1, &mut || asked(Chain::new(black_box(&poses))), &mut || pairs());
    for (depth, rounds) in [(8, 40), (12, 20)] {
        let name = format!("cover of depth {depth}, beside 31");
        let each = || moves.iter().for_each(|m| asked(m.cover(black_box(&bounds), depth)));
        compare(&name, rounds, 1, &mut || asked(chain.cover(black_box(&bounds), depth)), &mut || each());
    }
    let p = bounds.p_min;
    let last = (POSES - 1) as f32;
    let times: Vec<f32> = (0..TIMES).map(|k| last * k as f32 / (TIMES - 1) as f32).collect();
    let singles = || times.iter().for_each(|&time| asked(chain.point(black_box(time), p)));
    let mut points = [[0.0; 3]; TIMES];
    compare("10,000 times, beside 10,000 points", 100, TIMES, &mut || asked(chain.points(black_box(&times), p, black_box(&mut points))), &mut || singles());
    for count in [2, POSES] {
        compare_sets(&poses[..count], &bounds);
    }
    compare_trials(&poses, &chain, &bounds);
    compare_refused(&poses);
    compare_windows(&poses, &chain, &bounds);
}

/// A chain for which as many moves are built as for any: its last two poses alone are refused, so that all moves are built, each pose by itself and each pair again.
fn compare_refused(poses: &[Pose]) {
    let spread = |far: f32| {
        let mut poses = poses.to_vec();
        (poses[POSES - 2].matrix[0][3], poses[POSES - 1].matrix[0][3]) = (-far, far);
        poses
    };
    let last = Ok(POSES - 2..POSES);
    let worst = [3e38, 2.5e38, 2e38, 1.8e38]
        .map(spread)
        .into_iter()
        .find(|poses| Chain::refused_run(poses) == last)
        .expect("one of them is refused in the last move alone");
    compare("refused run, beside building", 100, 1, &mut || asked(Chain::refused_run(black_box(&worst))), &mut || asked(Chain::new(black_box(&worst))));
}

/// A pose of 32 tried, beside changing a copy and asking that: what differs is the building of 31 moves and of two. At depth 0 little else is left.
fn compare_trials(poses: &[Pose], chain: &Chain, bounds: &Bounds) {
    let place = POSES / 2;
    let pose = Pose { pad: 0.5, ..poses[place] };
    let copied = |depth: u32| {
        let mut copy = poses.to_vec();
        copy[place] = pose;
        Chain::new(&copy).and_then(|copy| copy.cover(bounds, depth))
    };
    for (depth, rounds) in [(0, 100), (8, 40), (12, 20)] {
        assert_eq!(chain.try_pose(place, &pose, bounds, depth), copied(depth));
        let name = format!("try of depth {depth}, beside a copy");
        compare(&name, rounds, 1, &mut || asked(chain.try_pose(place, black_box(&pose), bounds, depth)), &mut || asked(copied(black_box(depth))));
    }
    // Building's share of a trial: two moves beside the whole.
    let pairs = || poses[place - 1..=place + 1].windows(2).for_each(|pair| asked(Move::new(&pair[0], black_box(&pair[1]))));
    compare("two moves, beside a try of depth 8", 40, 1, &mut || pairs(), &mut || asked(chain.try_pose(place, black_box(&pose), bounds, 8)));
}

/// The 63 windows between 64 ticks of two chains of 32 poses, at depth 6. Beside them stand the covers of both chains at that depth, one of each a window, as if every move were worked in each; and the covers
/// of the same windows one by one.
fn compare_windows(poses: &[Pose], chain: &Chain, bounds: &Bounds) {
    const TICKS: usize = 64;
    let last = (POSES - 1) as f32;
    let ticks: Vec<f32> = (0..TICKS).map(|k| last * k as f32 / (TICKS - 1) as f32).collect();
    let matrices = poses.iter().rev().map(|pose| pose.matrix);
    let back: Vec<Pose> = poses.iter().zip(matrices).map(|(pose, matrix)| Pose { matrix, ..*pose }).collect();
    let other = Chain::new(&back).expect("poses that are built are built in the other order");
    let listed = chain.windows(&other, bounds, bounds, 6, &ticks).expect("a window's pieces are finer than a move's slices");
    println!("63 windows of depth 6: {} listed", listed.len());
    let windows = || asked(chain.windows(&other, black_box(bounds), bounds, 6, &ticks));
    let covers = || ticks.windows(2).for_each(|_| [chain, &other].into_iter().for_each(|chain| asked(chain.cover(black_box(bounds), 6))));
    compare("63 windows, beside 126 covers", 20, 1, &mut || windows(), &mut || covers());
    let singles = || ticks.windows(2).for_each(|w| [chain, &other].into_iter().for_each(|chain| asked(chain.window_cover(black_box(bounds), 6, w[0], w[1]))));
    compare("63 windows, beside 126 of one", 20, 1, &mut || windows(), &mut || singles());
}

/// The parts of a boom, cut across its length.
fn parts(b: &Bounds) -> Vec<Bounds> {
    let at = |i: usize| b.p_min[0] + (b.p_max[0] - b.p_min[0]) * i as f32 / BOXES as f32;
    let part = |i: usize| {
        let mut part = *b;
        (part.p_min[0], part.p_max[0]) = (at(i), at(i + 1));
        part
    };
    (0..BOXES).map(part).collect()
}

/// A set of 16 boxes beside 16 covers, over a chain of some poses. Both are the same boxes.
fn compare_sets(poses: &[Pose], bounds: &Bounds) {
    let chain = Chain::new(poses).expect("a part of a chain that is built is built");
    let boxes = parts(bounds);
    for (depth, rounds) in [(8, 40), (12, 10)] {
        let each: Vec<Bounds> = boxes.iter().map(|b| chain.cover(b, depth).expect("a part of a box that is covered is covered")).collect();
        assert_eq!(chain.covers(&boxes, depth).expect("a set is covered where each of its boxes is").each, each);
        let name = format!("16 boxes of depth {depth}, {} moves", poses.len() - 1);
        let singles = || boxes.iter().for_each(|b| asked(chain.cover(black_box(b), depth)));
        compare(&name, rounds, 1, &mut || asked(chain.covers(black_box(&boxes), depth)), &mut || singles());
    }
}
