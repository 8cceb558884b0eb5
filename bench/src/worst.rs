//! The slowest calls that a search finds, for who has to answer within a time. Each family of inputs is drawn from at random; then the slowest found so far is changed a little, again and again,
//! and a change that takes longer stays. A time is the least of several, so that what else the machine does doesn't count.

use crate::chains::asked;
use crate::inputs::{cases, Case, Kind, Random};
use crate::{median, nanoseconds, Bounds};
use jellyplain::{Chain, Matrix, Move, Pose};
use std::hint::black_box;

/// The least of several times.
fn least(tries: usize, work: &mut dyn FnMut()) -> f64 {
    (0..tries).map(|_| nanoseconds(work)).fold(f64::INFINITY, f64::min)
}

/// The same of a call that takes so little that the clock's own time would count.
fn least_short(tries: usize, work: &mut dyn FnMut()) -> f64 {
    const CALLS: usize = 16;
    least(tries, &mut || (0..CALLS).for_each(|_| work())) / CALLS as f64
}

fn line(name: &str, nanoseconds: f64, beside: f64) {
    println!("{name:56} {:>12.2} {:>12.2}", nanoseconds / 1e3, beside / 1e3);
}

/// A matrix whose columns are scaled by powers of two, sheared, or nearly flat: polar rounds and pivots have the most to do there.
fn hard_matrix(random: &mut Random) -> Matrix {
    let mut m = cases(Kind::Turning, 1, random)[0].poses[0].matrix;
    let most = random.between(0.0, 120.0);
    for column in 0..3 {
        let scale = random.between(-most, most).round().exp2();
        m.iter_mut().take(3).for_each(|row| row[column] *= scale);
    }
    if random.unit() < 0.3 {
        let (to, from, part) = (random.between(0.0, 2.99) as usize, random.between(0.0, 2.99) as usize, random.between(0.9, 1.1));
        for row in m.iter_mut().take(3) {
            row[to] = row[from] * part + row[to] * random.between(-20.0, 0.0).exp2();
        }
    }
    m
}

fn changed(m: &Matrix, random: &mut Random) -> Matrix {
    let mut m = *m;
    let (row, column) = (random.between(0.0, 2.99) as usize, random.between(0.0, 2.99) as usize);
    if random.unit() < 0.5 {
        m[row][column] *= random.between(-1.0, 1.0).exp2();
    } else {
        let scale = random.between(-9.0, 9.0).round().exp2();
        m.iter_mut().take(3).for_each(|row| row[column] *= scale);
    }
    m
}

fn build_time(poses: &[Pose; 2]) -> f64 {
    least_short(3, &mut || asked(Move::new(black_box(&poses[0]), black_box(&poses[1]))))
}

/// The slowest build of a plain move, of those that are accepted and of all.
fn builds(random: &mut Random, usual: f64) {
    let (mut accepted, mut any) = (0.0, 0.0);
    let mut slowest = [0.0, 1.0].map(|time| Pose { time, matrix: hard_matrix(random), pad: 0.0 });
    for round in 0..6000 {
        let poses = if round < 3000 {
            [0.0, 1.0].map(|time| Pose { time, matrix: hard_matrix(random), pad: 0.0 })
        } else {
            slowest.map(|pose| Pose { matrix: changed(&pose.matrix, random), ..pose })
        };
        let time = build_time(&poses);
        if time > any {
            (any, slowest) = (time, poses);
        }
        if time > accepted && Move::new(&poses[0], &poses[1]).is_ok() {
            accepted = time;
        }
    }
    line("build, slowest found that is accepted; a usual one", accepted, usual);
    line("build, slowest found of all; a usual one", any, usual);
}

/// A point after the caches were filled with something else.
fn cold_point(case: &Case, usual: f64) {
    let mut other = vec![0u64; 8 << 20];
    let mut times: Vec<f64> = (0..60)
        .map(|round| {
            other.iter_mut().step_by(8).for_each(|word| *word += round);
            black_box(&other);
            nanoseconds(&mut || asked(case.port.point(black_box(case.times[0]), case.points[0])))
        })
        .collect();
    let typical = median(&mut times);
    line("point, caches cold, median; warm", typical, usual);
    line("point, caches cold, greatest of 60; warm", times[times.len() - 1], usual);
}

fn motion_boxes(random: &mut Random) {
    let (mut slowest, mut times) = (0.0, vec![]);
    for case in cases(Kind::Turning, 2000, random) {
        let time = least(3, &mut || asked(case.port.motion_bounds(black_box(&case.bounds))));
        times.push(time);
        slowest = f64::max(slowest, time);
    }
    line("motion box, slowest of 2,000; median", slowest, median(&mut times));
}

/// Poses one a second, such that the chain is built and its cover accepted.
fn chain(kind: Kind, random: &mut Random) -> (Vec<Pose>, Chain, Bounds) {
    loop {
        let cases = cases(kind, 32, random);
        let poses: Vec<Pose> = cases.iter().zip(0u8..).map(|(case, second)| Pose { time: f32::from(second), matrix: case.poses[0].matrix, pad: 1.0 }).collect();
        let bounds = cases[0].bounds;
        if let Ok(chain) = Chain::new(&poses) {
            if chain.cover(&bounds, 4).is_ok() {
                return (poses, chain, bounds);
            }
        }
    }
}

fn covers(random: &mut Random) {
    let (poses, long, bounds) = chain(Kind::Turning, random);
    let lone = Chain::new(&poses[..2]).expect("two of its poses");
    for depth in [0, 2, 4, 6, 8, 10, 12] {
        let time = |chain: &Chain| least(5, &mut || asked(chain.cover(black_box(&bounds), depth)));
        line(&format!("cover of depth {depth:2}, 31 moves; 1 move"), time(&long), time(&lone));
    }
    let (earlier, later) = (f32::NEG_INFINITY, f32::INFINITY);
    let time = |chain: &Chain| least(5, &mut || asked(chain.window_cover(black_box(&bounds), 12, earlier, later)));
    line("window of all time, depth 12, 31 moves; 1 move", time(&long), time(&lone));
    let ticks: Vec<f32> = (0..64u8).map(|k| f32::from(k) * 31.0 / 63.0).collect();
    let time = |chain: &Chain| least(2, &mut || asked(chain.windows(chain, black_box(&bounds), &bounds, 12, &ticks)));
    line("63 windows of two chains, depth 12, 31 moves; 1 move", time(&long), time(&lone));
    let tried = Pose { matrix: poses[2].matrix, ..poses[1] };
    let time = |chain: &Chain| least(5, &mut || asked(chain.try_pose(1, &tried, black_box(&bounds), 12)));
    line("a pose tried, depth 12, 31 moves; 1 move", time(&long), time(&lone));
    let boxes = [bounds; 16];
    let time = |chain: &Chain| least(3, &mut || asked(chain.covers(black_box(&boxes), 12)));
    line("a set of 16 boxes, depth 12, 31 moves; 1 move", time(&long), time(&lone));
}

pub fn worst(random: &mut Random) {
    println!("{:56} {:>12} {:>12}", "microseconds a call", "slowest", "beside");
    let turning = cases(Kind::Turning, 32, random);
    let mut usual: Vec<f64> = turning.iter().map(|case| build_time(&case.poses)).collect();
    builds(random, median(&mut usual));
    let case = &turning[0];
    let warm = least_short(100, &mut || asked(case.port.point(black_box(case.times[0]), case.points[0])));
    cold_point(case, warm);
    motion_boxes(random);
    covers(random);
}
