//! The port, through the package `jellyplain`, beside the original Rust with document 01's angles, and its cover beside the second implementation and Boost.Interval: the same inputs,
//! one run, one thread. A round asks every side, and the next starts with another, so that what else the machine does falls on all; what is printed are medians over the rounds.
//!
//!     bench                      every comparison, and how the cover's cost grows with its depth
//!     bench rigid                rigid moves beside plain ones alone
//!     bench boost                covers beside Boost.Interval alone
//!     bench reach                rows by windows beside the covers of a set alone
//!     bench worst                the slowest calls that a search finds
//!     bench profile OP SECONDS   the port alone, for a profiler: OP is build, point, interpolate, motion or cover

#[cfg(boost)]
mod boost;
mod chains;
mod inputs;
mod reach;
mod rigid;
mod worst;

use inputs::{array, cases, original_bounds, original_matrix, original_point, Case, Kind, Random, CALLS};
use jellyplain::Bounds;
use oracle::core::transform::{AnimatedTransform, Transform};
use oracle::cover::cover;
use std::hint::black_box;
use std::sync::Arc;
use std::time::{Duration, Instant};

fn median(values: &mut [f64]) -> f64 {
    quantile(values, 0.5)
}

fn quantile(values: &mut [f64], part: f64) -> f64 {
    values.sort_by(f64::total_cmp);
    values[((values.len() - 1) as f64 * part).round() as usize]
}

#[repr(C)]
struct Timespec {
    seconds: i64,
    nanoseconds: i64,
}

extern "C" {
    fn clock_gettime(clock: i32, time: &mut Timespec) -> i32;
}

/// Linux's CLOCK_THREAD_CPUTIME_ID: what this thread has worked, so that waiting for a processor doesn't count.
const THREAD_CLOCK: i32 = 3;

fn thread_nanoseconds() -> f64 {
    let mut time = Timespec { seconds: 0, nanoseconds: 0 };
    assert_eq!(unsafe { clock_gettime(THREAD_CLOCK, &mut time) }, 0);
    time.seconds as f64 * 1e9 + time.nanoseconds as f64
}

fn nanoseconds(work: &mut dyn FnMut()) -> f64 {
    let start = thread_nanoseconds();
    work();
    thread_nanoseconds() - start
}

/// Nanoseconds per call of each side, a list of as many rounds for each. Which side a round starts with goes round.
fn measure(rounds: usize, calls: usize, sides: &mut [&mut dyn FnMut()]) -> Vec<Vec<f64>> {
    sides.iter_mut().for_each(|side| side());
    let mut times = vec![vec![]; sides.len()];
    for round in 0..rounds {
        for turn in 0..sides.len() {
            let side = (round + turn) % sides.len();
            times[side].push(nanoseconds(sides[side]) / calls as f64);
        }
    }
    times
}

/// The ratio of two sides in each round.
fn ratios(a: &[f64], b: &[f64]) -> Vec<f64> {
    a.iter().zip(b).map(|(a, b)| a / b).collect()
}

/// Time per call of both sides and their ratio: medians, and the ratio's quartiles.
fn compare(name: &str, rounds: usize, calls: usize, port: &mut dyn FnMut(), other: &mut dyn FnMut()) {
    let mut times = measure(rounds, calls, &mut [port, other]);
    let mut ratios = ratios(&times[0], &times[1]);
    println!(
        "{name:40} {:>12.0} {:>12.0} {:>8.2}   {:.2} to {:.2}",
        median(&mut times[0]),
        median(&mut times[1]),
        median(&mut ratios),
        quantile(&mut ratios, 0.25),
        quantile(&mut ratios, 0.75)
    );
}

fn build(cases: &[Case]) {
    for case in cases {
        black_box(jellyplain::Move::new(black_box(&case.poses[0]), black_box(&case.poses[1]))).ok();
    }
}

fn original_build(cases: &[Case]) {
    for case in cases {
        let [start, end] = black_box(&case.poses);
        let transform = |m| Arc::new(Transform::from_matrix(&original_matrix(m)));
        black_box(AnimatedTransform::new(transform(&start.matrix), transform(&end.matrix), start.time, end.time));
    }
}

fn point(cases: &[Case]) {
    for case in cases {
        for (time, p) in case.times.iter().zip(&case.points) {
            black_box(case.port.point(black_box(*time), black_box(*p))).ok();
        }
    }
}

fn original_point_query(cases: &[Case]) {
    for case in cases {
        for (time, p) in case.times.iter().zip(&case.points) {
            black_box(case.original.original.transform_point(black_box(*time), black_box(&original_point(p))));
        }
    }
}

fn interpolate(cases: &[Case]) {
    for case in cases {
        for time in &case.times {
            black_box(case.port.interpolate(black_box(*time))).ok();
        }
    }
}

fn original_interpolate(cases: &[Case]) {
    for case in cases {
        for time in &case.times {
            let mut transform = Transform::default();
            case.original.original.interpolate(black_box(*time), &mut transform);
            black_box(transform);
        }
    }
}

fn motion_bounds(cases: &[Case]) {
    for case in cases {
        black_box(case.port.motion_bounds(black_box(&case.bounds))).ok();
    }
}

fn original_motion_bounds(cases: &[Case]) {
    for case in cases {
        black_box(case.original.original.motion_bounds(black_box(&original_bounds(&case.bounds))));
    }
}

fn port_cover(cases: &[Case], depth: u32) {
    for case in cases {
        black_box(case.port.cover(black_box(&case.bounds), depth)).ok();
    }
}

fn second_cover(cases: &[Case], depth: u32) {
    for case in cases {
        black_box(cover(&case.original, black_box(&array(&case.bounds)), u64::from(depth))).ok();
    }
}

/// The depths of the covers, with how many rounds of how many cases are enough.
const COVERS: [(u32, usize, usize); 3] = [(8, 100, 8), (10, 60, 4), (12, 40, 2)];

fn compare_all(kind: &str, cases: &[Case]) {
    let many = cases.len();
    let calls = many * CALLS;
    compare(&format!("build, {kind}"), 300, many, &mut || build(cases), &mut || original_build(cases));
    compare(&format!("point, {kind}"), 300, calls, &mut || point(cases), &mut || original_point_query(cases));
    compare(&format!("interpolate, {kind}"), 300, calls, &mut || interpolate(cases), &mut || original_interpolate(cases));
    compare(&format!("motion box, {kind}"), 300, many, &mut || motion_bounds(cases), &mut || original_motion_bounds(cases));
    for (depth, rounds, some) in COVERS {
        let some = &cases[..some];
        compare(&format!("cover of depth {depth}, {kind}"), rounds, some.len(), &mut || port_cover(some, depth), &mut || second_cover(some, depth));
    }
}

#[cfg(boost)]
fn compare_boost(kinds: &[(&str, &[Case])]) {
    println!("\n{:32} {:>12} {:>12} {:>12}", "extents, Boost.Interval to port", "moves", "median", "greatest");
    kinds.iter().for_each(|(kind, cases)| boost::hold(kind, cases));
    let columns = ["port", "Boost", "affine", "second"].map(|side| format!(" {side:>10}")).concat();
    let ratios = ["port/Boost", "port/affine", "Boost/second", "affine/second"].map(|ratio| format!("   {ratio:20}")).concat();
    println!("\n{:32}{columns}{}", "nanoseconds a call, medians", ratios.trim_end());
    kinds.iter().for_each(|(kind, cases)| boost::compare(kind, cases));
    println!("\n{:40} {:>12} {:>12} {:>8}   quartiles", "rigid, nanoseconds a call", "port", "Boost", "ratio");
    kinds.iter().for_each(|(kind, cases)| boost::compare_rigid(kind, cases));
}

#[cfg(not(boost))]
fn compare_boost(_: &[(&str, &[Case])]) {
    println!("\ncovers beside Boost.Interval: left out, since g++ finds no boost/numeric/interval.hpp");
}

/// The port's cover at every depth: time for a cover, for a slice of it, and against the depth before. A round goes through all depths.
fn growth(kind: &str, cases: &[Case]) {
    println!("\ncover by depth, {kind}: nanoseconds for a cover, for a slice, and against the depth before");
    let mut times: Vec<Vec<f64>> = vec![vec![]; 13];
    for _ in 0..40 {
        for (depth, times) in times.iter_mut().enumerate() {
            times.push(nanoseconds(&mut || port_cover(cases, depth as u32)) / cases.len() as f64);
        }
    }
    let mut before = f64::NAN;
    for (depth, times) in times.iter_mut().enumerate() {
        let time = median(times);
        println!("{depth:4} {time:14.0} {:10.0} {:8.2}", time / f64::from(1u32 << depth), time / before);
        before = time;
    }
}

fn profile(op: &str, seconds: f64, cases: &[Case]) {
    let work: &dyn Fn() = match op {
        "build" => &|| build(cases),
        "point" => &|| point(cases),
        "interpolate" => &|| interpolate(cases),
        "motion" => &|| motion_bounds(cases),
        "cover" => &|| port_cover(cases, 10),
        _ => panic!("build, point, interpolate, motion or cover"),
    };
    let start = Instant::now();
    while start.elapsed() < Duration::from_secs_f64(seconds) {
        work();
    }
}

fn main() {
    let mut random = Random(7);
    let turning = cases(Kind::Turning, 32, &mut random);
    let arguments: Vec<String> = std::env::args().skip(1).collect();
    if let [word, op, seconds] = &arguments[..] {
        assert_eq!(word, "profile");
        return profile(op, seconds.parse().expect("seconds"), &turning);
    }
    let shifting = cases(Kind::Shifting, 32, &mut random);
    if arguments == ["rigid"] {
        return compare_rigid(&turning, &shifting);
    }
    if arguments == ["boost"] {
        return compare_boost(&[("turning", &turning), ("shifting", &shifting)]);
    }
    if arguments == ["chains"] {
        return compare_chains(&mut random);
    }
    if arguments == ["reach"] {
        return compare_reach(&turning);
    }
    if arguments == ["worst"] {
        return worst::worst(&mut random);
    }
    println!("{:40} {:>12} {:>12} {:>8}   quartiles", "nanoseconds a call, medians", "port", "other", "ratio");
    compare_all("turning", &turning);
    compare_all("shifting", &shifting);
    compare_boost(&[("turning", &turning), ("shifting", &shifting)]);
    growth("turning", &turning[..2]);
    compare_chains(&mut random);
    compare_reach(&turning);
    compare_rigid(&turning, &shifting);
}

fn compare_chains(random: &mut Random) {
    println!("\n{:40} {:>12} {:>12} {:>8}   quartiles", "a chain, nanoseconds a call", "chain", "moves", "ratio");
    chains::compare_chains(random);
}

fn compare_reach(turning: &[Case]) {
    println!("\n{:40} {:>12} {:>12} {:>8}   quartiles", "rows named, nanoseconds a call", "reach", "set", "ratio");
    reach::compare_all(turning);
}

fn compare_rigid(turning: &[Case], shifting: &[Case]) {
    println!("\n{:40} {:>12} {:>12} {:>8}   quartiles", "rigid, nanoseconds a call", "rigid", "plain", "ratio");
    rigid::compare_kinds("turning", turning);
    rigid::compare_kinds("shifting", shifting);
    println!("\n{:32} {:>12} {:>12}   quartiles", "volume, rigid to plain", "moves", "median");
    rigid::compare_volumes("turning", turning);
    rigid::compare_volumes("shifting", shifting);
    println!("\n{:32} {:>12} {:>12} {:>8}", "swings of examples/, cubic metres", "rigid", "plain", "ratio");
    rigid::compare_examples();
}
