//! The cover by Boost.Interval (boost/cover.cpp) beside the port's and the second implementation's: first that its boxes hold what they must and how wide they are, then the times.

use crate::inputs::{array, Case};
use crate::rigid::{pairs, rigid_cover, Pair};
use crate::{compare as compare_two, measure, median, port_cover, quantile, ratios, second_cover, COVERS};
use oracle::angles::{acos, STEPS, TABLE};
use oracle::judged::{quaternion_values, vector_values, Move};
use std::hint::black_box;

/// The constants of a built move, as boost/cover.cpp reads them.
#[repr(C)]
struct Motion {
    start: [[f32; 4]; 4],
    end: [[f32; 4]; 4],
    t: [[f32; 3]; 2],
    r: [[f32; 4]; 2],
    s: [[[f32; 4]; 4]; 2],
    cos_theta: f32,
    theta: f32,
    sine_table: &'static [u32; STEPS + 1],
}

type Cover = unsafe extern "C" fn(motion: &Motion, b: &[f32; 6], depth: u32, out: &mut [f32; 6]) -> u8;

extern "C" {
    fn boost_cover(motion: &Motion, b: &[f32; 6], depth: u32, out: &mut [f32; 6]) -> u8;
    fn boost_cover_affine(motion: &Motion, b: &[f32; 6], depth: u32, out: &mut [f32; 6]) -> u8;
    fn boost_cover_rigid(motion: &Motion, b: &[f32; 6], depth: u32, out: &mut [f32; 6]) -> u8;
    fn boost_quotient(x: f32, y: f32, ends: &mut [f32; 2]);
}

/// What Boost is asked about a case.
struct Question {
    motion: Motion,
    bounds: [f32; 6],
}

fn question(original: &Move, bounds: [f32; 6]) -> Question {
    let f = &original.fields;
    let (t, r) = ([0, 1].map(|i| vector_values(&f.t[i])), [0, 1].map(|i| quaternion_values(&f.r[i])));
    let [a, b] = r;
    let cos_theta = (a[0] * b[0] + a[1] * b[1] + a[2] * b[2]) + a[3] * b[3];
    let (start, end, s) = (f.start.m.m, f.end.m.m, [f.s[0].m, f.s[1].m]);
    let motion = Motion { start, end, t, r, s, cos_theta, theta: acos(cos_theta.clamp(-1.0, 1.0)), sine_table: &TABLE };
    Question { motion, bounds }
}

fn case_question(case: &Case) -> Question {
    question(&case.original, array(&case.bounds))
}

fn pair_question(pair: &Pair) -> Question {
    question(&pair.second, array(&pair.bounds))
}

fn ask(cover: Cover, question: &Question, depth: u32) -> [f32; 6] {
    let mut out = [0.0; 6];
    let number = unsafe { cover(&question.motion, black_box(&question.bounds), depth, &mut out) };
    assert_eq!(number, 0, "Boost refuses the cover of {:?} at depth {depth}", question.bounds);
    out
}

fn ask_all(cover: Cover, questions: &[Question], depth: u32) {
    for question in questions {
        black_box(ask(cover, question, depth));
    }
}

/// Ends are rounded outward inside of a call, and to nearest after it.
fn rounding_holds() -> bool {
    let third = black_box(1.0f32) / black_box(3.0);
    let mut ends = [0.0; 2];
    unsafe { boost_quotient(1.0, 3.0, &mut ends) };
    let [low, high] = ends.map(|end| 3.0 * f64::from(end));
    let back = black_box(1.0f32) / black_box(3.0);
    low < 1.0 && 1.0 < high && ends[0].next_up() == ends[1] && back == third
}

fn is_inside(a: &[f32; 6], b: &[f32; 6]) -> bool {
    (0..3).all(|axis| b[axis] <= a[axis] && a[axis + 3] <= b[axis + 3])
}

/// A box of Boost holds every point that the bench asks of its move, and the port's box, whose ends are rounded to nearest. Extents over the port's, of each axis.
fn held(case: &Case, question: &Question, depth: u32) -> [f64; 3] {
    let (boost, affine) = (ask(boost_cover, question, depth), ask(boost_cover_affine, question, depth));
    assert_eq!(boost, affine, "the terms that the affine products leave out change nothing");
    let port = array(&case.port.cover(&case.bounds, depth).expect("a cover that is answered at depth 8"));
    assert!(is_inside(&port, &boost), "the port's box {port:?} is not inside Boost's {boost:?}");
    for (time, p) in case.times.iter().zip(&case.points) {
        let [x, y, z] = case.port.point(*time, *p).expect("a point that is answered");
        assert!(is_inside(&[x, y, z, x, y, z], &boost), "{p:?} at {time} leaves Boost's box {boost:?}");
    }
    let extent = |b: &[f32; 6], axis: usize| f64::from(b[axis + 3]) - f64::from(b[axis]);
    std::array::from_fn(|axis| extent(&boost, axis) / extent(&port, axis))
}

pub fn hold(kind: &str, cases: &[Case]) {
    assert!(rounding_holds(), "Boost.Interval doesn't round outward here, or leaves the rounding mode changed");
    for (depth, ..) in COVERS {
        let mut extents: Vec<f64> = cases.iter().flat_map(|case| held(case, &case_question(case), depth)).collect();
        let (middle, greatest) = (median(&mut extents), quantile(&mut extents, 1.0));
        println!("{:32} {:>12} {middle:>12.7} {greatest:>12.7}", format!("cover of depth {depth}, {kind}"), cases.len());
    }
}

pub fn compare(kind: &str, cases: &[Case]) {
    for (depth, rounds, some) in COVERS {
        let some = &cases[..some];
        let questions: Vec<Question> = some.iter().map(case_question).collect();
        let mut port = || port_cover(some, depth);
        let mut boost = || ask_all(boost_cover, &questions, depth);
        let mut affine = || ask_all(boost_cover_affine, &questions, depth);
        let mut second = || second_cover(some, depth);
        let mut times = measure(rounds, some.len(), &mut [&mut port, &mut boost, &mut affine, &mut second]);
        let ratios = [(0, 1), (0, 2), (1, 3), (2, 3)].map(|(a, b)| ratios(&times[a], &times[b]));
        print!("{:32}", format!("cover of depth {depth}, {kind}"));
        times.iter_mut().for_each(|times| print!(" {:>10.0}", median(times)));
        ratios.into_iter().for_each(|mut ratios| {
            print!("   {:>5.2} ({:.2} to {:.2})", median(&mut ratios), quantile(&mut ratios, 0.25), quantile(&mut ratios, 0.75));
        });
        println!();
    }
}

/// Rigid covers: each box of Boost holds the port's; then the times.
pub fn compare_rigid(kind: &str, cases: &[Case]) {
    let pairs = pairs(cases);
    for (depth, rounds, some) in COVERS {
        let some = &pairs[..some.min(pairs.len())];
        let questions: Vec<Question> = some.iter().map(pair_question).collect();
        for (pair, question) in some.iter().zip(&questions) {
            let rigid = ask(boost_cover_rigid, question, depth);
            let port = array(&pair.rigid.cover(&pair.bounds, depth).expect("a cover that is answered at depth 8"));
            assert!(is_inside(&port, &rigid), "the port's box {port:?} is not inside Boost's {rigid:?}");
        }
        compare_two(&format!("cover of depth {depth}, {kind}"), rounds, some.len(), &mut || rigid_cover(some, depth), &mut || {
            ask_all(boost_cover_rigid, &questions, depth);
        });
    }
}
