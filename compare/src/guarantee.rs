//! The guarantee, tested from outside: each point of the box, asked at any time, is answered, and lies inside the cover that was accepted, of a move or of
//! a chain, by itself and less and plus the pad at that time; of a set of boxes inside its own box's cover and inside the union. And that a cover at a greater
//! depth is accepted and lies inside it too, and so does the cover of the same poses with pads of +0.

use crate::answer::{accepted, float, lines, poses, questions, rows, text, words, write_float, Kept};
use crate::program::{run_both, Sides};
use crate::random::Random;
use crate::report::{Guarantee, Report};
use std::collections::HashMap;

type Bounds = [f32; 6];

/// An accepted cover, of a box or of a set: the lines that ask and answer it, and their numbers.
struct Cover<'a> {
    built: &'a [u8],
    question: &'a [u8],
    answer: &'a [u8],
    /// The poses' times.
    times: Vec<f32>,
    depth: u32,
    boxes: Vec<Bounds>,
    /// That of each box, and the union of these; of a box that is no set its cover again.
    covers: Vec<Bounds>,
    union: Bounds,
    /// The slot of a chain or of a move built by itself.
    slot: Option<char>,
    is_chain: bool,
    is_rigid: bool,
    is_set: bool,
}

/// The covers in an answer, and their union, which comes first in that of a set.
fn covers_in(answer: &[u8], is_set: bool) -> Option<(Bounds, Vec<Bounds>)> {
    let mut covers = accepted(answer)?;
    let union = *covers.first()?;
    covers.drain(..usize::from(is_set));
    Some((union, covers))
}

/// How many borders of slices are asked at, and how many times between: more of them for a chain of many moves.
const BORDERS: usize = 4;
const BETWEEN: usize = 8;
/// At so many poses' times, or fewer.
const POSES: usize = 10;

const MAX_DEPTH: u32 = 12;
/// Greater depths mostly end here, since each depth takes twice as long.
const COMMON_DEPTH: u32 = 9;
/// A chain's slices at a greater depth mostly stay below this.
const COMMON_SLICES: usize = 2048;

fn accepted_covers<'a>(asked: &'a [u8], answers: &'a [u8]) -> Vec<Cover<'a>> {
    let mut all = Vec::new();
    let mut kept = Kept::default();
    for (question, answer) in questions(asked).zip(lines(answers)) {
        let built = kept.before(question);
        kept.note(question, answer);
        let mut values = words(question);
        let name = values.next();
        let is_set = name == Some(b"cset");
        let slot = match name {
            Some(b"cover") => None,
            Some(b"ccover" | b"cset") => values.next().and_then(|slot| slot.first()).map(|slot| char::from(*slot)),
            _ => continue,
        };
        let (Some(depth), Some((union, covers)), Some(boxes), Some(poses)) = (values.next(), covers_in(answer, is_set), rows(values), poses(built)) else {
            continue;
        };
        let Ok(depth) = text(depth).parse() else { continue };
        let Some(times) = poses.iter().map(|pose| float(pose[0])).collect::<Option<Vec<f32>>>() else { continue };
        if times.len() < 2 || boxes.len() != covers.len() {
            // A cover of what was refused, or not one for each box; the comparison tells.
            continue;
        }
        let (is_chain, is_rigid) = (built.starts_with(b"chain"), words(built).nth(2) == Some(b"rigid"));
        all.push(Cover { built, question, answer, times, depth, boxes, covers, union, slot, is_chain, is_rigid, is_set });
    }
    all
}

/// The first and the last, and others of chance where there are many.
fn some_poses(times: &[f32], random: &mut Random) -> Vec<f32> {
    let last = times.len() - 1;
    let picked = |random: &mut Random| times[1 + random.below(last as u64 - 1) as usize];
    match last {
        0..POSES => times.to_vec(),
        _ => [times[0], times[last]].into_iter().chain((2..POSES).map(|_| picked(random))).collect(),
    }
}

/// Before, at and after the poses, and the infinities; some borders of slices and their neighbours; others between.
fn times(cover: &Cover, random: &mut Random) -> Vec<f32> {
    let (start, end) = (cover.times[0], cover.times[cover.times.len() - 1]);
    let mut times = vec![f32::NEG_INFINITY, f32::MIN, start - 1.0, end + 1.0, f32::MAX, f32::INFINITY];
    for time in some_poses(&cover.times, random) {
        times.extend([time.next_down(), time, time.next_up()]);
    }
    let moves: Vec<(f64, f64)> = cover.times.windows(2).map(|pair| (f64::from(pair[0]), f64::from(pair[1]))).collect();
    let at = |(start, end): (f64, f64), part: f64| (start + part * (end - start)) as f32;
    let slices = 1u64 << cover.depth.min(MAX_DEPTH);
    let more = moves.len().min(POSES) - 1;
    for _ in 0..BORDERS + more {
        let border = at(random.pick(&moves), random.below(slices + 1) as f64 / slices as f64);
        times.extend([border.next_down(), border, border.next_up()]);
    }
    times.extend((0..BETWEEN + more).map(|_| at(random.pick(&moves), random.unit())));
    times
}

#[derive(Clone, Copy)]
enum Place {
    Corner,
    FaceCentre,
    Inside,
    /// On each axis an end, the middle or anywhere.
    Mixed,
}
use Place::*;

fn point(b: &Bounds, place: Place, random: &mut Random) -> [f32; 3] {
    let face = random.below(3) as usize;
    std::array::from_fn(|axis| {
        let (end, inside) = (random.pick(&[0.0, 1.0]), random.unit());
        let part = match place {
            Corner => end,
            FaceCentre if axis == face => end,
            FaceCentre => 0.5,
            Inside => inside,
            Mixed => random.pick(&[end, 0.5, inside]),
        };
        let (low, high) = (b[axis], b[axis + 3]);
        let x = (f64::from(low) + part * (f64::from(high) - f64::from(low))) as f32;
        x.max(low).min(high)
    })
}

/// A question's name, and the slot it asks about: `point`, or `cpoint 2`.
fn name(cover: &Cover, question: &str) -> String {
    match cover.slot {
        None => question.to_owned(),
        Some(slot) => format!("c{question} {slot}"),
    }
}

fn ask(questions: &mut Vec<u8>, question: &str, values: &[&[f32]]) {
    questions.extend_from_slice(question.as_bytes());
    values.iter().copied().flatten().for_each(|x| write_float(questions, *x));
    questions.push(b'\n');
}

/// Asks at each time for the pad, where there may be one, for a corner of a box and for a point at another place, and of a chain for a point at all of the times.
fn ask_points(questions: &mut Vec<u8>, cover: &Cover, b: &Bounds, random: &mut Random) {
    let mut times = times(cover, random);
    for time in &times {
        if cover.slot.is_some() {
            ask(questions, &name(cover, "pad"), &[&[*time]]);
        }
        for place in [Corner, random.pick(&[FaceCentre, Inside, Mixed])] {
            ask(questions, &name(cover, "point"), &[&[*time], &point(b, place, random)]);
        }
    }
    if cover.is_chain {
        times.sort_by(f32::total_cmp);
        let places = 3 * times.len();
        ask(questions, &format!("{} {places}", name(cover, "times")), &[&point(b, Mixed, random), &times]);
    }
}

/// A greater depth: once in a while any, else one up to the common depth, or the next.
fn greater_depth(cover: &Cover, random: &mut Random) -> Option<u32> {
    let slices = COMMON_SLICES.checked_div((cover.times.len() - 1) * cover.boxes.len()).map_or(0, |slices| slices.max(1).ilog2());
    let common = if cover.slot.is_some() { slices.min(COMMON_DEPTH) } else { COMMON_DEPTH };
    let most = if random.below(16) == 0 && cover.times.len() < 8 { MAX_DEPTH } else { common.max(cover.depth + 1) };
    (cover.depth < MAX_DEPTH).then(|| cover.depth + 1 + random.below(u64::from(most - cover.depth)) as u32)
}

/// Asks for the same box, or the same set, at a greater depth, where there is one.
fn ask_finer(questions: &mut Vec<u8>, cover: &Cover, random: &mut Random) {
    if let Some(depth) = greater_depth(cover, random) {
        let question = name(cover, if cover.is_set { "set" } else { "cover" });
        ask(questions, &format!("{question} {depth}"), &[cover.boxes.as_flattened()]);
    }
}

/// The question that builds the same with pads of +0, where it had others.
fn without_pads(built: &[u8]) -> Option<Vec<u8>> {
    let mut made: Vec<&[u8]> = words(built).collect();
    made.get_mut(3..)?.chunks_exact_mut(18).for_each(|pose| pose[17] = b"00000000");
    let made = made.join(&b' ');
    (made != built).then_some(made)
}

/// Builds the same with pads of +0 and asks for the same cover or set.
fn ask_without_pads(questions: &mut Vec<u8>, cover: &Cover) {
    if let Some(built) = cover.slot.and_then(|_| without_pads(cover.built)) {
        questions.extend([built.as_slice(), b"\n", cover.question, b"\n"].concat());
    }
}

/// What it takes to ask again.
fn told<'a>(cover: &Cover<'a>, question: &'a [u8], answer: &'a [u8]) -> [(&'static str, &'a [u8]); 5] {
    [("", cover.built), ("", cover.question), ("project:", cover.answer), ("", question), ("project:", answer)]
}

fn guarantee<'a>(cover: &Cover, report: &'a mut Report) -> &'a mut Guarantee {
    if cover.is_set {
        &mut report.set_guarantee
    } else if cover.is_rigid {
        &mut report.rigid_guarantee
    } else if cover.slot.is_some() {
        &mut report.chain_guarantee
    } else {
        &mut report.guarantee
    }
}

/// The times at which a question asks for a point, as words: of `point T ..`, `cpoint S T ..` and `ctimes S PLACES X Y Z T*`.
fn times_asked(question: &[u8]) -> Vec<&[u8]> {
    let mut words = words(question);
    match words.next() {
        Some(b"ctimes") => words.skip(5).collect(),
        Some(b"cpoint") => words.skip(1).take(1).collect(),
        _ => words.take(1).collect(),
    }
}

/// The pads that were answered, by the word of their time.
type Pads<'a> = HashMap<&'a [u8], f32>;

fn is_inside(b: &Bounds, p: &[f32; 3]) -> bool {
    (0..3).all(|axis| b[axis] <= p[axis] && p[axis] <= b[axis + 3])
}

/// The pad at the time of a question `cpad S T`.
fn note_pad<'a>(cover: &Cover, question: &'a [u8], answer: &[u8], pads: &mut Pads<'a>, report: &mut Report) {
    match (words(question).nth(2), accepted::<1>(answer).as_deref()) {
        (Some(time), Some([[pad]])) => {
            pads.insert(time, *pad);
        }
        _ => {
            guarantee(cover, report).refused += 1;
            report.found("guarantee: a pad of an accepted cover is not answered", &told(cover, question, answer));
        }
    }
}

/// Points of the box at a place.
fn check_points(cover: &Cover, place: usize, pads: &Pads, question: &[u8], answer: &[u8], report: &mut Report) {
    let times = times_asked(question);
    let count = times.len();
    guarantee(cover, report).points += count as u64;
    let Some(points) = accepted(answer).filter(|points| points.len() == count) else {
        guarantee(cover, report).refused += 1;
        report.found("guarantee: a point of an accepted cover is not answered", &told(cover, question, answer));
        return;
    };
    let own = &cover.covers[place];
    let is_touching = |p: &[f32; 3]| is_inside(own, p) && (0..3).any(|axis| own[axis] == p[axis] || p[axis] == own[axis + 3]);
    let leaves = |p: &[f32; 3]| !is_inside(own, p) || !is_inside(&cover.union, p);
    let pad_at = |time: &[u8]| pads.get(time).copied().unwrap_or(0.0);
    let padded_leaves = |(time, p): &(&&[u8], &[f32; 3])| {
        let pad = pad_at(time);
        leaves(p) || leaves(&p.map(|x| x - pad)) || leaves(&p.map(|x| x + pad))
    };
    let outside = times.iter().zip(&points).filter(padded_leaves).count();
    let padded = times.iter().filter(|time| pad_at(time) > 0.0).count();
    if outside > 0 {
        report.found("guarantee: a point leaves its accepted cover", &told(cover, question, answer));
    }
    let guarantee = guarantee(cover, report);
    guarantee.outside += outside as u64;
    guarantee.padded += padded as u64;
    guarantee.touching += points.iter().filter(|p| is_touching(p)).count() as u64;
}

/// Whether an answer's covers and their union lie inside those that were accepted; None where it is refused.
fn lies_inside(cover: &Cover, answer: &[u8]) -> Option<bool> {
    let (union, covers) = covers_in(answer, cover.is_set).filter(|(_, covers)| covers.len() == cover.boxes.len())?;
    let is_inside = |b: &Bounds, first: &Bounds| (0..3).all(|axis| first[axis] <= b[axis] && b[axis + 3] <= first[axis + 3]);
    Some(is_inside(&union, &cover.union) && covers.iter().zip(&cover.covers).all(|(b, first)| is_inside(b, first)))
}

fn check_finer(cover: &Cover, question: &[u8], answer: &[u8], report: &mut Report) {
    guarantee(cover, report).finer += 1;
    match lies_inside(cover, answer) {
        Some(true) => (),
        Some(false) => {
            guarantee(cover, report).finer_wider += 1;
            report.found("a finer cover is wider", &told(cover, question, answer));
        }
        None => {
            guarantee(cover, report).finer_refused += 1;
            report.found("a finer cover is refused", &told(cover, question, answer));
        }
    }
}

fn check_without_pads(cover: &Cover, question: &[u8], answer: &[u8], report: &mut Report) {
    guarantee(cover, report).without_pads += 1;
    if lies_inside(cover, answer) != Some(true) {
        guarantee(cover, report).without_pads_wider += 1;
        report.found("a cover with pads of +0 is refused or wider", &told(cover, question, answer));
    }
}

fn row(question: &[u8]) -> &'static str {
    match words(question).next() {
        Some(b"move") => "move of an accepted cover",
        Some(b"cover") => "cover at a greater depth",
        Some(b"chain" | b"lone") => "chain of an accepted cover",
        Some(b"ccover") => "chain's cover at a greater depth, or without pads",
        Some(b"cset") => "set at a greater depth, or without pads",
        Some(b"cpoint") => "point of a chain's accepted cover",
        Some(b"ctimes") => "list of times of a chain's accepted cover",
        Some(b"cpad") => "pad of a chain's accepted cover",
        _ => "point of an accepted cover",
    }
}

/// Tests every cover that the project accepted in its answers to a batch, of a set that of every box. The points and finer covers are compared with the oracle's too.
pub fn test(sides: &Sides, asked: &[u8], answers: &[u8], random: &mut Random, report: &mut Report) {
    let covers = accepted_covers(asked, answers);
    let mut text = Vec::new();
    let mut counts = Vec::new();
    for cover in &covers {
        text.extend_from_slice(cover.built);
        text.push(b'\n');
        let before = text.len();
        ask_finer(&mut text, cover, random);
        let finer = lines(&text[before..]).count();
        let points = cover.boxes.iter().map(|b| {
            let before = text.len();
            ask_points(&mut text, cover, b, random);
            lines(&text[before..]).count()
        });
        let points = points.collect::<Vec<_>>();
        let before = text.len();
        ask_without_pads(&mut text, cover);
        let without_pads = lines(&text[before..]).count();
        counts.push((finer, points, without_pads));
    }
    let runs = run_both(sides, &text);
    report.compare(&text, &runs, row);
    let mut pairs = questions(&text).zip(lines(&runs[0].output));
    for (cover, (finer, points, without_pads)) in covers.iter().zip(counts) {
        guarantee(cover, report).covers += cover.boxes.len() as u64;
        // The first answer is that of the question that builds.
        for (question, answer) in pairs.by_ref().take(1 + finer).skip(1) {
            check_finer(cover, question, answer, report);
        }
        for (place, count) in points.into_iter().enumerate() {
            let mut pads = Pads::new();
            for (question, answer) in pairs.by_ref().take(count) {
                if question.starts_with(b"cpad") {
                    note_pad(cover, question, answer, &mut pads, report);
                } else {
                    check_points(cover, place, &pads, question, answer, report);
                }
            }
        }
        // The first of the two answers is that of the question that builds.
        for (question, answer) in pairs.by_ref().take(without_pads).skip(1) {
            check_without_pads(cover, question, answer, report);
        }
    }
}
