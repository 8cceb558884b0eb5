//! Two booms over one bay, tested from outside, on the project's own answers: a list names the windows in which the covers of the two chains meet, or the first refusal; every padded point of a box
//! is inside its window's cover; in a window left off a list no padded point of one boom and none of the other coincide; a greater depth is accepted, widens no cover and adds no window.

use crate::answer::{accepted, builds, float, lines, poses, questions, text, words, write_float};
use crate::program::{run, Sides};
use crate::random::Random;
use crate::report::Report;

pub type Bounds = [f32; 6];
pub type Point = [f32; 3];

const MAX_DEPTH: u64 = 12;
/// Times in a window, and windows of a list, of which points are asked.
const TIMES: usize = 4;
const WINDOWS: usize = 3;

/// A question about windows: `wcover S D BOX T0 T1` has one slot, one box and two ticks, `windows A B D BOXA BOXB T*` two and any.
struct Asked<'a> {
    slots: Vec<&'a [u8]>,
    depth: u64,
    boxes: Vec<Bounds>,
    ticks: Vec<f32>,
}

fn asked(question: &[u8]) -> Option<Asked<'_>> {
    let all: Vec<&[u8]> = words(question).collect();
    let (slots, depth, values) = match all.as_slice() {
        [b"wcover", slot, depth, values @ ..] => (vec![*slot], depth, values),
        [b"windows", first, second, depth, values @ ..] => (vec![*first, *second], depth, values),
        _ => return None,
    };
    let floats = values.iter().map(|word| float(word)).collect::<Option<Vec<f32>>>()?;
    let (boxes, ticks) = floats.split_at_checked(6 * slots.len())?;
    let boxes = boxes.as_chunks().0.to_vec();
    Some(Asked { depth: text(depth).parse().ok()?, slots, boxes, ticks: ticks.to_vec() })
}

/// The windows that an answer lists.
fn listed(answer: &[u8]) -> Option<Vec<usize>> {
    let numbers: Vec<usize> = words(answer.strip_prefix(b"ok ")?).map(|word| text(word).parse().ok()).collect::<Option<_>>()?;
    let (count, places) = numbers.split_first()?;
    (places.len() == *count).then(|| places.to_vec())
}

/// What is asked besides, to be answered in order.
#[derive(Default)]
pub struct Text(pub Vec<u8>);

impl Text {
    pub fn ask(&mut self, question: &str, values: &[&[f32]]) {
        self.0.extend_from_slice(question.as_bytes());
        values.iter().copied().flatten().for_each(|x| write_float(&mut self.0, *x));
        self.0.push(b'\n');
    }
}

enum Group<'a> {
    /// A question that builds, asked again.
    Built,
    Cover {
        question: &'a [u8],
        cover: Bounds,
        moments: usize,
        is_finer: bool,
    },
    List {
        question: &'a [u8],
        answer: &'a [u8],
        ticks: usize,
        moments: usize,
        is_finer: bool,
    },
}

/// The ticks, their neighbours inside, a pose's time and others between.
pub fn times(window: &[f32], poses: &[f32], random: &mut Random) -> Vec<f32> {
    let (earlier, later) = (window[0], window[1]);
    let mut times = vec![earlier, later, random.pick(&[earlier.next_up(), later.next_down()])];
    let inside: Vec<f32> = poses.iter().copied().filter(|time| earlier <= *time && *time <= later).collect();
    if !inside.is_empty() {
        times.push(random.pick(&inside));
    }
    let first = poses.iter().copied().fold(f32::INFINITY, f32::min);
    let last = poses.iter().copied().fold(f32::NEG_INFINITY, f32::max);
    let (low, high) = (f64::from(earlier.max(first.next_down()).min(later)), f64::from(later.min(last.next_up()).max(earlier)));
    if low.is_finite() && high.is_finite() {
        times.extend((0..TIMES).map(|_| ((low + random.unit() * (high - low)) as f32).max(earlier).min(later)));
    }
    times
}

pub fn point(b: &Bounds, random: &mut Random) -> Point {
    std::array::from_fn(|axis| {
        let inside = random.unit();
        let part = random.pick(&[0.0, 1.0, 0.0, 1.0, inside]);
        let (low, high) = (b[axis], b[axis + 3]);
        ((f64::from(low) + part * (f64::from(high) - f64::from(low))) as f32).max(low).min(high)
    })
}

/// A point of each chain's box at a time, with the pad then.
fn ask_moment(out: &mut Text, asked: &Asked, time: f32, random: &mut Random) {
    for (slot, b) in asked.slots.iter().zip(&asked.boxes) {
        let slot = text(slot);
        out.ask(&format!("cpad {slot}"), &[&[time]]);
        out.ask(&format!("cpoint {slot}"), &[&[time], &point(b, random)]);
    }
}

fn ask_again(out: &mut Text, name: &str, asked: &Asked, depth: u64) {
    let slots: Vec<String> = asked.slots.iter().map(|slot| text(slot)).collect();
    out.ask(&format!("{name} {} {depth}", slots.join(" ")), &[asked.boxes.as_flattened(), &asked.ticks]);
}

/// A greater depth, mostly not by much.
pub fn greater(depth: u64, random: &mut Random) -> Option<u64> {
    let most = if random.below(32) == 0 { MAX_DEPTH } else { (depth + 2).min(MAX_DEPTH) };
    (depth < most).then(|| depth + 1 + random.below(most - depth))
}

pub fn is_inside(b: &Bounds, p: &Point) -> bool {
    (0..3).all(|axis| b[axis] <= p[axis] && p[axis] <= b[axis + 3])
}

pub fn meets(a: &Bounds, b: &Bounds) -> bool {
    (0..3).all(|axis| a[axis] <= b[axis + 3] && b[axis] <= a[axis + 3])
}

pub fn box_of(answer: &[u8]) -> Option<Bounds> {
    match accepted(answer)?.as_slice() {
        [b] => Some(*b),
        _ => None,
    }
}

/// From the moved point less its pad to the moved point plus its pad.
pub fn padded(pad: &[u8], point: &[u8]) -> Option<(Point, Bounds)> {
    let (pads, points) = (accepted::<1>(pad)?, accepted::<3>(point)?);
    let ([[pad]], [p]) = (pads.as_slice(), points.as_slice()) else { return None };
    Some((*p, std::array::from_fn(|i| if i < 3 { p[i] - pad } else { p[i - 3] + pad })))
}

/// The list by the windows' own covers, or the first refusal.
fn expected(covers: &[[&[u8]; 2]]) -> Vec<u8> {
    let mut places = Vec::new();
    for (place, [first, second]) in covers.iter().enumerate() {
        match (box_of(first), box_of(second)) {
            (Some(a), Some(b)) if meets(&a, &b) => places.push(place),
            (Some(_), Some(_)) => (),
            (None, _) => return first.to_vec(),
            (_, None) => return second.to_vec(),
        }
    }
    places.iter().fold(format!("ok {}", places.len()), |line, place| format!("{line} {place}")).into_bytes()
}

pub fn test(sides: &Sides, asked_before: &[u8], answers: &[u8], random: &mut Random, report: &mut Report) {
    let (mut out, mut groups) = (Text::default(), Vec::new());
    let mut pose_times: [Vec<f32>; 4] = Default::default();
    for (question, answer) in questions(asked_before).zip(lines(answers)) {
        if builds(question) {
            out.0.extend([question, b"\n"].concat());
            groups.push(Group::Built);
            if let Some(place) = words(question).nth(1).and_then(|slot| text(slot).parse::<usize>().ok()).filter(|slot| *slot < 4) {
                pose_times[place] = poses(question).unwrap_or_default().iter().filter_map(|pose| float(pose[0])).collect();
            }
            continue;
        }
        let Some(asked) = asked(question) else { continue };
        let all_poses = |asked: &Asked| -> Vec<f32> {
            asked.slots.iter().filter_map(|slot| text(slot).parse::<usize>().ok()).flat_map(|slot| pose_times[slot].clone()).collect()
        };
        if let (b"wcover", Some(cover)) = (words(question).next().unwrap_or(b""), box_of(answer)) {
            let times = times(&asked.ticks, &all_poses(&asked), random);
            times.iter().for_each(|time| ask_moment(&mut out, &asked, *time, random));
            let finer = greater(asked.depth, random);
            finer.into_iter().for_each(|depth| ask_again(&mut out, "wcover", &asked, depth));
            groups.push(Group::Cover { question, cover, moments: times.len(), is_finer: finer.is_some() });
        } else if asked.slots.len() == 2 && asked.ticks.len() > 1 && (listed(answer).is_some() || matches!(answer, b"refused 5" | b"refused 10")) {
            for pair in asked.ticks.windows(2) {
                for (slot, b) in asked.slots.iter().zip(&asked.boxes) {
                    out.ask(&format!("wcover {} {}", text(slot), asked.depth), &[b, pair]);
                }
            }
            let places = listed(answer);
            let off: Vec<usize> = (0..asked.ticks.len() - 1).filter(|place| places.as_ref().is_some_and(|places| !places.contains(place))).collect();
            let mut moments = 0;
            for _ in 0..WINDOWS.min(off.len()) {
                let window = random.pick(&off);
                let times = times(&asked.ticks[window..window + 2], &all_poses(&asked), random);
                times.iter().for_each(|time| ask_moment(&mut out, &asked, *time, random));
                moments += times.len();
            }
            let finer = places.and_then(|_| greater(asked.depth, random));
            finer.into_iter().for_each(|depth| ask_again(&mut out, "windows", &asked, depth));
            groups.push(Group::List { question, answer, ticks: asked.ticks.len(), moments, is_finer: finer.is_some() });
        }
    }
    let run = run(&sides.project, &[], &out.0);
    let mut answered = lines(&run.output);
    let mut next = || answered.next().unwrap_or(b"no answer");
    for group in groups {
        match group {
            Group::Built => drop(next()),
            Group::Cover { question, cover, moments, is_finer } => {
                for _ in 0..moments {
                    let [pad, point] = [next(), next()];
                    let is_held =
                        padded(pad, point).is_some_and(|(p, [x, y, z, x1, y1, z1])| [p, [x, y, z], [x1, y1, z1]].iter().all(|p| is_inside(&cover, p)));
                    check(report, "a point in its window's cover", question, point, pad, is_held);
                }
                if is_finer {
                    let finer = next();
                    let is_within = box_of(finer).is_some_and(|b| (0..3).all(|i| cover[i] <= b[i] && b[i + 3] <= cover[i + 3]));
                    check(report, "a window's cover at a greater depth", question, finer, b"", is_within);
                }
            }
            Group::List { question, answer, ticks, moments, is_finer } => {
                let covers: Vec<[&[u8]; 2]> = (1..ticks).map(|_| [next(), next()]).collect();
                let by_covers = expected(&covers);
                check(report, "windows, and the covers of each", question, answer, &by_covers, answer == by_covers);
                for _ in 0..moments {
                    let [a, p, b, q] = [next(), next(), next(), next()];
                    let is_apart = matches!((padded(a, p), padded(b, q)), (Some((_, one)), Some((_, other))) if !meets(&one, &other));
                    check(report, "points in a window left off", question, p, q, is_apart);
                }
                if is_finer {
                    let finer = next();
                    let (coarse, fine) = (listed(answer).unwrap_or_default(), listed(finer));
                    let is_less = fine.is_some_and(|fine| fine.iter().all(|place| coarse.contains(place)));
                    check(report, "windows at a greater depth", question, finer, answer, is_less);
                }
            }
        }
    }
    if !run.ended_well {
        report.found("the project's program fails on questions about windows", &[]);
    }
}

pub fn check(report: &mut Report, row: &'static str, question: &[u8], answer: &[u8], expected: &[u8], is_right: bool) {
    report.compared(row, b"", is_right);
    if !is_right {
        report.found(row, &[("question:", question), ("project:", answer), ("beside:", expected)]);
    }
}
