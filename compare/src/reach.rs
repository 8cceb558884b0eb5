//! Rows by windows, tested from outside, on the project's own answers. In a row that isn't named in a window no padded point of a box is found at any time of the window; a named row meets the window's
//! cover of a box; what is refused is what the first refused cover is refused with; a row in a window by itself, and each box by itself, say the same; a greater depth is accepted and names no more.
//! Of a box in parts: each part lies in it, neighbours share a face, and every point of it is inside some part.

use crate::answer::{accepted, builds, float, lines, poses, questions, text, words};
use crate::program::{run, Sides};
use crate::random::Random;
use crate::report::Report;
use crate::windows::{box_of, check, greater, is_inside, meets, padded, point, times, Bounds, Text};

/// Windows of a question of which points and covers are asked.
const WINDOWS: usize = 3;
/// So many covers are asked for at most, to find the refused one.
const MOST_COVERS: usize = 48;
/// So many boxes are asked about one by one at most.
const MOST_BOXES: usize = 4;
/// Points of a box that is cut.
const POINTS: usize = 8;
/// The slot of a chain of the same poses as a move by itself, of which a window's cover may be asked.
const SPARE: usize = 3;

/// `reach S D NB NT NR`, then the boxes, the ticks and the rows.
struct Asked {
    slot: usize,
    depth: u64,
    boxes: Vec<Bounds>,
    ticks: Vec<f32>,
    rows: Vec<Bounds>,
}

fn asked(question: &[u8]) -> Option<Asked> {
    let all: Vec<&[u8]> = words(question).collect();
    let (head, values) = all.split_at_checked(6)?;
    if head[0] != b"reach" {
        return None;
    }
    let numbers: Vec<usize> = head[1..].iter().map(|word| text(word).parse().ok()).collect::<Option<_>>()?;
    let [slot, depth, boxes, ticks, rows] = numbers[..] else { return None };
    let floats = values.iter().map(|word| float(word)).collect::<Option<Vec<f32>>>()?;
    if boxes > floats.len() || ticks > floats.len() || rows > floats.len() || floats.len() != 6 * boxes + ticks + 6 * rows || slot > 3 {
        return None;
    }
    let (boxes, rest) = floats.split_at(6 * boxes);
    let (ticks, rows) = rest.split_at(ticks);
    Some(Asked { slot, depth: depth as u64, boxes: boxes.as_chunks().0.to_vec(), ticks: ticks.to_vec(), rows: rows.as_chunks().0.to_vec() })
}

/// The masks of an answer.
fn masks(answer: &[u8]) -> Option<Vec<u64>> {
    words(answer.strip_prefix(b"ok ")?).map(|word| if word.len() == 16 { u64::from_str_radix(&text(word), 16).ok() } else { None }).collect()
}

impl Asked {
    fn windows(&self) -> usize {
        self.ticks.len().saturating_sub(1)
    }

    fn ask(&self, out: &mut Text, depth: u64, boxes: &[Bounds], ticks: &[f32], rows: &[Bounds]) {
        let (slot, [boxes_count, ticks_count, rows_count]) = (self.slot, [boxes.len(), ticks.len(), rows.len()]);
        out.ask(&format!("reach {slot} {depth} {boxes_count} {ticks_count} {rows_count}"), &[boxes.as_flattened(), ticks, rows.as_flattened()]);
    }

    fn ask_cover(&self, out: &mut Text, slot: usize, window: usize, b: &Bounds) {
        out.ask(&format!("wcover {slot} {}", self.depth), &[b, &self.ticks[window..window + 2]]);
    }
}

/// What was asked besides, in order.
enum Group<'a> {
    /// A question that builds, asked again.
    Built,
    Reach(Besides<'a>),
    Refused {
        question: &'a [u8],
        answer: &'a [u8],
        covers: usize,
    },
    Cut {
        question: &'a [u8],
        b: Bounds,
        parts: Vec<Bounds>,
        points: Vec<[f32; 3]>,
    },
}

struct Besides<'a> {
    question: &'a [u8],
    answer: &'a [u8],
    asked: Asked,
    masks: Vec<u64>,
    /// The windows whose points are asked, each with so many moments.
    moments: Vec<(usize, usize)>,
    /// The windows whose covers are asked, one for each box.
    covers: Vec<usize>,
    /// A row and a window.
    alone: (usize, usize),
    is_each: bool,
    is_finer: bool,
}

/// Asks besides about an accepted answer. A window's cover is asked of a chain alone, in `cover_slot`.
#[allow(clippy::too_many_arguments)]
fn ask_besides<'a>(
    out: &mut Text,
    question: &'a [u8],
    answer: &'a [u8],
    asked: Asked,
    masks: Vec<u64>,
    cover_slot: Option<usize>,
    pose_times: &[f32],
    random: &mut Random,
) -> Besides<'a> {
    let some = |random: &mut Random| random.below(asked.windows() as u64) as usize;
    let mut moments = Vec::new();
    for _ in 0..WINDOWS.min(asked.windows()) {
        let window = some(random);
        let times = times(&asked.ticks[window..window + 2], pose_times, random);
        let mut count = 0;
        for time in times {
            // A point of one box, and of another.
            for _ in 0..2.min(asked.boxes.len()) {
                let b = random.pick(&asked.boxes);
                out.ask(&format!("cpad {}", asked.slot), &[&[time]]);
                out.ask(&format!("cpoint {}", asked.slot), &[&[time], &point(&b, random)]);
                count += 1;
            }
        }
        moments.push((window, count));
    }
    let covers: Vec<usize> = cover_slot.map_or(vec![], |_| (0..WINDOWS.min(asked.windows())).map(|_| some(random)).collect());
    for window in &covers {
        asked.boxes.iter().for_each(|b| asked.ask_cover(out, cover_slot.unwrap(), *window, b));
    }
    let alone = (random.below(asked.rows.len() as u64) as usize, some(random));
    asked.ask(out, asked.depth, &asked.boxes, &asked.ticks[alone.1..alone.1 + 2], &asked.rows[alone.0..alone.0 + 1]);
    let is_each = (2..=MOST_BOXES).contains(&asked.boxes.len());
    if is_each {
        asked.boxes.iter().for_each(|b| asked.ask(out, asked.depth, &[*b], &asked.ticks, &asked.rows));
    }
    let finer = greater(asked.depth, random).filter(|depth| *depth < 9 || asked.boxes.len() * asked.windows() < 8);
    finer.into_iter().for_each(|depth| asked.ask(out, depth, &asked.boxes, &asked.ticks, &asked.rows));
    Besides { question, answer, asked, masks, moments, covers, alone, is_each, is_finer: finer.is_some() }
}

/// A box in parts: the question's box and the answer's.
fn cut_of(question: &[u8], answer: &[u8]) -> Option<(Bounds, Vec<Bounds>)> {
    let mut values = words(question.strip_prefix(b"cut ")?);
    let count: usize = text(values.next()?).parse().ok()?;
    let b: Bounds = values.map(float).collect::<Option<Vec<f32>>>()?.try_into().ok()?;
    let parts = accepted::<6>(answer)?;
    (parts.len() == count).then_some((b, parts))
}

/// Each part lies in the box and differs from it on one axis alone; neighbours share a face; the points are inside some part.
fn is_cut(b: &Bounds, parts: &[Bounds], points: &[[f32; 3]]) -> bool {
    let lies_in = |part: &Bounds| (0..3).all(|i| b[i] <= part[i] && part[i] <= part[i + 3] && part[i + 3] <= b[i + 3]);
    let differs = |axis: usize| parts.iter().any(|part| part[axis] != b[axis] || part[axis + 3] != b[axis + 3]);
    let axes: Vec<usize> = (0..3).filter(|axis| differs(*axis)).collect();
    let has_ends = |axis: usize| parts[0][axis] == b[axis] && parts[parts.len() - 1][axis + 3] == b[axis + 3];
    let is_row = |axis: usize| has_ends(axis) && parts.windows(2).all(|pair| pair[0][axis + 3] == pair[1][axis]);
    parts.iter().all(lies_in) && axes.len() <= 1 && axes.iter().all(|axis| is_row(*axis)) && points.iter().all(|p| parts.iter().any(|part| is_inside(part, p)))
}

/// The first refused cover's number among those of windows, box by box.
fn first_refused<'a>(covers: &[&'a [u8]]) -> Option<&'a [u8]> {
    covers.iter().copied().find(|cover| box_of(cover).is_none())
}

fn check_besides<'a>(group: &Besides, next: &mut impl FnMut() -> &'a [u8], report: &mut Report) {
    let Besides { question, answer, asked, masks, .. } = group;
    let is_named = |row: usize, window: usize| masks[row] >> window & 1 == 1;
    for (window, count) in &group.moments {
        for _ in 0..*count {
            let [pad, point] = [next(), next()];
            let wetted = padded(pad, point);
            let is_dry = |row: usize| wetted.as_ref().is_some_and(|(_, wetted)| !meets(wetted, &asked.rows[row]));
            let is_right = wetted.is_some() && (0..asked.rows.len()).all(|row| is_named(row, *window) || is_dry(row));
            check(report, "a point in a row that isn't named", question, point, pad, is_right);
        }
    }
    for window in &group.covers {
        let covers: Vec<&[u8]> = asked.boxes.iter().map(|_| next()).collect();
        let boxes: Option<Vec<Bounds>> = covers.iter().map(|cover| box_of(cover)).collect();
        let is_met = |row: usize| boxes.as_ref().is_some_and(|boxes| boxes.iter().any(|b| meets(b, &asked.rows[row])));
        let is_right = boxes.is_some() && (0..asked.rows.len()).all(|row| !is_named(row, *window) || is_met(row));
        check(report, "named rows, and the window's covers", question, answer, covers[0], is_right);
    }
    let alone = next();
    let (row, window) = group.alone;
    check(report, "one row in one window", question, answer, alone, self::masks(alone) == Some(vec![masks[row] >> window & 1]));
    if group.is_each {
        let each: Vec<&[u8]> = asked.boxes.iter().map(|_| next()).collect();
        let named: Option<Vec<Vec<u64>>> = each.iter().map(|answer| self::masks(answer).filter(|by_one| by_one.len() == masks.len())).collect();
        let is_right = named.is_some_and(|each| (0..masks.len()).all(|row| each.iter().fold(0, |all, by_one| all | by_one[row]) == masks[row]));
        check(report, "rows by each box by itself", question, answer, each[0], is_right);
    }
    if group.is_finer {
        let finer = next();
        let is_less = |fine: &Vec<u64>| fine.len() == masks.len() && fine.iter().zip(masks).all(|(fine, coarse)| fine & !coarse == 0);
        check(report, "rows at a greater depth", question, finer, answer, self::masks(finer).as_ref().is_some_and(is_less));
    }
}

pub fn test(sides: &Sides, asked_before: &[u8], answers: &[u8], random: &mut Random, report: &mut Report) {
    let (mut out, mut groups) = (Text::default(), Vec::new());
    let mut pose_times: [Vec<f32>; 4] = Default::default();
    let mut cover_slot = [None; 4];
    let mut spare: [Vec<u8>; 4] = Default::default();
    for (question, answer) in questions(asked_before).zip(lines(answers)) {
        if builds(question) {
            let Some(slot) = words(question).nth(1).and_then(|slot| text(slot).parse::<usize>().ok()).filter(|slot| *slot < 4) else { continue };
            out.0.extend([question, b"\n"].concat());
            groups.push(Group::Built);
            let all = poses(question).unwrap_or_default();
            pose_times[slot] = all.iter().filter_map(|pose| float(pose[0])).collect();
            cover_slot[slot] = Some(slot);
            if let Some(rest) = question.strip_prefix(format!("lone {slot}").as_bytes()) {
                // Of a move by itself no window's cover may be asked, of the chain of its poses it may.
                cover_slot[slot] = (pose_times[slot].len() == 2 && pose_times[slot][0] < pose_times[slot][1]).then_some(SPARE);
                spare[slot] = [format!("chain {SPARE}").as_bytes(), rest, b"\n"].concat();
            }
            continue;
        }
        if let Some((b, parts)) = cut_of(question, answer) {
            let points = (0..POINTS).map(|_| point(&b, random)).collect();
            groups.push(Group::Cut { question, b, parts, points });
            continue;
        }
        let Some(asked) = asked(question) else { continue };
        if cover_slot[asked.slot] == Some(SPARE) {
            out.0.extend_from_slice(&spare[asked.slot]);
            groups.push(Group::Built);
        }
        match masks(answer) {
            Some(masks) if masks.len() == asked.rows.len() && !masks.is_empty() && asked.windows() > 0 => {
                let (times, cover_slot) = (&pose_times[asked.slot], cover_slot[asked.slot]);
                groups.push(Group::Reach(ask_besides(&mut out, question, answer, asked, masks, cover_slot, times, random)));
            }
            None if matches!(answer, b"refused 5" | b"refused 10") && asked.windows() * asked.boxes.len() <= MOST_COVERS => {
                let Some(slot) = cover_slot[asked.slot] else { continue };
                let mut covers = 0;
                for window in 0..asked.windows() {
                    for b in &asked.boxes {
                        asked.ask_cover(&mut out, slot, window, b);
                        covers += 1;
                    }
                }
                groups.push(Group::Refused { question, answer, covers });
            }
            _ => (),
        }
    }
    let run = run(&sides.project, &[], &out.0);
    let mut answered = lines(&run.output);
    let mut next = || answered.next().unwrap_or(b"no answer");
    for group in groups {
        match group {
            Group::Built => drop(next()),
            Group::Cut { question, b, parts, points } => check(report, "the parts of a box", question, b"", b"", is_cut(&b, &parts, &points)),
            Group::Refused { question, answer, covers } => {
                let covers: Vec<&[u8]> = (0..covers).map(|_| next()).collect();
                let number = first_refused(&covers).unwrap_or(b"every cover accepted");
                check(report, "a refused window, and its covers", question, answer, number, answer == number);
            }
            Group::Reach(besides) => check_besides(&besides, &mut next, report),
        }
    }
    if !run.ended_well {
        report.found("the project's program fails on questions about rows by windows", &[]);
    }
}
