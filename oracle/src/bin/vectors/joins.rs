//! Questions about two chains made one: each case fills two slots, joins them into a third, and asks all three; beside it stands the chain of all poses in a fourth slot, which must answer alike.

use super::chains::{swing_of_six, Chain, Pose};
use super::*;

const KIND_PAIRS: [[Kind; 2]; 4] = [[Kind::Plain, Kind::Plain], [Kind::Rigid, Kind::Rigid], [Kind::Plain, Kind::Rigid], [Kind::Rigid, Kind::Plain]];

/// The slots of the two chains, of their join and of the chain of all poses.
const FIRST: usize = 0;
const SECOND: usize = 1;
const JOINED: usize = 2;
const WHOLE: usize = 3;

impl<W: Write> Questions<W> {
    fn ask_join(&mut self, into: usize, first: usize, second: usize) {
        self.line(&format!("join {into} {first} {second}"));
    }

    /// The same question of the joined chain, of that of all poses and of the two.
    fn ask_all(&mut self, question: &str, more: &str, values: &[&[f32]]) {
        for slot in [JOINED, WHOLE, FIRST, SECOND] {
            self.ask(&format!("{question} {slot}{more}"), values);
        }
    }
}

/// The float at a place of a pose: its time, its entries by rows, its pad.
fn value(pose: &mut Pose, place: usize) -> &mut f32 {
    match place {
        0 => &mut pose.time,
        17 => &mut pose.pad,
        _ => &mut pose.matrix[place - 1],
    }
}

/// A swing of so many poses, with pads.
fn swing(count: usize) -> Chain {
    let six = swing_of_six();
    (0..count).map(|i| Pose { time: i as f32 - 5.0, pad: (i % 3) as f32, ..six[i % 6] }).collect()
}

/// Two parts of a chain which share the pose at a place.
fn parts(chain: &[Pose], place: usize) -> (Chain, Chain) {
    (chain[..=place].to_vec(), chain[place..].to_vec())
}

fn ask_parts<W: Write>(q: &mut Questions<W>, first: &[Pose], second: &[Pose]) {
    ask_parts_as(q, [Kind::Plain; 2], first, second);
}

/// Whether both are built.
fn ask_parts_as<W: Write>(q: &mut Questions<W>, kinds: [Kind; 2], first: &[Pose], second: &[Pose]) -> bool {
    let is_first = q.ask_poses_as(kinds[0], "chain", FIRST, first);
    let is_second = q.ask_poses_as(kinds[1], "chain", SECOND, second);
    q.ask_join(JOINED, FIRST, SECOND);
    is_first && is_second
}

/// Poses of every kind: turns of a quarter and shifts.
fn rigid_swing(count: usize) -> Chain {
    let turn = quarter_turn().poses[1];
    (0..count).map(|i| Pose { time: i as f32, matrix: if i % 2 == 0 { translated(i as f32, 1.0, 0.0) } else { turn }, pad: 0.5 }).collect()
}

pub fn fixed<W: Write>(q: &mut Questions<W>) {
    // At every place of a chain of six, and the whole beside it.
    let chain = swing(6);
    for place in 1..5 {
        q.new_case();
        let (first, second) = parts(&chain, place);
        ask_parts(q, &first, &second);
        q.ask_chain(WHOLE, &chain);
        ask_answers(q, &chain, place, &[1.0, -2.0, 3.5], &BOXES[2]);
    }
    // The numbers of poses: 32 and 33, and a mismatch before 12.
    q.new_case();
    let long = swing(40);
    for (a, b) in [(2, 31), (31, 2), (17, 16), (16, 17), (17, 17), (2, 32), (32, 2), (32, 32), (8, 32)] {
        let whole = &long[..(a + b - 1).min(40)];
        if whole.len() == a + b - 1 {
            let (first, second) = parts(whole, a - 1);
            ask_parts(q, &first, &second);
            ask_parts(q, &first, &second[1..]);
        } else {
            ask_parts(q, &long[..a], &long[..b]);
        }
    }
    // Each float of the shared pose a little different, or a zero of the other sign; the bottom row's too.
    let (first, second) = parts(&chain, 2);
    for place in 0..18 {
        q.new_case();
        let mut other = second.clone();
        let changed = value(&mut other[0], place);
        *changed = if *changed == 0.0 { -*changed } else { changed.next_down() };
        ask_parts(q, &first, &other);
        let mut own = first.clone();
        *value(&mut own[2], place) = *value(&mut other[0], place);
        ask_parts(q, &own, &other);
        ask_parts(q, &own, &second);
    }
    // Of one kind and of two; a mismatch before 12, and a shared pose that differs too.
    let shifts = rigid_swing(40);
    for kinds in KIND_PAIRS {
        q.new_case();
        let (first, second) = parts(&shifts[..5], 2);
        ask_parts_as(q, kinds, &first, &second);
        q.ask_poses_as(kinds[0], "chain", WHOLE, &shifts[..5]);
        ask_answers(q, &shifts[..5], 2, &[1.0, -2.0, 3.5], &BOXES[2]);
        ask_parts_as(q, kinds, &first, &second[1..]);
        ask_parts_as(q, kinds, &shifts[..17], &shifts[16..33]);
        ask_parts_as(q, kinds, &shifts[..17], &shifts[16..32]);
    }
    // Into its own slots, with itself, of empty slots and of a move by itself; malformed lines.
    q.new_case();
    q.ask_join(JOINED, FIRST, SECOND);
    q.ask_chain(FIRST, &first);
    q.ask_join(JOINED, FIRST, SECOND);
    q.ask_chain(SECOND, &second);
    for line in [
        "join",
        "join 2",
        "join 2 0",
        "join 2 0 1 0",
        "join 2 0 4",
        "join 4 0 1",
        "join 2 4 1",
        "join 2 0 x",
        "join 2 0 1 ",
        "join plain 2 0 1",
        "Join 2 0 1",
        "join 02 0 1",
    ] {
        q.line(line);
        q.ask("cpoint 2", &[&[0.5], &[0.0; 3]]);
    }
    q.ask_join(SECOND, FIRST, SECOND);
    q.ask("cpoint 1", &[&[-4.5], &[0.0; 3]]);
    q.ask_join(FIRST, FIRST, FIRST);
    q.ask("cpoint 0", &[&[-4.5], &[0.0; 3]]);
    q.ask_poses("lone", FIRST, &first[..2]);
    q.ask_chain(SECOND, &first[1..]);
    q.ask_join(JOINED, FIRST, SECOND);
    q.ask_chain(FIRST, &first[..2]);
    q.ask_join(FIRST, FIRST, SECOND);
    q.ask("cpoint 0", &[&[-3.5], &[0.0; 3]]);
    // An empty second, and again after the refusal that emptied it.
    q.ask_join(SECOND, SECOND, SECOND);
    q.ask_join(FIRST, FIRST, SECOND);
    q.ask("cpoint 0", &[&[-3.5], &[0.0; 3]]);
}

/// Points, pads and covers of all four, at and beside the shared time and elsewhere.
fn ask_answers<W: Write>(q: &mut Questions<W>, chain: &[Pose], place: usize, p: &[f32; 3], b: &[f32; 6]) {
    let shared = chain[place].time;
    let times = [-INFINITY, chain[0].time, shared.next_down(), shared, shared.next_up(), chain[chain.len() - 1].time, INFINITY, NAN];
    for time in times {
        q.ask_all("cpoint", "", &[&[time], p]);
        q.ask_all("cpad", "", &[&[time]]);
    }
    let list = [chain[0].time, shared, shared, shared.next_up(), INFINITY];
    q.ask_all("ctimes", " 15", &[p, &list]);
    q.ask_all("ccover", " 3", &[b]);
}

pub fn random<W: Write>(q: &mut Questions<W>, r: &mut Random) {
    q.new_case();
    let are_rigid = r.one_in(4);
    let mut chain = Chain::new();
    while chain.len() < 3 {
        chain = if are_rigid { r.rigid_chain() } else { r.chain() };
    }
    let kinds = if are_rigid { KIND_PAIRS[if r.one_in(3) { r.below(4) } else { 1 }] } else { KIND_PAIRS[0] };
    if !are_rigid && r.one_in(6) {
        // More poses than one chain has.
        let count = 33 + r.below(6);
        let mut longer = swing(count);
        longer.iter_mut().for_each(|pose| pose.pad = r.pick(&[0.0, 1.0, 0.25]));
        chain = longer;
    }
    let place = 1 + r.below(chain.len() - 2);
    let (mut first, mut second) = parts(&chain, place);
    if r.one_in(3) {
        // A bit of the shared pose, or the neighbouring pose in its place.
        let (part, at) = if r.one_in(2) { (&mut first, place) } else { (&mut second, 0) };
        if r.one_in(8) {
            part[at] = chain[place - 1 + 2 * r.below(2)];
        } else {
            let changed = value(&mut part[at], r.below(18));
            *changed = if *changed == 0.0 { -*changed } else { f32::from_bits(changed.to_bits() ^ 1 << r.below(24)) };
        }
    }
    let is_asked = ask_parts_as(q, kinds, &first, &second);
    let poses: Chain = [&first[..], &second[1..]].concat();
    if is_asked && poses.len() <= 40 && q.ask_poses_as(kinds[0], "chain", WHOLE, &poses) {
        let p = r.point();
        for _ in 0..1 + r.below(3) {
            let time = r.time_in(&poses);
            q.ask_all("cpoint", "", &[&[time], &p]);
        }
        ask_beside(q, r, &poses, place);
        let depth = r.depth(poses.len() - 1).min(6);
        q.ask_all("ccover", &format!(" {depth}"), &[&r.bounds()]);
    }
}

/// At the shared time and its neighbours.
fn ask_beside<W: Write>(q: &mut Questions<W>, r: &mut Random, poses: &[Pose], place: usize) {
    let shared = poses[place].time;
    let p = r.point();
    for time in [shared, shared.next_up()] {
        q.ask_all("cpoint", "", &[&[time], &p]);
        q.ask_all("cpad", "", &[&[time]]);
    }
}
