//! Questions about chains: each case fills one slot or two and asks about them. A comment stands before each, at which a list may be cut.

use super::*;
use oracle::chain;

pub const SLOTS: usize = 4;
/// More poses than this don't go into a line.
pub const MOST_POSES: usize = 49;

/// A pose with its time and pad.
#[derive(Clone, Copy)]
pub struct Pose {
    pub time: f32,
    pub matrix: [f32; 16],
    pub pad: f32,
}

pub type Chain = Vec<Pose>;

/// A chain's poses at the given times, with pads of zero.
pub fn at_times(times: &[f32], matrices: &[[f32; 16]]) -> Chain {
    times.iter().zip(matrices.iter().cycle()).map(|(time, matrix)| Pose { time: *time, matrix: *matrix, pad: 0.0 }).collect()
}

pub fn at_whole_times(matrices: &[[f32; 16]]) -> Chain {
    let times: Vec<f32> = (0..matrices.len()).map(|i| i as f32).collect();
    at_times(&times, matrices)
}

pub fn of_move(m: &Move) -> Chain {
    at_times(&m.times, &m.poses)
}

/// What a question that hands in poses builds of them.
pub fn built(kind: Kind, question: &str, poses: &[Pose]) -> Option<chain::Chain> {
    let poses: Vec<chain::Pose> = poses.iter().map(|p| chain::Pose { time: p.time, matrix: Matrix4x4::from_row_slice(&p.matrix), pad: p.pad }).collect();
    match (question, <[chain::Pose; 2]>::try_from(poses.as_slice())) {
        ("lone", Ok(pair)) => chain::Chain::lone(kind, &pair).ok(),
        _ => chain::Chain::build(kind, &poses).ok(),
    }
}

impl<W: Write> Questions<W> {
    /// The question that hands in poses. Tells whether they are built, so that there is something to ask of them.
    pub fn ask_poses(&mut self, question: &str, slot: usize, poses: &[Pose]) -> bool {
        self.ask_poses_as(Kind::Plain, question, slot, poses)
    }

    pub fn ask_poses_as(&mut self, kind: Kind, question: &str, slot: usize, poses: &[Pose]) -> bool {
        let values: Vec<f32> = poses.iter().flat_map(|p| [&[p.time], p.matrix.as_slice(), &[p.pad]].concat()).collect();
        let word = match kind {
            Kind::Plain => "plain",
            Kind::Rigid => "rigid",
        };
        self.ask(&format!("{question} {slot} {word}"), &[&values]);
        built(kind, question, poses).is_some()
    }

    pub fn ask_chain(&mut self, slot: usize, poses: &[Pose]) -> bool {
        self.ask_poses("chain", slot, poses)
    }

    fn ask_times(&mut self, slot: usize, places: usize, p: &[f32], times: &[f32]) {
        self.ask(&format!("ctimes {slot} {places}"), &[p, times]);
    }

    /// Where a list may be cut.
    pub fn new_case(&mut self) {
        self.line("#");
    }
}

/// Pads at, beside and between the poses' times; covers that grow by them, and that they refuse; the order of 1, 2, 16, 12 and 3.
fn fixed_pads<W: Write>(q: &mut Questions<W>) {
    let pads = [0.0, 2.0, -0.0, 1.5, 0.25, 3.0];
    let mut chain = swing_of_six();
    chain.iter_mut().zip(pads).for_each(|(pose, pad)| pose.pad = pad);
    q.new_case();
    q.ask_chain(1, &chain);
    for time in all_times(&chain).iter().chain(&[NAN]) {
        q.ask("cpad 1", &[&[*time]]);
    }
    for b in BOXES {
        for depth in [0, 1, 4] {
            q.ask(&format!("ccover 1 {depth}"), &[b]);
        }
    }
    // So great that lerp, its interval or a grown box leaves the format; equal poses keep the larger.
    for [start, end] in [[f32::MAX; 2], [f32::MAX, 0.0], [3e38, f32::MAX], [1e-45, 2e-45], [1e30, 1.0]] {
        for moves in [at_whole_times(&[IDENTITY, translated(1., 0., 0.)]), at_whole_times(&[IDENTITY, IDENTITY]), of_move(&quarter_turn())] {
            let mut pair = moves;
            (pair[0].pad, pair[1].pad) = (start, end);
            q.ask_poses("lone", 2, &pair);
            for time in [-1.0, 0.0, 0.25, 0.3, 0.5, 0.7, 1.0, 2.0] {
                q.ask("cpad 2", &[&[time]]);
            }
            for depth in [0, 1, 3] {
                q.ask(&format!("ccover 2 {depth}"), &[&BOXES[1]]);
            }
        }
    }
    for fault in [-1.0, -f32::from_bits(1), -0.0, NAN, INFINITY, -INFINITY] {
        for (place, other) in [(0, 1), (1, 0)] {
            for kind in 0..5 {
                let mut pair = at_whole_times(&[IDENTITY, translated(1., 0., 0.)]);
                pair[place].pad = fault;
                match kind {
                    0 => (),
                    1 => pair[other].matrix[12] = 1.0,
                    2 => pair[1].time = -1.0,
                    3 => pair[1].time = 0.0,
                    _ => (pair[0].time, pair[1].time) = (-3e38, 3e38),
                }
                q.ask_chain(3, &pair);
                q.ask_poses("lone", 3, &pair);
            }
        }
    }
}

/// Each question about a slot's first move or chain.
pub fn ask_each<W: Write>(q: &mut Questions<W>, slot: usize) {
    q.ask(&format!("cpoint {slot}"), &[&[0.5, 0.0, 0.0, 0.0]]);
    q.ask_times(slot, 3, &[0.0; 3], &[0.5]);
    q.ask(&format!("cpad {slot}"), &[&[0.5]]);
    q.ask(&format!("ccover {slot} 1"), &[&ORIGIN]);
    q.ask(&format!("cinterp {slot} 0"), &[&[0.5]]);
    q.line(&format!("cparts {slot} 0"));
    q.ask(&format!("cmotion {slot} 0"), &[&ORIGIN]);
    q.ask(&format!("cpmotion {slot} 0"), &[&ORIGIN[..3]]);
}

/// There and back along x, a turn with a shift, a rest, and a turn on the spot.
pub fn swing_of_six() -> Chain {
    let [_, turned] = quarter_turn().poses;
    let on_the_spot = [0., -1., 0., 0., 1., 0., 0., 0., 0., 0., 1., 0., 0., 0., 0., 1.];
    let mut chain = at_whole_times(&[IDENTITY, translated(1., 0., 0.), IDENTITY, turned, turned, on_the_spot]);
    chain[3].time = 2.5;
    chain[4].time = 7.0;
    chain[5].time = 8.0;
    chain
}

/// A list of times at, beside and between the poses', with the infinities; it never falls.
fn all_times(chain: &[Pose]) -> Vec<f32> {
    let mut times = vec![-INFINITY, f32::MIN, chain[0].time - 1.0];
    for (i, pose) in chain.iter().enumerate() {
        times.extend([pose.time.next_down(), pose.time, pose.time, pose.time.next_up()]);
        times.extend(chain.get(i + 1).map(|next| 0.5 * pose.time + 0.5 * next.time));
    }
    times.extend([chain[chain.len() - 1].time + 1.0, f32::MAX, INFINITY]);
    times.sort_by(f32::total_cmp);
    times
}

fn fixed_queries<W: Write>(q: &mut Questions<W>) {
    let chain = swing_of_six();
    q.new_case();
    q.ask_chain(1, &chain);
    let times = all_times(&chain);
    for time in times.iter().chain(&[NAN]) {
        for p in [[0.0; 3], [1.0, -2.0, 3.5]] {
            q.ask("cpoint 1", &[&[*time], &p]);
        }
    }
    for p in [[NAN, 0.0, 0.0], [0.0, INFINITY, 0.0], [f32::MAX; 3], [-0.0; 3]] {
        q.ask("cpoint 1", &[&[2.25], &p]);
    }
    for place in 0..=5 {
        q.line(&format!("cparts 1 {place}"));
        for time in [-INFINITY, 0.5, 1.0, 2.25, 7.5, 8.0, NAN] {
            q.ask(&format!("cinterp 1 {place}"), &[&[time]]);
        }
        for b in BOXES {
            q.ask(&format!("cmotion 1 {place}"), &[b]);
            q.ask(&format!("cpmotion 1 {place}"), &[&b[..3]]);
        }
    }
    for b in BOXES {
        for depth in [0, 1, 2, 5, 12, 13] {
            q.ask(&format!("ccover 1 {depth}"), &[b]);
        }
    }
    for depth in (0..=13).map(|depth| depth.to_string()).chain(["4294967296", "18446744073709551615", "18446744073709551616", "", "x", "-1"].map(str::to_owned))
    {
        q.ask(&format!("ccover 1 {depth}"), &[&BOXES[1]]);
    }
    let p = [1.0, -2.0, 3.5];
    let places = 3 * times.len();
    q.ask_times(1, places, &p, &times);
    for wrong in [0, 1, places - 3, places - 1, places + 1, places + 3, 3000] {
        q.ask_times(1, wrong, &p, &times);
    }
    // Every list of up to four of these times: some fall, some hold a NaN.
    let few = [-0.0, 0.0, 1.0, 2.5, NAN];
    for count in 0..=4usize {
        for mut pick in 0..few.len().pow(count as u32) {
            if count > 2 && pick % 7 != 0 {
                continue;
            }
            let mut list = Vec::new();
            for _ in 0..count {
                list.push(few[pick % few.len()]);
                pick /= few.len();
            }
            q.ask_times(1, 3 * count, &p, &list);
        }
    }
    for point in [[NAN, 0.0, 0.0], [0.0, 0.0, -INFINITY]] {
        q.ask_times(1, 0, &point, &[]);
        q.ask_times(1, 1, &point, &[]);
        q.ask_times(1, 6, &point, &[2.0, 1.0]);
    }
    q.ask_times(1, 0, &p, &[]);
    q.ask_times(1, 1, &p, &[]);
    // A point that is answered at first and carried to infinity later: 5, unless the list falls.
    let growing = at_whole_times(&[IDENTITY, IDENTITY, diagonal(8., 1., 1., 1.), IDENTITY]);
    q.ask_chain(2, &growing);
    let far = [2e38, 0.0, 0.0];
    for times in [&[0.5, 1.0][..], &[0.5, 1.5], &[0.5, 1.5, 4.0], &[0.5, 2.0, 2.0], &[2.0, 0.5], &[2.0, NAN], &[3.0]] {
        q.ask_times(2, 3 * times.len(), &far, times);
        q.ask_times(2, 3 * times.len() + 1, &far, times);
    }
    for time in [0.0, 1.0, 1.5, 2.0, 3.0] {
        q.ask("cpoint 2", &[&[time], &far]);
    }
    q.ask("ccover 2 4", &[&far, &far]);
    q.ask("ccover 2 4", &[&[1e37, 0., 0.], &[1e37, 0., 0.]]);
}

/// Poses that are equal but for the signs of their zeros: at an inner time the earlier move answers by its start, the later one would by its own.
fn fixed_zeros<W: Write>(q: &mut Questions<W>) {
    let negative = IDENTITY.map(|x| if x == 0.0 { -0.0 } else { x });
    let moved = translated(1., 0., 0.);
    q.new_case();
    for poses in [[IDENTITY, negative, moved], [negative, IDENTITY, moved], [moved, IDENTITY, negative], [IDENTITY, negative, IDENTITY]] {
        let chain = at_whole_times(&poses);
        q.ask_chain(0, &chain);
        for p in [[-0.0, 0.0, 0.0], [0.0, -0.0, -0.0], [-0.0, -0.0, -0.0], [0.0, 0.0, 0.0]] {
            for time in [0.0, 0.5, 1.0, 1.0f32.next_up(), 2.0] {
                q.ask("cpoint 0", &[&[time], &p]);
            }
            q.ask_times(0, 15, &p, &[-INFINITY, 1.0, 1.0, 1.0f32.next_up(), 2.0]);
        }
    }
    q.new_case();
    for kind in [Kind::Plain, Kind::Rigid] {
        for pad in [0.0, -0.0] {
            let chain: Chain = at_whole_times(&negative_zeros()).into_iter().map(|pose| Pose { pad, ..pose }).collect();
            q.ask_poses_as(kind, "chain", 0, &chain);
            q.ask_poses_as(kind, "lone", 1, &chain[..2]);
            for slot in 0..2 {
                q.ask(&format!("ccover {slot} 1"), &[&[-0.0; 6]]);
            }
        }
    }
}

/// The line as long as one may be, and one byte more.
fn fixed_lengths<W: Write>(q: &mut Questions<W>) {
    q.new_case();
    q.ask_chain(0, &swing_of_six());
    let times: Vec<f32> = (0..884).map(|i| i as f32 * 0.01).collect();
    q.ask_times(0, 3 * times.len(), &[1.0, 2.0, 3.0], &times);
    q.ask_times(0, 10_000_000, &[1.0, 2.0, 3.0], &times);
    q.ask_times(0, 100_000_000, &[1.0, 2.0, 3.0], &times);
}

fn fixed_refusals<W: Write>(q: &mut Questions<W>) {
    let swing: Vec<[f32; 16]> = swing_of_six().iter().map(|pose| pose.matrix).collect();
    let rising = |count: usize| at_times(&(0..count).map(|i| i as f32 - 7.0).collect::<Vec<_>>(), &swing);
    q.new_case();
    for count in [0, 1, 2, 3, 31, 32, 33, 34, 40, MOST_POSES, MOST_POSES + 1] {
        q.ask_chain(0, &rising(count));
        q.ask("cpoint 0", &[&[0.5], &[1.0, 2.0, 3.0]]);
        q.ask("ccover 0 3", &[&BOXES[2]]);
    }
    // 1 of any pose, then 2 of any, then 12, then 3: each fault alone and with the later ones, at either end.
    type Fault = fn(&mut Chain, usize);
    let faults: [Fault; 4] = [
        |chain, place| chain[place].matrix[6] = INFINITY,
        |chain, place| chain[place].matrix[13] = 1.0,
        |chain, place| chain[place].time = chain[place.max(1) - 1].time - f32::from(place == 0),
        |chain, place| {
            chain[place].time = if place == 0 { f32::MIN } else { f32::MAX };
            let inner = if place == 0 { 1 } else { place - 1 };
            chain[inner].time = -chain[place].time;
        },
    ];
    for count in [1, 2, 5, 33] {
        for (i, fault) in faults.iter().enumerate() {
            for other in &faults[i..] {
                for (place, last) in [(0, count - 1), (count - 1, 0), (count / 2, count / 2)] {
                    let mut chain = rising(count);
                    if count > 1 || i < 2 {
                        fault(&mut chain, place);
                        if count > 1 {
                            other(&mut chain, last);
                        }
                    }
                    q.ask_chain(0, &chain);
                }
            }
        }
    }
    for times in [
        [0.0, 1.0, 1.0],
        [1.0, 1.0, 2.0],
        [0.0, 2.0, 1.0],
        [-0.0, 0.0, 1.0],
        [0.0, -0.0, 1.0],
        [-1.0, -0.0, 0.0],
        [-1.0, -0.0, f32::from_bits(1)],
        [-3e38, 3e38, f32::MAX],
        [f32::MIN, -3e38, 3e38],
        [-3e38, 3e38, 3e38],
        [3e38, -3e38, 3e38],
        [f32::MIN, 0.0, f32::MAX],
        [f32::MIN, f32::MIN.next_up(), f32::MAX],
        [0.0, f32::from_bits(1), f32::from_bits(2)],
        [0.0, NAN, 1.0],
        [-INFINITY, 0.0, INFINITY],
    ] {
        q.ask_chain(0, &at_times(&times, &swing[1..4]));
        q.ask("cpoint 0", &[&[times[1]], &[1.0, 2.0, 3.0]]);
    }
    // 4 and 5 move by move, after the whole chain's checks.
    let singular = diagonal(1., 1., 0., 1.);
    let overflowing = diagonal(1e-45, 1., 1., 1.);
    for a in 0..5 {
        for b in 0..5 {
            let mut chain = rising(5);
            chain[a].matrix = singular;
            chain[b].matrix = overflowing;
            q.ask_chain(0, &chain);
            chain[4].time = chain[3].time;
            q.ask_chain(0, &chain);
        }
    }
    for pose in stopping_poses() {
        let mut chain = rising(4);
        chain[2].matrix = pose;
        q.ask_chain(0, &chain);
    }
}

fn fixed_slots<W: Write>(q: &mut Questions<W>) {
    q.new_case();
    for slot in 0..SLOTS {
        ask_each(q, slot);
    }
    let chain = swing_of_six();
    for slot in 0..SLOTS {
        q.ask_chain(slot, &chain[slot..]);
    }
    for slot in 0..SLOTS {
        ask_each(q, slot);
    }
    // A malformed line leaves the slots, a refused chain empties its own.
    let values = [0.0; 36];
    for line in ["chain", "chain 0", "chain 4 plain", "chain -1 plain", "chain x plain", "chain 0 Plain", "chain 0 plain ", "lone 0 plain"] {
        q.line(line);
    }
    for (question, floats) in [("chain 0 Rigid", 36), ("chain 0 plain", 35), ("lone 0 plain", 18), ("lone 0 plain", 35), ("lone 4 plain", 36)] {
        q.ask(question, &[&values[..floats]]);
    }
    for line in [
        "cparts 0",
        "cparts 0 5",
        "cparts 0 18446744073709551615",
        "cparts 4 0",
        "cparts 0 0 ",
        "cparts 0 0 00000000",
        "Cparts 0 0",
        "cinterp 0 0",
        "cinterp 0 0 0",
        "cpoint 0",
        "cpoint 0 00000000",
        "ctimes 0",
        "ctimes 0 0",
        "ctimes 0 0 00000000 00000000",
        "ctimes 0 x 00000000 00000000 00000000",
        "ccover 0",
        "ccover 0 1",
        "cmotion 0 0",
        "cpmotion 0 0",
        "cpmotion 0 9 00000000 00000000 00000000",
        "nothing",
        "sin 00000000",
        "parts",
    ] {
        q.line(line);
    }
    for slot in 0..SLOTS {
        q.line(&format!("cparts {slot} 1"));
    }
    q.ask_chain(2, &chain[..1]);
    for slot in 0..SLOTS {
        ask_each(q, slot);
    }
    // A move by itself: no list of times, and its own rule for its times.
    for m in [move_a(), move_b(), quarter_turn(), ninth_zero().0] {
        for times in [[0.0, 1.0], [1.0, 1.0], [0.0, -0.0], [-0.0, 0.0], [1.0, 0.0], [-3e38, 3e38], [NAN, 1.0]] {
            let poses = of_move(&Move { times, ..m });
            for question in ["lone", "chain"] {
                if q.ask_poses(question, 3, &poses) {
                    ask_each(q, 3);
                    q.ask("cpoint 3", &[&[times[1].next_up()], &[1.0, 2.0, 3.0]]);
                    q.ask("ccover 3 3", &[&BOXES[2]]);
                }
            }
        }
    }
    let poses = of_move(&move_a());
    q.ask_poses("lone", 3, &poses[..1]);
    q.ask_poses("lone", 3, &chain[..3]);
    ask_each(q, 3);
}

pub fn fixed<W: Write>(q: &mut Questions<W>) {
    fixed_slots(q);
    fixed_refusals(q);
    fixed_queries(q);
    fixed_pads(q);
    fixed_zeros(q);
    fixed_lengths(q);
}

impl Random {
    /// Mostly 2 to 8 poses; at times up to 32, and now and then a number that is refused.
    pub fn pose_count(&mut self) -> usize {
        match self.below(32) {
            0 => self.pick(&[0, 1, 33, 33, 34, MOST_POSES]),
            1 | 2 => 9 + self.below(24),
            3 => 32,
            4..=12 => 2,
            13..=20 => 3,
            _ => 3 + self.below(6),
        }
    }

    /// Times that rise strictly, but for those of chance.
    pub fn rising_times(&mut self, count: usize) -> Vec<f32> {
        let style = self.below(14);
        let rising = |mut times: Vec<f32>| {
            times.sort_by(f32::total_cmp);
            times
        };
        match style {
            0 => rising((0..count).map(|_| self.finite()).collect()),
            1 => rising((0..count).map(|_| self.size(-149, 127)).collect()),
            2 => (0..count).map(|_| self.number()).collect(),
            3 | 4 => {
                // Floats beside each other, some of them about zero.
                let mut time = self.pick(&[0.0, -f32::from_bits(3), 1.0, -1.0, 1.9999999, 4096.0, 16777215.0]);
                let step = self.pick(&[1, 1, 2, 3]);
                (0..count)
                    .map(|_| {
                        let now = time;
                        (0..step).for_each(|_| time = time.next_up());
                        now
                    })
                    .collect()
            }
            5 if self.one_in(3) => {
                // From the one end of the format to the other in one step.
                let before = 1 + self.below(count.max(2) - 1);
                (0..count).map(|i| if i < before { f32::MIN + 1e35 * i as f32 } else { f32::MAX - 1e35 * (count - i) as f32 }).collect()
            }
            5 => {
                // As far as the format goes, without an infinite difference as a rule.
                let step = 6.6e38 / count.max(2) as f64;
                (0..count).map(|i| (-3.3e38 + step * i as f64) as f32).collect()
            }
            6 => rising((0..count).map(|_| self.unit()).collect()),
            7 | 8 => {
                let (mut time, step) = (f64::from(self.small()), f64::from(self.size(-8, 8).abs()));
                (0..count)
                    .map(|_| {
                        time += step * (0.1 + self.real().abs());
                        time as f32
                    })
                    .collect()
            }
            _ => {
                let first = self.pick(&[0.0, 0.0, -3.0, 100.0]);
                (0..count).map(|i| first + i as f32).collect()
            }
        }
    }

    /// Turns that follow each other, mild stretches and short ways as a rule.
    fn swing(&mut self, count: usize) -> Vec<[f32; 16]> {
        let is_mild = !self.one_in(3);
        let unit = [[1., 0., 0.], [0., 1., 0.], [0., 0., 1.]];
        let mut turn = if self.one_in(3) { [0.0, 0.0, 0.0, 1.0] } else { self.direction::<4>() };
        let mut stretch = if is_mild { unit } else { self.stretch() };
        let mut translation = [0.0; 3];
        let mut poses: Vec<[f32; 16]> = Vec::new();
        while poses.len() < count {
            let last = poses.last().copied();
            match (self.below(12), last) {
                (0, Some(last)) => {
                    // The same pose again, but for the signs of zeros.
                    poses.push(last.map(|x| if x == 0.0 && self.one_in(4) { -x } else { x }));
                    continue;
                }
                (1, _) => (),
                (2, _) => turn = self.direction::<4>(),
                (3, _) => {
                    let about = 0.9995 + 2e-7 * self.real();
                    turn = product(turn, self.turn(about));
                }
                (4, _) => {
                    let opposite = 1e-6 * self.real();
                    turn = product(turn, self.turn(opposite));
                }
                (5, _) => {
                    let small = 1.0 - 0.001 * self.real().abs();
                    turn = product(turn, self.turn(small));
                }
                _ => {
                    let any = self.real();
                    turn = product(turn, self.turn(any));
                }
            }
            match self.below(4) {
                0 if is_mild => (0..3).for_each(|i| stretch[i][i] = 1.0 + 0.01 * self.real()),
                0 => stretch = self.stretch(),
                _ => (),
            }
            if !self.one_in(4) {
                translation = if is_mild { self.numbers(|r| 10.0 * r.unit()) } else { self.translation() };
            }
            poses.push(from_rows(times(rotation(turn), stretch), translation));
        }
        poses
    }

    /// Poses of every sort that moves have, refused ones too.
    fn any_poses(&mut self, count: usize) -> Vec<[f32; 16]> {
        let mut poses = Vec::new();
        while poses.len() < count {
            let of_move = match self.below(6) {
                0 => self.any_move().poses,
                1 => self.returning_move().0.poses,
                2 => self.plain_move(false).poses,
                3 => self.ninth_zero_move().0.poses,
                _ => self.plain_move(true).poses,
            };
            poses.extend(of_move);
        }
        poses.truncate(count);
        poses
    }

    /// Of either zero, small, great, or so great that lerp or a grown box may overflow.
    pub fn pad(&mut self) -> f32 {
        match self.below(40) {
            0..16 => 0.0,
            16 => -0.0,
            17 => self.size(-149, -100).abs(),
            18 => self.pick(&[f32::MAX, f32::MAX.next_down(), 3e38, 1e30]),
            _ => self.size(-8, 6).abs(),
        }
    }

    /// A fault at any place.
    pub fn spoil(&mut self, chain: &mut Chain) {
        let place = self.below(chain.len());
        match self.below(12) {
            10 => chain[place].pad = -self.size(-149, 100).abs(),
            11 => chain[place].pad = self.pick(&[NAN, INFINITY, -INFINITY, -1.0, -0.0]),
            0 => chain[place].matrix[self.below(12)] = self.edge(),
            1 => chain[place].matrix[12 + self.below(4)] = self.edge(),
            2 => chain[place].time = self.pick(&[NAN, INFINITY, -INFINITY]),
            3 if place > 0 => chain[place].time = chain[place - 1].time,
            4 => chain[place].time = self.number(),
            5 if place > 0 => (chain[place - 1].time, chain[place].time) = self.pick(&[(-0.0, 0.0), (0.0, -0.0), (-3e38, 3e38)]),
            6 => {
                // A linear part without an inverse, or nearly.
                let (from, to) = (self.below(3), self.below(3));
                for j in 0..3 {
                    chain[place].matrix[4 * to + j] = if from == to { 0.0 } else { self.near(chain[place].matrix[4 * from + j]) };
                }
            }
            7 => {
                let factor = self.size(-100, 100);
                (0..12).filter(|i| i % 4 != 3).for_each(|i| chain[place].matrix[i] *= factor);
            }
            8 => {
                let (row, factor) = (self.below(3), self.size(-60, 60));
                (0..3).for_each(|j| chain[place].matrix[4 * row + j] *= factor);
            }
            _ => {
                let other = self.below(chain.len());
                let time = chain[place].time;
                chain[place].time = chain[other].time;
                chain[other].time = time;
            }
        }
    }

    pub fn chain(&mut self) -> Chain {
        let count = self.pose_count();
        let matrices = if self.one_in(4) { self.any_poses(count) } else { self.swing(count) };
        let mut chain = at_times(&self.rising_times(count), &matrices);
        chain.iter_mut().for_each(|pose| pose.pad = self.pad());
        if count > 0 && self.one_in(6) {
            self.spoil(&mut chain);
            if self.one_in(4) {
                self.spoil(&mut chain);
            }
        }
        chain
    }

    /// At a pose, beside it, between two, outside, at an infinity, or any number.
    pub fn time_in(&mut self, chain: &[Pose]) -> f32 {
        let place = self.below(chain.len());
        let at = chain[place].time;
        let next = chain[(place + 1).min(chain.len() - 1)].time;
        match self.below(16) {
            0 | 1 => at,
            2 => at.next_up(),
            3 => at.next_down(),
            4 => self.number(),
            5 => self.pick(&[chain[0].time - 1.0, chain[chain.len() - 1].time + 1.0, f32::MIN, f32::MAX]),
            6 => self.pick(&[-INFINITY, INFINITY]),
            7 => 0.5 * at + 0.5 * next,
            _ => {
                let part = 0.5 + 0.5 * self.real();
                (f64::from(at) * (1.0 - part) + f64::from(next) * part) as f32
            }
        }
    }

    /// A time that isn't NaN.
    fn number_in(&mut self, chain: &[Pose]) -> f32 {
        loop {
            let time = self.time_in(chain);
            if !time.is_nan() {
                return time;
            }
        }
    }

    /// A list of times, and how many places are lent for its answers.
    fn time_list(&mut self, chain: &[Pose]) -> (Vec<f32>, usize) {
        let count = match self.below(16) {
            0 => 0,
            1 => 40 + self.below(260),
            2 | 3 => 10 + self.below(30),
            _ => 1 + self.below(9),
        };
        let mut list: Vec<f32> = (0..count).map(|_| self.number_in(chain)).collect();
        list.sort_by(f32::total_cmp);
        if count > 1 && self.one_in(3) {
            // A time that comes again.
            let place = self.below(count - 1);
            list[place + 1] = list[place];
            list.sort_by(f32::total_cmp);
        }
        let fault = self.below(12);
        if count > 0 && fault < 3 {
            let (place, other) = (self.below(count), self.below(count));
            match fault {
                0 => list.swap(place, other),
                1 => list[place] = NAN,
                _ => list[place] = self.number_in(chain),
            }
        }
        let places = match self.below(12) {
            0 => (3 * count + self.pick(&[1, 2, 3, 4])).saturating_sub(self.pick(&[0, 3, 5])),
            1 if count > 0 => self.pick(&[0, 1, count, 3]),
            _ => 3 * count,
        };
        (list, places)
    }

    /// Less deep for more moves, since each move is cut.
    pub fn depth(&mut self, moves: usize) -> usize {
        let most = match moves {
            0..=2 => 8,
            3..=8 => 6,
            _ => 4,
        };
        match self.below(24) {
            0 => most + 1 + self.below(2),
            1 if moves < 4 => self.pick(&[11, 12]),
            2 => self.pick(&[0, 13]),
            _ => self.below(most + 1),
        }
    }
}

fn ask_of_moves<W: Write>(q: &mut Questions<W>, r: &mut Random, slot: usize, chain: &[Pose]) {
    // At times one move too far.
    let place = |r: &mut Random| {
        let beyond = usize::from(r.one_in(16));
        r.below(chain.len() - 1 + beyond)
    };
    if r.one_in(2) {
        q.line(&format!("cparts {slot} {}", place(r)));
    }
    for _ in 0..r.below(3) {
        q.ask(&format!("cinterp {slot} {}", place(r)), &[&[r.time_in(chain)]]);
    }
    if r.one_in(4) {
        q.ask(&format!("cmotion {slot} {}", place(r)), &[&r.bounds()]);
    }
    if r.one_in(3) {
        q.ask(&format!("cpmotion {slot} {}", place(r)), &[&r.point()]);
    }
}

pub fn ask_of_chain<W: Write>(q: &mut Questions<W>, r: &mut Random, slot: usize, chain: &[Pose], is_lone: bool) {
    let p = r.point();
    for _ in 0..2 + r.below(5) {
        let p = if r.one_in(2) { p } else { r.point() };
        q.ask(&format!("cpoint {slot}"), &[&[r.time_in(chain)], &p]);
    }
    for _ in 0..r.below(3) {
        q.ask(&format!("cpad {slot}"), &[&[r.time_in(chain)]]);
    }
    // A move by itself has no list of times.
    let lists = if is_lone { usize::from(r.one_in(8)) } else { r.below(3) };
    for _ in 0..lists {
        let (times, places) = r.time_list(chain);
        q.ask_times(slot, places, &r.point(), &times);
    }
    for _ in 0..1 + r.below(2) {
        let depth = r.depth(chain.len() - 1);
        q.ask(&format!("ccover {slot} {depth}"), &[&r.bounds()]);
    }
    ask_of_moves(q, r, slot, chain);
}

/// Moves that find nine zeros, there and back, as a part of a chain; the box has the point as a corner.
fn ask_nine_zeros<W: Write>(q: &mut Questions<W>, r: &mut Random) {
    let (m, p) = r.ninth_zero_move();
    let count = 3 + r.below(4);
    let chain = at_times(&r.rising_times(count), &m.poses);
    if q.ask_chain(0, &chain) {
        for place in 0..count - 1 {
            q.ask(&format!("cpmotion 0 {place}"), &[&p]);
        }
        q.ask("cmotion 0 0", &[&p, &p]);
        q.ask("cmotion 0 1", &[&[0.0f32; 3].map(|x| x.min(p[0]).min(p[1]).min(p[2])), &p]);
    }
}

pub fn random<W: Write>(q: &mut Questions<W>, r: &mut Random) {
    q.new_case();
    if r.one_in(32) {
        return ask_nine_zeros(q, r);
    }
    let (slot, is_lone) = (r.below(SLOTS), r.one_in(8));
    let poses = if is_lone {
        let mut pair = of_move(&r.any_move());
        pair.iter_mut().for_each(|pose| pose.pad = r.pad());
        if r.one_in(16) {
            r.spoil(&mut pair);
        }
        pair
    } else {
        r.chain()
    };
    let is_built = q.ask_poses(if is_lone { "lone" } else { "chain" }, slot, &poses);
    if r.one_in(16) {
        // Another slot is filled, or the same again.
        let (other, more) = (r.below(SLOTS), r.chain());
        if q.ask_chain(other, &more) {
            ask_of_chain(q, r, other, &more, false);
        }
        if other == slot {
            return;
        }
    }
    if is_built {
        ask_of_chain(q, r, slot, &poses, is_lone);
    } else if r.one_in(8) {
        ask_each(q, slot);
    }
}
