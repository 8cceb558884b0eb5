//! Document 02's chains: 2 to 32 poses, each neighbouring pair a move of the original's. What is the chain's own (its checks, which move a time belongs to,
//! lists of times, the union of covers, sets of boxes, the shortest refused stretch) is written from document 02.

use crate::core::geometry::point::Point3f;
use crate::core::transform::{Matrix4x4, Transform};
use crate::cover;
use crate::judged::{self, check_bottom_row, check_rigid, finite, finite_matrix, point_values, Judged, Kind, Move};
use crate::refusal::*;

pub const MOST_POSES: usize = 32;
pub const MOST_BOXES: usize = 16;

/// A value line: a pose at its time, with its pad.
#[derive(Debug, Clone, Copy)]
pub struct Pose {
    pub time: f32,
    pub matrix: Matrix4x4,
    pub pad: f32,
}

impl Pose {
    /// The bits of its time, of all sixteen entries and of its pad.
    pub fn bits(&self) -> Vec<u32> {
        [&[self.time], self.matrix.m.as_flattened(), &[self.pad]].concat().into_iter().map(f32::to_bits).collect()
    }
}

/// A chain that was built: a move for each neighbouring pair of its poses.
#[derive(Debug, Clone)]
pub struct Chain {
    pub kind: Kind,
    pub poses: Vec<Pose>,
    pub moves: Vec<Move>,
}

/// Of every pose before the next: 1, 2, 16.
fn check_poses(poses: &[Pose]) -> Judged<()> {
    let is_finite = |pose: &Pose| finite(&[pose.time, pose.pad]).is_ok() && finite_matrix(&pose.matrix).is_ok();
    if !poses.iter().all(is_finite) {
        return Err(POSE_NOT_FINITE);
    }
    poses.iter().try_for_each(|pose| check_bottom_row(&pose.matrix))?;
    if poses.iter().any(|pose| pose.pad < 0.0) {
        return Err(PAD);
    }
    Ok(())
}

/// Each over the whole chain before the next: 1, 2, 16, 12, 3. Of a rigid chain then 17 and 18, pose by pose.
fn check(kind: Kind, poses: &[Pose]) -> Judged<()> {
    check_poses(poses)?;
    let pairs = || poses.windows(2).map(|pair| (pair[0].time, pair[1].time));
    if poses.len() < 2 || poses.len() > MOST_POSES || !pairs().all(|(start, end)| start < end) {
        return Err(CHAIN);
    }
    if !pairs().all(|(start, end)| (end - start).is_finite()) {
        return Err(TIMES);
    }
    if kind == Kind::Rigid {
        poses.iter().try_for_each(|pose| check_rigid(&pose.matrix))?;
    }
    Ok(())
}

fn build_move(kind: Kind, start: &Pose, end: &Pose) -> Judged<Move> {
    let built = judged::build(kind, start.time, &start.matrix, end.time, &end.matrix)?;
    Ok(Move { pads: [start.pad, end.pad], ..built })
}

impl Chain {
    /// The whole chain's checks, then its moves in rising order, each built by the original.
    pub fn build(kind: Kind, poses: &[Pose]) -> Judged<Chain> {
        check(kind, poses)?;
        let moves: Judged<Vec<Move>> = poses.windows(2).map(|pair| build_move(kind, &pair[0], &pair[1])).collect();
        Ok(Chain { kind, poses: poses.to_vec(), moves: moves? })
    }

    /// A move built by itself, with document 01's rule for its times: 1, 2, 16, then 3, and of a rigid one 17 and 18, pose by pose.
    pub fn lone(kind: Kind, poses: &[Pose; 2]) -> Judged<Chain> {
        check_poses(poses)?;
        Ok(Chain { kind, poses: poses.to_vec(), moves: vec![build_move(kind, &poses[0], &poses[1])?] })
    }

    /// One chain of two, with the pose that they share once: 20 where it differs in a bit, or the kinds do, then 12 for more than 32 poses. Built from its poses.
    pub fn join(&self, other: &Chain) -> Judged<Chain> {
        let (last, first) = (&self.poses[self.poses.len() - 1], &other.poses[0]);
        if last.bits() != first.bits() || self.kind != other.kind {
            return Err(MISMATCH);
        }
        let poses = [&self.poses, &other.poses[1..]].concat();
        if poses.len() > MOST_POSES {
            return Err(CHAIN);
        }
        Chain::build(self.kind, &poses)
    }

    /// The move that a time belongs to: the first that isn't over before it, else the last. Any, for a NaN, which each refuses.
    fn move_at(&self, time: f32) -> &Move {
        let moves = &self.moves;
        moves.iter().find(|m| time <= m.fields.end_time).unwrap_or(&moves[moves.len() - 1])
    }

    pub fn transform_point(&self, time: f32, p: &Point3f) -> Judged<Point3f> {
        self.move_at(time).transform_point(time, p)
    }

    pub fn pad(&self, time: f32) -> Judged<f32> {
        self.move_at(time).pad(time)
    }

    pub fn interpolate(&self, time: f32) -> Judged<Transform> {
        self.move_at(time).interpolate(time)
    }

    /// A point at each time of a list that never falls, three places a time: 6 of the point and of every time, 13, then the first time's number that is refused.
    /// A refusal leaves the answers as they came.
    pub fn transform_points(&self, times: &[f32], p: &Point3f, answers: &mut [f32]) -> Judged<()> {
        if finite(&point_values(p)).is_err() || times.iter().any(|time| time.is_nan()) {
            return Err(QUERY);
        }
        if times.windows(2).any(|pair| pair[1] < pair[0]) || answers.len() != 3 * times.len() {
            return Err(TIME_LIST);
        }
        let points: Judged<Vec<[f32; 3]>> = times.iter().map(|time| Ok(point_values(&self.transform_point(*time, p)?))).collect();
        answers.copy_from_slice(points?.as_flattened());
        Ok(())
    }

    /// 6, 7, 8, then the moves' covers in rising order, and their union.
    pub fn cover(&self, b: &[f32; 6], depth: u64) -> Judged<[f32; 6]> {
        let covers: Judged<Vec<[f32; 6]>> = self.moves.iter().map(|m| m.cover(b, depth)).collect();
        Ok(covers?.into_iter().reduce(cover::union).expect("a chain has a move"))
    }

    /// 19, then what a copy of the same kind with this pose at the place answers: the number that building it is refused with, or its cover.
    pub fn try_pose(&self, place: u64, pose: Pose, b: &[f32; 6], depth: u64) -> Judged<[f32; 6]> {
        let mut poses = self.poses.clone();
        *usize::try_from(place).ok().and_then(|place| poses.get_mut(place)).ok_or(PLACE)? = pose;
        Chain::build(self.kind, &poses)?.cover(b, depth)
    }

    /// 14, then each box's own cover, in order: the first refused one's number. The union of the covers comes first, and then they themselves.
    pub fn covers(&self, boxes: &[[f32; 6]], depth: u64) -> Judged<([f32; 6], Vec<[f32; 6]>)> {
        if boxes.len() > MOST_BOXES {
            return Err(SET);
        }
        let covers: Vec<[f32; 6]> = boxes.iter().map(|b| self.cover(b, depth)).collect::<Judged<_>>()?;
        let union = covers.iter().copied().reduce(cover::union).ok_or(SET)?;
        Ok((union, covers))
    }
}

/// What a run of neighbouring poses is refused with: one pose as a move from it to itself, any other run as a chain.
fn run_number(kind: Kind, run: &[Pose]) -> Option<u8> {
    match run {
        [pose] => Chain::lone(kind, &[*pose, *pose]).err(),
        _ => Chain::build(kind, run).err(),
    }
}

/// The place and the length of the shortest run with the chain's number, the leftmost among equals: every run is built, up to that one. 0 and 0 where the chain is
/// accepted; 12 where it is refused with 12.
pub fn stretch(kind: Kind, poses: &[Pose]) -> Judged<[usize; 2]> {
    let number = match Chain::build(kind, poses) {
        Ok(_) => return Ok([0, 0]),
        Err(CHAIN) => return Err(CHAIN),
        Err(number) => number,
    };
    let mut runs = (1..=poses.len()).flat_map(|length| (0..=poses.len() - length).map(move |place| [place, length]));
    let shortest = runs.find(|[place, length]| run_number(kind, &poses[*place..place + length]) == Some(number));
    Ok(shortest.expect("a refused chain is one of its runs"))
}

#[cfg(test)]
mod tests {
    use super::*;

    fn shifted(time: f32, x: f32) -> Pose {
        let mut matrix = Matrix4x4::default();
        matrix.m[0][3] = x;
        Pose { time, matrix, pad: 0.0 }
    }

    fn turned(time: f32) -> Pose {
        let mut pose = shifted(time, 0.0);
        (pose.matrix.m[0], pose.matrix.m[1]) = ([0.0, -1.0, 0.0, 0.0], [1.0, 0.0, 0.0, 0.0]);
        pose
    }

    fn number(poses: &[Pose]) -> Option<u8> {
        Chain::build(Kind::Plain, poses).err()
    }

    fn chain() -> Chain {
        Chain::build(Kind::Plain, &[shifted(0.0, 0.0), shifted(1.0, 1.0), shifted(2.0, 1.0), shifted(4.0, 3.0)]).unwrap()
    }

    fn x_at(chain: &Chain, time: f32) -> f32 {
        chain.transform_point(time, &Point3f::new(0.0, 0.0, 0.0)).unwrap().x
    }

    #[test]
    fn checks_in_order() {
        let rising: Vec<Pose> = (0..33).map(|i| shifted(i as f32, 0.0)).collect();
        assert_eq!(number(&rising[..32]), None);
        for refused in [&rising[..], &rising[..1], &[], &[rising[0], rising[0]], &[rising[1], rising[0]], &[shifted(-0.0, 0.0), shifted(0.0, 0.0)]] {
            assert_eq!(number(refused), Some(CHAIN));
        }
        let mut poses = rising.clone();
        poses[32].matrix.m[3][0] = 1.0;
        assert_eq!(number(&poses), Some(BOTTOM_ROW));
        poses[20].time = f32::NAN;
        assert_eq!(number(&poses), Some(POSE_NOT_FINITE));
        // 12 before 3, also where the 3 is further left; 3 of the last pair before 4 of the first.
        let far = [shifted(-3e38, 0.0), shifted(3e38, 0.0), shifted(3e38, 0.0)];
        assert_eq!(number(&far), Some(CHAIN));
        let mut singular = shifted(-4.0, 0.0);
        singular.matrix.m[0][0] = 0.0;
        assert_eq!(number(&[singular, shifted(-3e38, 0.0), shifted(3e38, 0.0)]), Some(CHAIN));
        singular.time = f32::MIN;
        assert_eq!(number(&[singular, shifted(-3e38, 0.0), shifted(3e38, 0.0)]), Some(TIMES));
        assert_eq!(number(&[singular, shifted(0.0, 0.0)]), Some(ZERO_PIVOT));
    }

    fn padded(pose: Pose, pad: f32) -> Pose {
        Pose { pad, ..pose }
    }

    #[test]
    fn pads_are_judged_after_bottom_rows() {
        let (start, end) = (shifted(0.0, 0.0), shifted(1.0, 1.0));
        let mut bent = end;
        bent.matrix.m[3][0] = 1.0;
        let number_of = |poses: [Pose; 2]| (number(&poses), Chain::lone(Kind::Plain, &poses).err());
        assert_eq!(number_of([padded(start, -0.0), padded(end, 2.0)]), (None, None));
        assert_eq!(number_of([start, padded(end, -1e-40)]), (Some(PAD), Some(PAD)));
        assert_eq!(number_of([padded(start, -1.0), bent]), (Some(BOTTOM_ROW), Some(BOTTOM_ROW)));
        assert_eq!(number_of([padded(start, f32::INFINITY), bent]), (Some(POSE_NOT_FINITE), Some(POSE_NOT_FINITE)));
        assert_eq!(number_of([padded(end, -1.0), start]), (Some(PAD), Some(PAD)));
    }

    #[test]
    fn pads_at_times() {
        let pad_of = |poses: [Pose; 2], time: f32| Chain::lone(Kind::Plain, &poses).unwrap().pad(time);
        let moving = [padded(shifted(0.0, 0.0), 1.0), padded(shifted(1.0, 1.0), 3.0)];
        let still = [padded(shifted(0.0, 0.0), 1.0), padded(shifted(1.0, 0.0), 3.0)];
        for (time, pad) in [(f32::NEG_INFINITY, 1.0), (0.0, 1.0), (0.5, 2.0), (1.0, 3.0), (2.0, 3.0)] {
            assert_eq!(pad_of(moving, time), Ok(pad));
            assert_eq!(pad_of(still, time), Ok(3.0));
        }
        assert_eq!(pad_of(moving, f32::NAN), Err(QUERY));
        // The cover grows by the pads: an end box by its own, the one box of equal poses by the larger.
        let cover = Chain::lone(Kind::Plain, &moving).unwrap().cover(&[0.0; 6], 12).unwrap();
        assert!(cover[0] <= -1.0 && cover[3] >= 4.0 && cover[1] <= -3.0 && cover[4] >= 3.0);
        assert_eq!(Chain::lone(Kind::Plain, &still).unwrap().cover(&[0.0; 6], 0), Ok([-3.0, -3.0, -3.0, 3.0, 3.0, 3.0]));
    }

    #[test]
    fn a_move_by_itself_keeps_its_rule() {
        let equal = [shifted(1.0, 0.0), shifted(1.0, 2.0)];
        assert_eq!(number(&equal), Some(CHAIN));
        let lone = Chain::lone(Kind::Plain, &equal).unwrap();
        assert_eq!(x_at(&lone, 1.0), 0.0);
        assert_eq!(x_at(&lone, 1.0f32.next_up()), 2.0);
        assert_eq!(Chain::lone(Kind::Plain, &[equal[1], shifted(0.0, 0.0)]).err(), Some(TIMES));
    }

    #[test]
    fn times_of_the_whole_chain() {
        let chain = chain();
        let expected =
            [(f32::NEG_INFINITY, 0.0), (-1.0, 0.0), (0.0, 0.0), (0.5, 0.5), (1.0, 1.0), (1.5, 1.0), (2.0, 1.0), (3.0, 2.0), (4.0, 3.0), (f32::INFINITY, 3.0)];
        for (time, x) in expected {
            assert_eq!(x_at(&chain, time), x, "at {time}");
        }
        assert_eq!(chain.transform_point(f32::NAN, &Point3f::new(0.0, 0.0, 0.0)).err(), Some(QUERY));
    }

    /// At an inner pose's time the earlier move answers by its stored end; the later move's own start is the same matrix, but for zeros.
    #[test]
    fn an_inner_time_is_the_earlier_moves() {
        let chain = Chain::build(Kind::Plain, &[shifted(0.0, 0.0), turned(1.0), shifted(2.0, 5.0)]).unwrap();
        let end = chain.transform_point(1.0, &Point3f::new(1.0, 2.0, 3.0)).unwrap();
        assert_eq!(point_values(&end), [-2.0, 1.0, 3.0]);
        assert!(std::ptr::eq(chain.move_at(1.0), &chain.moves[0]));
        assert!(std::ptr::eq(chain.move_at(1.0f32.next_up()), &chain.moves[1]));
    }

    #[test]
    fn lists_of_times() {
        let (chain, p) = (chain(), Point3f::new(0.0, 0.0, 0.0));
        let ask = |times: &[f32], places: usize| {
            let mut answers = vec![7.0; places];
            let number = chain.transform_points(times, &p, &mut answers).err();
            (number, answers)
        };
        assert_eq!(ask(&[0.5, 0.5, 3.0], 9), (None, vec![0.5, 0.0, 0.0, 0.5, 0.0, 0.0, 2.0, 0.0, 0.0]));
        assert_eq!(ask(&[], 0), (None, vec![]));
        assert_eq!(ask(&[0.0, -0.0], 6).0, None);
        assert_eq!(ask(&[], 1), (Some(TIME_LIST), vec![7.0]));
        assert_eq!(ask(&[0.5, 0.25], 6), (Some(TIME_LIST), vec![7.0; 6]));
        assert_eq!(ask(&[0.5, 0.75], 5), (Some(TIME_LIST), vec![7.0; 5]));
        assert_eq!(ask(&[0.5, 0.25, f32::NAN], 2), (Some(QUERY), vec![7.0; 2]));
        let far = Point3f::new(f32::INFINITY, 0.0, 0.0);
        assert_eq!(chain.transform_points(&[], &far, &mut []), Err(QUERY));
        // The second time is refused by 5; the first point is not left behind.
        let mut answers = [7.0; 6];
        assert_eq!(chain.transform_points(&[0.0, 4.0], &Point3f::new(f32::MAX, 0.0, 0.0), &mut answers), Ok(()));
        let sheared = |time, x: f32| {
            let mut pose = shifted(time, 0.0);
            pose.matrix.m[0][1] = x;
            pose
        };
        let growing = Chain::build(Kind::Plain, &[sheared(0.0, 0.0), sheared(1.0, 4.0)]).unwrap();
        let mut answers = [7.0; 6];
        assert_eq!(growing.transform_points(&[0.0, 1.0], &Point3f::new(0.0, f32::MAX, 0.0), &mut answers), Err(NOT_FINITE));
        assert_eq!(answers, [7.0; 6]);
    }

    #[test]
    fn covers_are_united() {
        let there_and_back = Chain::build(Kind::Plain, &[shifted(0.0, 0.0), shifted(1.0, 1.0), shifted(2.0, 0.0), shifted(3.0, -1.0)]).unwrap();
        assert_eq!(there_and_back.cover(&[0.0; 6], 1), Ok([-1.0, 0.0, 0.0, 1.0, 0.0, 0.0]));
        let b = [0.0, 0.0, 0.0, 0.5, 0.0, 0.0];
        assert_eq!(chain().cover(&b, 0), Err(SQUARED_LENGTH));
        assert_eq!(chain().cover(&b, 13), Err(DEPTH));
        assert_eq!(chain().cover(&[1.0, 0.0, 0.0, 0.5, 0.0, 0.0], 13), Err(CORNERS));
        // The moves' own covers: each inside the union, and each end of it is one of theirs.
        let chain = Chain::build(Kind::Plain, &[shifted(0.0, 0.0), turned(1.0), shifted(2.0, 5.0)]).unwrap();
        let all = chain.cover(&b, 6).unwrap();
        let covers: Vec<[f32; 6]> = chain.moves.iter().map(|m| m.cover(&b, 6).unwrap()).collect();
        for i in 0..6 {
            let ends = covers.iter().map(|c| c[i]);
            assert_eq!(all[i], if i < 3 { ends.fold(f32::INFINITY, f32::min) } else { ends.fold(f32::NEG_INFINITY, f32::max) });
        }
    }

    #[test]
    fn chains_are_joined() {
        let poses: Vec<Pose> = (0..33).map(|i| padded(shifted(i as f32, (i * i) as f32), i as f32)).collect();
        let join_as = |kinds: [Kind; 2], first: &[Pose], second: &[Pose]| {
            let [first, second] = [(kinds[0], first), (kinds[1], second)].map(|(kind, poses)| Chain::build(kind, poses).unwrap());
            first.join(&second).map(|chain| chain.poses.len())
        };
        let join = |first: &[Pose], second: &[Pose]| join_as([Kind::Plain; 2], first, second);
        assert_eq!(join(&poses[..2], &poses[1..4]), Ok(4));
        assert_eq!(join(&poses[..17], &poses[16..32]), Ok(32));
        assert_eq!(join(&poses[..17], &poses[16..33]), Err(CHAIN));
        assert_eq!(join(&poses[..17], &poses[15..33]), Err(MISMATCH));
        // Both rigid or both plain, whatever else would be refused.
        assert_eq!(join_as([Kind::Rigid; 2], &poses[..2], &poses[1..4]), Ok(4));
        for kinds in [[Kind::Plain, Kind::Rigid], [Kind::Rigid, Kind::Plain]] {
            assert_eq!(join_as(kinds, &poses[..2], &poses[1..4]), Err(MISMATCH));
            assert_eq!(join_as(kinds, &poses[..17], &poses[16..33]), Err(MISMATCH));
        }
        // Every bit of the shared pose counts, a zero's sign too; m33 is 1.
        for place in (0..18).filter(|place| *place != 16) {
            let mut second = poses[1..4].to_vec();
            let shared = &mut second[0];
            let value = match place {
                0 => &mut shared.time,
                17 => &mut shared.pad,
                _ => &mut shared.matrix.m.as_flattened_mut()[place - 1],
            };
            *value = if *value == 0.0 { -0.0 } else { value.next_up() };
            assert_eq!(join(&poses[..2], &second), Err(MISMATCH), "{place}");
        }
        // Up to the shared time the first answers, above it the second; the cover is the union.
        let [first, second] = [&poses[..3], &poses[2..5]].map(|poses| Chain::build(Kind::Plain, poses).unwrap());
        let joined = first.join(&second).unwrap();
        for time in [f32::NEG_INFINITY, 0.5, 2.0, 2.0f32.next_up(), 3.5, f32::INFINITY] {
            let own = if time <= 2.0 { &first } else { &second };
            assert_eq!((x_at(&joined, time), joined.pad(time)), (x_at(own, time), own.pad(time)));
        }
        let b = [0.0, 0.0, 0.0, 0.5, 0.0, 0.0];
        assert_eq!(joined.cover(&b, 3), Ok(cover::union(first.cover(&b, 3).unwrap(), second.cover(&b, 3).unwrap())));
    }

    #[test]
    fn sets_of_boxes() {
        let chain = Chain::build(Kind::Plain, &[shifted(0.0, 0.0), turned(1.0), shifted(2.0, 5.0)]).unwrap();
        let boxes: Vec<[f32; 6]> = (0..17).map(|i| [i as f32, 0.0, 0.0, i as f32 + 0.5, 1.0, 0.0]).collect();
        assert_eq!(chain.covers(&[], 6).err(), Some(SET));
        assert_eq!(chain.covers(&boxes, 13).err(), Some(SET));
        let (union, covers) = chain.covers(&boxes[..16], 6).unwrap();
        assert_eq!(covers, boxes[..16].iter().map(|b| chain.cover(b, 6).unwrap()).collect::<Vec<_>>());
        assert_eq!(chain.covers(&boxes[..1], 6), Ok((covers[0], vec![covers[0]])));
        for i in 0..6 {
            let ends = covers.iter().map(|c| c[i]);
            assert_eq!(union[i], if i < 3 { ends.fold(f32::INFINITY, f32::min) } else { ends.fold(f32::NEG_INFINITY, f32::max) });
        }
        // The first refused box: its 10 or 8 before the second's 6, its 7 before its own 8.
        let (crossed, nan) = ([1.0, 0.0, 0.0, 0.0, 0.0, 0.0], [f32::NAN; 6]);
        assert_eq!(chain.covers(&[boxes[0], crossed, nan], 6).err(), Some(CORNERS));
        assert_eq!(chain.covers(&[boxes[0], nan, crossed], 6).err(), Some(QUERY));
        assert_eq!(chain.covers(&[boxes[0], nan], 13).err(), Some(DEPTH));
        assert_eq!(chain.covers(&[crossed, nan], 13).err(), Some(CORNERS));
        assert_eq!(self::chain().covers(&[boxes[0], nan], 0).err(), Some(SQUARED_LENGTH));
    }

    #[test]
    fn trials() {
        let (chain, b) = (chain(), [0.0; 6]);
        let ask = |place, pose| chain.try_pose(place, pose, &b, 3);
        // The first pose, an inner one, the last: each as a chain that has it.
        let own = |poses: &[Pose]| Chain::build(Kind::Plain, poses).and_then(|chain| chain.cover(&b, 3));
        for (place, pose) in [(0, shifted(-1.0, 9.0)), (1, shifted(0.5, 9.0)), (3, shifted(8.0, 9.0))] {
            let mut poses = chain.poses.clone();
            poses[place] = pose;
            assert_eq!(ask(place as u64, pose), own(&poses));
            assert_ne!(ask(place as u64, pose), own(&chain.poses));
        }
        // 19 before all else, then the numbers of building, then the query's.
        let nan = shifted(f32::NAN, 0.0);
        for place in [4, 5, u64::MAX] {
            assert_eq!(chain.try_pose(place, nan, &[f32::NAN; 6], 13), Err(PLACE));
        }
        assert_eq!(chain.try_pose(3, nan, &[f32::NAN; 6], 13), Err(POSE_NOT_FINITE));
        assert_eq!(chain.try_pose(1, shifted(2.0, 0.0), &[f32::NAN; 6], 13), Err(CHAIN));
        assert_eq!(chain.try_pose(1, shifted(0.5, 0.0), &[f32::NAN; 6], 13), Err(QUERY));
        assert_eq!(chain.try_pose(1, shifted(0.5, 0.0), &b, 13), Err(DEPTH));
    }

    /// 17 and 18 are judged pose by pose, after the 3 of the whole chain and before the 4 of the first move.
    #[test]
    fn rigid_chains() {
        let scaled = |pose: Pose, x: f32| {
            let mut pose = pose;
            pose.matrix.m[0][0] *= x;
            pose
        };
        let number = |poses: &[Pose]| Chain::build(Kind::Rigid, poses).err();
        let rising = [shifted(0.0, 0.0), turned(1.0), shifted(2.0, 5.0)];
        assert_eq!(number(&rising), None);
        assert_eq!(number(&[scaled(rising[0], 0.0), rising[1], rising[2]]), Some(NOT_RIGID));
        assert_eq!(number(&[rising[0], rising[1], scaled(rising[2], -1.0)]), Some(DETERMINANT));
        assert_eq!(number(&[scaled(rising[0], -1.0), rising[1], scaled(rising[2], 2.0)]), Some(DETERMINANT));
        assert_eq!(number(&[scaled(rising[0], 2.0), rising[1], scaled(rising[2], -1.0)]), Some(NOT_RIGID));
        assert_eq!(number(&[shifted(f32::MIN, 0.0), scaled(shifted(0.0, 0.0), 2.0), shifted(f32::MAX, 0.0)]), Some(NOT_RIGID));
        assert_eq!(number(&[scaled(shifted(f32::MIN, 0.0), 2.0), shifted(f32::MAX, 0.0)]), Some(TIMES));
        assert_eq!(number(&[scaled(rising[1], 2.0), rising[0]]), Some(CHAIN));
        assert_eq!(Chain::lone(Kind::Rigid, &[padded(rising[0], -1.0), scaled(rising[1], 2.0)]).err(), Some(PAD));
        // A scale that passes, and so far that S overflows: no S is worked out for a rigid move.
        let mut far = shifted(1.0, 0.0);
        let (c, s) = (0.913074, 0.40878612);
        (far.matrix.m[0], far.matrix.m[1]) = ([c, -s, 0.0, 3.1061793e38], [s, c, 0.0, 1.3906398e38]);
        far.matrix.m[2][2] = 1.0004;
        assert_eq!(Chain::build(Kind::Rigid, &[rising[0], far]).err(), None);
        assert_eq!(Chain::build(Kind::Plain, &[rising[0], far]).err(), Some(NOT_FINITE));
    }

    /// One pose before two, and among equals the leftmost; a place above 31; the kind.
    #[test]
    fn stretches() {
        let rising: Vec<Pose> = (0..40).map(|i| shifted(i as f32, 0.0)).collect();
        let of = |kind, changed: &[(usize, Pose)], count: usize| {
            let mut poses = rising[..count].to_vec();
            changed.iter().for_each(|(place, pose)| poses[*place] = *pose);
            stretch(kind, &poses)
        };
        let plain = |changed: &[(usize, Pose)]| of(Kind::Plain, changed, 6);
        let singular = |time: f32| {
            let mut pose = shifted(time, 0.0);
            pose.matrix.m[0][0] = 0.0;
            pose
        };
        assert_eq!(plain(&[]), Ok([0, 0]));
        assert_eq!(stretch(Kind::Plain, &[]), Err(CHAIN));
        assert_eq!(plain(&[(2, shifted(1.0, 0.0))]), Err(CHAIN));
        assert_eq!(plain(&[(2, shifted(f32::NAN, 0.0)), (4, shifted(f32::NAN, 0.0))]), Ok([2, 1]));
        assert_eq!(plain(&[(3, padded(rising[3], -1.0))]), Ok([3, 1]));
        assert_eq!(plain(&[(2, singular(2.0)), (3, singular(3.0))]), Ok([2, 1]));
        // 3 takes two poses, and so does a 5 of a pair; a pose that has the 5 by itself is further right.
        assert_eq!(stretch(Kind::Plain, &[shifted(-3.2e38, 0.0), shifted(-3e38, 0.0), shifted(3e38, 0.0)]), Ok([1, 2]));
        let (left, mut right) = (shifted(1.0, -3e38), turned(2.0));
        right.matrix.m[0][3] = 3e38;
        assert_eq!(plain(&[(1, left), (2, right)]), Ok([1, 2]));
        let mut flat = shifted(4.0, 0.0);
        flat.matrix.m[0][0] = 1e-39;
        assert_eq!(run_number(Kind::Plain, &[flat]), Some(NOT_FINITE));
        assert_eq!(plain(&[(1, left), (2, right), (4, flat)]), Ok([4, 1]));
        // More than 32 poses, and none.
        assert_eq!(of(Kind::Plain, &[(37, padded(rising[37], -1.0))], 40), Ok([37, 1]));
        assert_eq!(of(Kind::Plain, &[(37, singular(37.0))], 40), Err(CHAIN));
        assert_eq!(stretch(Kind::Plain, &[padded(rising[0], -1.0)]), Ok([0, 1]));
        // A scaled pose is refused as rigid alone. A mirrored one has 18 by itself; as plain it is refused beside its neighbours.
        let stretched = |x: f32| {
            let mut pose = shifted(3.0, 0.0);
            pose.matrix.m[0][0] = x;
            [(3, pose)]
        };
        assert_eq!((of(Kind::Rigid, &stretched(2.0), 6), plain(&stretched(2.0))), (Ok([3, 1]), Ok([0, 0])));
        assert_eq!((of(Kind::Rigid, &stretched(-1.0), 6), plain(&stretched(-1.0))), (Ok([3, 1]), Ok([2, 2])));
    }
}
