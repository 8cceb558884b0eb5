//! Chains of poses: which move a time belongs to, lists of times, covers, sets of boxes, pads, rigid chains and refusals.

use jellyplain::{Bounds, Chain, Covers, Held, Matrix, Move, Pose, Refusal, IDENTITY, TEXT};

fn translation(x: f32) -> Matrix {
    let mut m = IDENTITY;
    m[0][3] = x;
    m
}

fn quarter_turn() -> Matrix {
    [[0.0, -1.0, 0.0, 2.0], [1.0, 0.0, 0.0, -1.0], [0.0, 0.0, 1.0, 0.5], [0.0, 0.0, 0.0, 1.0]]
}

/// The float above one that is at least zero; `f32::next_up` is younger than the package's `rust-version`.
fn next_up(x: f32) -> f32 {
    f32::from_bits(x.to_bits() + 1)
}

fn at(time: f32, matrix: Matrix) -> Pose {
    Pose { time, matrix, pad: 0.0 }
}

/// Out by a quarter turn, a rest, and on by a shift.
fn poses() -> [Pose; 4] {
    [at(0.0, IDENTITY), at(2.0, quarter_turn()), at(3.0, quarter_turn()), at(5.0, translation(4.0))]
}

#[test]
fn each_time_belongs_to_its_move() {
    let (poses, p) = (poses(), [3.0, 0.5, -1.0]);
    let chain = Chain::new(&poses).unwrap();
    let moves: Vec<Move> = poses.windows(2).map(|pair| Move::new(&pair[0], &pair[1]).unwrap()).collect();
    assert_eq!(chain.moves().len(), 3);
    for (place, times) in [(0, [f32::NEG_INFINITY, -1.0, 1.25, 2.0]), (1, [next_up(2.0), 2.25, 2.75, 3.0]), (2, [next_up(3.0), 4.0, 5.0, f32::INFINITY])] {
        for time in times {
            assert_eq!(chain.point(time, p), moves[place].point(time, p));
            assert_eq!(chain.moves().nth(place).unwrap().point(time, p), moves[place].point(time, p));
        }
    }
    assert_eq!(chain.point(f32::NAN, p), Err(Refusal::Query));
}

/// pbrt's `transform_point` of a matrix whose bottom row is 0 0 0 1.
fn applied(m: &Matrix, p: [f32; 3]) -> [f32; 3] {
    std::array::from_fn(|i| p[0] * m[i][0] + p[1] * m[i][1] + p[2] * m[i][2] + m[i][3])
}

#[test]
fn transforms() {
    let (poses, p) = (poses(), [3.0, 0.5, -1.0]);
    let chain = Chain::new(&poses).unwrap();
    for (place, times) in [(0, [f32::NEG_INFINITY, -1.0, 1.25, 2.0]), (1, [next_up(2.0), 2.25, 2.75, 3.0]), (2, [next_up(3.0), 4.0, 5.0, f32::INFINITY])] {
        for time in times {
            let transform = chain.interpolate(time).unwrap();
            assert_eq!(Ok(transform), chain.moves().nth(place).unwrap().interpolate(time));
            assert_eq!(applied(&transform.matrix, p).map(f32::to_bits), chain.point(time, p).unwrap().map(f32::to_bits));
        }
    }
    assert_eq!(chain.interpolate(f32::NAN), Err(Refusal::Query));
    assert_eq!(Chain::EMPTY.interpolate(f32::NAN), Err(Refusal::Chain));
}

#[test]
fn what_a_chain_holds() {
    let mut poses = poses();
    poses[1].pad = 0.25;
    poses[2].matrix[2][0] = -0.0;
    for rigid in [false, true] {
        let chain = if rigid { Chain::rigid(&poses) } else { Chain::new(&poses) }.unwrap();
        assert_eq!(chain.held(), Ok(Held { poses: 4, first: 0.0, last: 5.0, rigid }));
        for (place, pose) in poses.iter().enumerate() {
            let (kept, flat) = (chain.pose(place).unwrap(), |p: &Pose| p.matrix.as_flattened().iter().map(|x| x.to_bits()).collect::<Vec<u32>>());
            assert_eq!((kept.time, flat(&kept), kept.pad), (pose.time, flat(pose), pose.pad));
        }
        assert_eq!(chain.pose(4), Err(Refusal::Place));
        assert_eq!(chain.pose(usize::MAX), Err(Refusal::Place));
    }
    assert_eq!(Chain::EMPTY.held(), Err(Refusal::Chain));
    assert_eq!(Chain::EMPTY.pose(0), Err(Refusal::Chain));
}

#[test]
fn lists_of_times() {
    let chain = Chain::new(&poses()).unwrap();
    let p = [3.0, 0.5, -1.0];
    let times = [f32::NEG_INFINITY, 0.0, 0.0, 1.5, 2.0, 2.5, 3.0, 3.0, 4.5, 9.0];
    let each: Vec<[f32; 3]> = times.iter().map(|&time| chain.point(time, p).unwrap()).collect();
    let mut points = [[7.0; 3]; 10];
    assert_eq!(chain.points(&[1.0, 0.5], p, &mut points[..2]), Err(Refusal::TimeList));
    assert_eq!(chain.points(&[1.0, f32::NAN, 0.5], p, &mut points[..3]), Err(Refusal::Query));
    assert_eq!(chain.points(&[], [f32::INFINITY, 0.0, 0.0], &mut []), Err(Refusal::Query));
    // A place too few, a place too many.
    assert_eq!(chain.points(&times, p, &mut points[..9]), Err(Refusal::TimeList));
    assert_eq!(chain.points(&times[..9], p, &mut points), Err(Refusal::TimeList));
    assert_eq!(points, [[7.0; 3]; 10]);
    assert_eq!(chain.points(&[], p, &mut []), Ok(()));
    assert_eq!(chain.points(&times, p, &mut points), Ok(()));
    assert_eq!(points[..], each);
}

#[test]
fn moved_points_are_inside_the_cover() {
    let chain = Chain::new(&poses()).unwrap();
    let b = Bounds { p_min: [0.0, -0.5, 0.0], p_max: [12.0, 0.5, 0.25] };
    for depth in [4, 8] {
        let cover = chain.cover(&b, depth).unwrap();
        for k in 0..1000 {
            let part = |n: usize| (k * n % 997) as f32 / 996.0;
            let p = [12.0 * part(7), part(31) - 0.5, 0.25 * part(101)];
            assert!(cover.contains(chain.point(-0.5 + 6.0 * part(1), p).unwrap()));
        }
        for m in chain.moves() {
            let inner = m.cover(&b, depth).unwrap();
            assert!(cover.contains(inner.p_min) && cover.contains(inner.p_max));
        }
    }
}

/// The union of two boxes, as pbrt takes it.
fn union(a: Bounds, b: Bounds) -> Bounds {
    let ends = |a: [f32; 3], b: [f32; 3], end: fn(f32, f32) -> f32| std::array::from_fn(|i| end(a[i], b[i]));
    Bounds { p_min: ends(a.p_min, b.p_min, f32::min), p_max: ends(a.p_max, b.p_max, f32::max) }
}

/// Parts of a boom, one beside the other.
fn parts(count: usize) -> Vec<Bounds> {
    (0..count).map(|i| Bounds { p_min: [i as f32, -0.5, 0.0], p_max: [i as f32 + 1.0, 0.5, 0.25 * i as f32] }).collect()
}

#[test]
fn each_cover_of_a_set_is_that_boxs_own() {
    let chain = Chain::new(&poses()).unwrap();
    for (count, depth) in [(1, 6), (2, 8), (7, 5), (16, 4)] {
        let boxes = parts(count);
        let each: Vec<Bounds> = boxes.iter().map(|b| chain.cover(b, depth).unwrap()).collect();
        let union = each.iter().copied().reduce(union).unwrap();
        let Covers { each: covers, union: all } = chain.covers(&boxes, depth).unwrap();
        assert_eq!((covers.len(), all), (count, union));
        assert_eq!(covers, each);
    }
}

#[test]
fn moved_points_are_inside_their_own_boxs_cover() {
    let chain = Chain::new(&poses()).unwrap();
    let boxes = parts(16);
    let covers = chain.covers(&boxes, 6).unwrap();
    for (b, cover) in boxes.iter().zip(&covers.each) {
        for k in 0..200 {
            let part = |n: usize| (k * n % 199) as f32 / 198.0;
            let p = std::array::from_fn(|i| b.p_min[i] + part([7, 31, 101][i]) * (b.p_max[i] - b.p_min[i]));
            let moved = chain.point(-0.5 + 6.0 * part(1), p).unwrap();
            assert!(cover.contains(moved) && covers.union.contains(moved));
        }
    }
}

#[test]
fn refused_sets() {
    let chain = Chain::new(&poses()).unwrap();
    let refused = |boxes: &[Bounds], depth: u32| chain.covers(boxes, depth).err();
    assert_eq!(refused(&[], 6), Some(Refusal::Set));
    assert_eq!(refused(&parts(17), 6), Some(Refusal::Set));
    assert_eq!(refused(&parts(17), 13), Some(Refusal::Set));
    assert_eq!(refused(&parts(16), 13), Some(Refusal::Depth));
    // The first refused box gives the number: its 8 or 10 before a later one's 6 or 7.
    let (crossed, nan) = (Bounds { p_min: [1.0; 3], p_max: [0.0; 3] }, Bounds { p_min: [f32::NAN; 3], p_max: [0.0; 3] });
    let with = |bad: [Bounds; 2]| [parts(3), bad.to_vec(), parts(2)].concat();
    assert_eq!(refused(&with([crossed, nan]), 6), Some(Refusal::Corners));
    assert_eq!(refused(&with([nan, crossed]), 6), Some(Refusal::Query));
    assert_eq!(refused(&with([nan, crossed]), 13), Some(Refusal::Depth));
    assert_eq!(refused(&with([nan, crossed])[3..], 13), Some(Refusal::Query));
    let shift = Chain::new(&[at(0.0, IDENTITY), at(1.0, translation(1.0))]).unwrap();
    assert_eq!(shift.covers(&with([nan, crossed]), 0), Err(Refusal::SquaredLength));
}

#[test]
fn refused_chains() {
    let refused = |poses: &[Pose]| Chain::new(poses).err();
    let mut infinite = IDENTITY;
    infinite[1][1] = f32::INFINITY;
    let mut bottom = IDENTITY;
    bottom[3][0] = 1.0;
    let many: Vec<Pose> = (0..33).map(|k| at(k as f32, IDENTITY)).collect();
    assert!(Chain::new(&many[..32]).is_ok());
    assert_eq!(refused(&[]), Some(Refusal::Chain));
    assert_eq!(refused(&many[..1]), Some(Refusal::Chain));
    assert_eq!(refused(&many), Some(Refusal::Chain));
    assert_eq!(refused(&[at(0.0, IDENTITY), at(0.0, IDENTITY)]), Some(Refusal::Chain));
    assert_eq!(refused(&[at(-0.0, IDENTITY), at(0.0, IDENTITY)]), Some(Refusal::Chain));
    // 1 of any pose, then 2 of any, then 12, then 3 of a pair.
    assert_eq!(refused(&[at(0.0, bottom), at(0.0, infinite)]), Some(Refusal::PoseNotFinite));
    assert_eq!(refused(&[at(0.0, IDENTITY), at(0.0, bottom)]), Some(Refusal::BottomRow));
    assert_eq!(refused(&[at(-3e38, IDENTITY), at(3e38, IDENTITY), at(3e38, IDENTITY)]), Some(Refusal::Chain));
    assert_eq!(refused(&[at(0.0, [[0.0; 4], [0.0; 4], [0.0; 4], IDENTITY[3]]), at(-3e38, IDENTITY), at(3e38, IDENTITY)]), Some(Refusal::Chain));
    assert_eq!(refused(&[at(-3.1e38, [[0.0; 4], [0.0; 4], [0.0; 4], IDENTITY[3]]), at(-3e38, IDENTITY), at(3e38, IDENTITY)]), Some(Refusal::Times));
}

fn padded(poses: &[Pose], pads: &[f32]) -> Vec<Pose> {
    poses.iter().zip(pads).map(|(pose, pad)| Pose { pad: *pad, ..*pose }).collect()
}

/// A pad of 1 at the start, of 3 at the end of the first move; equal poses keep the larger.
#[test]
fn pads() {
    let moving = Chain::new(&padded(&[at(0.0, IDENTITY), at(1.0, translation(1.0)), at(2.0, translation(1.0))], &[1.0, 3.0, 2.0])).unwrap();
    for (time, pad) in [(f32::NEG_INFINITY, 1.0), (0.0, 1.0), (0.5, 2.0), (1.0, 3.0), (1.5, 3.0), (2.0, 3.0), (f32::INFINITY, 3.0)] {
        assert_eq!(moving.pad(time), Ok(pad), "at {time}");
    }
    assert_eq!(moving.moves().map(|m| m.pad(0.5).unwrap()).collect::<Vec<_>>(), [2.0, 3.0]);
    assert_eq!(moving.pad(f32::NAN), Err(Refusal::Query));
    // 1 of any pose, 2, 16, then 12; -0 is accepted.
    let refused = |pads: [f32; 2], times: [f32; 2]| Chain::new(&padded(&[at(times[0], IDENTITY), at(times[1], translation(1.0))], &pads)).err();
    assert_eq!((refused([-0.0, 0.0], [0.0, 1.0]), refused([0.0, -1e-40], [0.0, 1.0])), (None, Some(Refusal::Pad)));
    assert_eq!((refused([-1.0, f32::NAN], [0.0, 1.0]), refused([0.0, -1.0], [0.0, 0.0])), (Some(Refusal::PoseNotFinite), Some(Refusal::Pad)));
    let mut bottom = IDENTITY;
    bottom[3][0] = 1.0;
    assert_eq!(Chain::new(&padded(&[at(0.0, IDENTITY), at(1.0, bottom)], &[-1.0, 0.0])).err(), Some(Refusal::BottomRow));
}

#[test]
fn padded_points_are_inside_the_cover() {
    let (poses, b) = (poses(), Bounds { p_min: [0.0, -0.5, 0.0], p_max: [12.0, 0.5, 0.25] });
    let [plain, chain] = [[0.0; 4], [0.5, 3.0, 0.0, 0.1]].map(|pads| Chain::new(&padded(&poses, &pads)).unwrap());
    let mut coarser = chain.cover(&b, 3).unwrap();
    for depth in [4, 8] {
        let cover = chain.cover(&b, depth).unwrap();
        assert!(coarser.contains(cover.p_min) && coarser.contains(cover.p_max));
        let unpadded = plain.cover(&b, depth).unwrap();
        assert!(cover.contains(unpadded.p_min) && cover.contains(unpadded.p_max));
        for k in 0..1000 {
            let part = |n: usize| (k * n % 997) as f32 / 996.0;
            let time = -0.5 + 6.0 * part(1);
            let (moved, pad) = (chain.point(time, [12.0 * part(7), part(31) - 0.5, 0.25 * part(101)]).unwrap(), chain.pad(time).unwrap());
            assert!([0.0, -pad, pad].into_iter().all(|pad| cover.contains(moved.map(|x| x + pad))));
        }
        coarser = cover;
    }
}

/// Between two pads of 0.1 lerp may give the next float above: the high end of the pad's interval holds it too.
#[test]
fn a_pad_between_may_exceed_both() {
    let chain = Chain::new(&padded(&[at(0.0, IDENTITY), at(1.0, translation(1.0))], &[0.1, 0.1])).unwrap();
    assert_eq!(chain.pad(0.2), Ok(next_up(0.1)));
    let origin = Bounds { p_min: [0.0; 3], p_max: [0.0; 3] };
    for depth in 1..=12 {
        let [x, y, z] = chain.point(0.2, [0.0; 3]).unwrap();
        assert!(chain.cover(&origin, depth).unwrap().contains([x, y + next_up(0.1), z]));
    }
}

/// A slice of a translation's second half grows by 0.5 * 1 + 1 * 3, the high end of its pad; pads near the end of the format leave it on the way.
#[test]
fn covers_grow_by_pads() {
    let cover = |pads: [f32; 2], depth: u32| Chain::new(&padded(&[at(0.0, IDENTITY), at(1.0, translation(1.0))], &pads)).unwrap().cover(&parts(1)[0], depth);
    let origin = Bounds { p_min: [0.0; 3], p_max: [0.0; 3] };
    let moving = Chain::new(&padded(&[at(0.0, IDENTITY), at(1.0, translation(1.0))], &[1.0, 3.0])).unwrap();
    assert_eq!(moving.cover(&origin, 1), Ok(Bounds { p_min: [-3.0, -3.5, -3.5], p_max: [4.5, 3.5, 3.5] }));
    let still = Chain::new(&padded(&[at(0.0, IDENTITY), at(1.0, IDENTITY)], &[1.0, 3.0])).unwrap();
    assert_eq!(still.cover(&origin, 0), Ok(Bounds { p_min: [-3.0; 3], p_max: [3.0; 3] }));
    assert_eq!((cover([f32::MAX; 2], 4), cover([-0.0, 0.0], 4)), (Err(Refusal::NotFinite), cover([0.0; 2], 4)));
}

fn volume(b: Bounds) -> f32 {
    (0..3).map(|i| b.p_max[i] - b.p_min[i]).product()
}

/// A turn with a slight scale, as a measured pose may have it.
fn measured(time: f32, [c, s]: [f32; 2], scale: f32, x: f32) -> Pose {
    at(time, [[scale * c, -scale * s, 0.0, x], [scale * s, scale * c, 0.0, 1.0], [0.0, 0.0, scale, 0.5], IDENTITY[3]])
}

/// Points of a rigid chain are inside its covers, which are tighter than those of the same poses built as plain; at the poses' own times it answers by the same matrices.
#[test]
fn rigid_chains() {
    let poses = [measured(0.0, [1.0, 0.0], 1.0003, 0.0), measured(2.0, [0.6, 0.8], 0.9997, 2.0), measured(5.0, [-0.8, 0.6], 1.0, 4.0)];
    let (plain, rigid) = (Chain::new(&poses).unwrap(), Chain::rigid(&poses).unwrap());
    let b = Bounds { p_min: [0.0, -0.5, 0.0], p_max: [12.0, 0.5, 0.25] };
    for depth in [4, 8] {
        let cover = rigid.cover(&b, depth).unwrap();
        assert!(volume(cover) < volume(plain.cover(&b, depth).unwrap()));
        for k in 0..1000 {
            let part = |n: usize| (k * n % 997) as f32 / 996.0;
            let p = [12.0 * part(7), part(31) - 0.5, 0.25 * part(101)];
            assert!(cover.contains(rigid.point(-0.5 + 6.0 * part(1), p).unwrap()));
        }
    }
    for time in [0.0, 2.0, 5.0] {
        assert_eq!(rigid.point(time, [3.0, 0.5, -1.0]), plain.point(time, [3.0, 0.5, -1.0]));
    }
    // halfway between its first two poses their scales even out
    assert_ne!(rigid.point(0.5, [3.0, 0.5, -1.0]), plain.point(0.5, [3.0, 0.5, -1.0]));
    let between = |chain: &Chain| chain.moves().next().unwrap().interpolate(0.5).unwrap().matrix;
    assert_ne!(between(&rigid), between(&plain));
    assert_eq!(rigid.write(&b, &mut [0; TEXT]), plain.write(&b, &mut [0; TEXT]));
}

/// 17 and 18 pose by pose, after the whole chain's 3 and before 4 and 5.
#[test]
fn refused_rigid_chains() {
    let refused = |poses: &[Pose]| Chain::rigid(poses).err();
    let stretched = |time: f32, x: f32| at(time, [[x, 0.0, 0.0, 0.0], IDENTITY[1], IDENTITY[2], IDENTITY[3]]);
    assert_eq!(refused(&poses()), None);
    assert_eq!(refused(&[at(0.0, IDENTITY), stretched(1.0, 2.0)]), Some(Refusal::NotRigid));
    assert_eq!(refused(&[at(0.0, IDENTITY), stretched(1.0, 0.0)]), Some(Refusal::NotRigid));
    assert_eq!(refused(&[at(0.0, IDENTITY), stretched(1.0, -1.0)]), Some(Refusal::Determinant));
    assert_eq!(refused(&[stretched(0.0, -1.0), stretched(1.0, 2.0)]), Some(Refusal::Determinant));
    assert_eq!(refused(&[stretched(0.0, 2.0), stretched(1.0, -1.0)]), Some(Refusal::NotRigid));
    assert_eq!(refused(&[stretched(-3e38, 2.0), at(3e38, IDENTITY)]), Some(Refusal::Times));
    assert_eq!(refused(&[stretched(0.0, 2.0), at(0.0, IDENTITY)]), Some(Refusal::Chain));
    let sheared = |x: f32| at(1.0, [[1.0, x, 0.0, 0.0], IDENTITY[1], IDENTITY[2], IDENTITY[3]]);
    assert_eq!((refused(&[at(0.0, IDENTITY), sheared(0.001)]), refused(&[at(0.0, IDENTITY), sheared(next_up(0.001))])), (None, Some(Refusal::NotRigid)));
    assert_eq!(Move::rigid(&stretched(1.0, -1.0), &at(1.0, IDENTITY)).err(), Some(Refusal::Determinant));
}

/// A trial at the first place, between and at the last is a changed copy's cover, or its number; the chain answers as before.
#[test]
fn trials() {
    let moved = |x: f32| {
        let mut m = IDENTITY;
        m[0][3] = x;
        m
    };
    let poses = [at(0.0, IDENTITY), at(1.0, moved(1.0)), at(2.0, moved(3.0)), at(4.0, moved(2.0))];
    let chain = Chain::new(&poses).unwrap();
    let b = Bounds { p_min: [0.0; 3], p_max: [1.0; 3] };
    let before = chain.cover(&b, 6);
    for (place, time) in [(0, -1.0), (1, 0.5), (2, 3.0), (3, 9.0), (1, 2.0), (2, 1.0), (0, f32::NAN)] {
        let mut copy = poses;
        copy[place] = at(time, moved(7.0));
        assert_eq!(chain.try_pose(place, &copy[place], &b, 6), Chain::new(&copy).and_then(|copy| copy.cover(&b, 6)), "{place} at {time}");
    }
    // 19 before all else, then building, then the query.
    let nan = Bounds { p_min: [f32::NAN; 3], ..b };
    for place in [4, 5, usize::MAX] {
        assert_eq!(chain.try_pose(place, &at(f32::NAN, IDENTITY), &nan, 13), Err(Refusal::Place));
    }
    assert_eq!(chain.try_pose(1, &at(2.0, IDENTITY), &nan, 13), Err(Refusal::Chain));
    assert_eq!(chain.try_pose(1, &at(0.5, IDENTITY), &nan, 13), Err(Refusal::Query));
    assert_eq!(chain.try_pose(1, &at(0.5, IDENTITY), &b, 13), Err(Refusal::Depth));
    assert_eq!(chain.cover(&b, 6), before);
}

/// Two parts of a chain make it again; a bit of the shared pose or the kind is 20, before the 12 of too many poses.
#[test]
fn joins() {
    let moved = |x: f32| {
        let mut m = IDENTITY;
        m[0][3] = x;
        m
    };
    let poses: Vec<Pose> = (0..40).map(|i| Pose { pad: (i % 3) as f32, ..at(i as f32, moved((i * i % 7) as f32)) }).collect();
    let chain = |poses: &[Pose]| Chain::new(poses).unwrap();
    let b = Bounds { p_min: [0.0; 3], p_max: [1.0; 3] };
    for (place, last) in [(1, 2), (1, 31), (30, 31), (16, 31), (2, 5)] {
        let (first, second, whole) = (chain(&poses[..=place]), chain(&poses[place..=last]), chain(&poses[..=last]));
        let joined = first.join(&second).unwrap();
        assert_eq!(joined.moves().len(), last);
        assert_eq!(joined.write(&b, &mut [0; TEXT]), whole.write(&b, &mut [0; TEXT]));
        let shared = place as f32;
        for time in [f32::NEG_INFINITY, 0.5, shared, next_up(shared), f32::INFINITY] {
            let own = if time <= shared { &first } else { &second };
            assert_eq!((joined.point(time, [1.0; 3]), joined.pad(time)), (own.point(time, [1.0; 3]), own.pad(time)));
        }
        assert_eq!(joined.cover(&b, 5), whole.cover(&b, 5));
    }
    let refused = |first: &Chain, second: &Chain| first.join(second).err();
    let first = chain(&poses[..3]);
    assert_eq!(refused(&first, &first), Some(Refusal::Mismatch));
    let changes: [fn(&mut Pose); 4] = [|p| p.time = next_up(p.time), |p| p.pad = next_up(p.pad), |p| p.matrix[1][0] = -0.0, |p| p.matrix[3][0] = -0.0];
    for change in changes {
        let mut other = poses[2..5].to_vec();
        change(&mut other[0]);
        assert_eq!(refused(&first, &chain(&other)), Some(Refusal::Mismatch));
    }
    let rigid = |poses: &[Pose]| Chain::rigid(poses).unwrap();
    assert_eq!(refused(&rigid(&poses[..3]), &rigid(&poses[2..5])), None);
    assert_eq!(refused(&first, &rigid(&poses[2..5])), Some(Refusal::Mismatch));
    assert_eq!(refused(&rigid(&poses[..3]), &chain(&poses[2..5])), Some(Refusal::Mismatch));
    assert_eq!(refused(&chain(&poses[..17]), &chain(&poses[16..33])), Some(Refusal::Chain));
    assert_eq!(refused(&chain(&poses[..17]), &rigid(&poses[16..33])), Some(Refusal::Mismatch));
}

/// The shortest run that is refused as the chain is, the leftmost among equals; in the chain's kind.
#[test]
fn refused_runs() {
    let changed = |changes: &[(usize, Pose)]| {
        let mut chain = poses().to_vec();
        for (place, pose) in changes {
            chain[*place] = *pose;
        }
        chain
    };
    let stretched = |time: f32, x: f32| at(time, [[x, 0.0, 0.0, 0.0], IDENTITY[1], IDENTITY[2], IDENTITY[3]]);
    let run = |changes: &[(usize, Pose)]| Chain::refused_run(&changed(changes));
    assert_eq!(run(&[]), Ok(0..0));
    assert_eq!(run(&[(1, at(f32::NAN, IDENTITY)), (3, at(f32::NAN, IDENTITY))]), Ok(1..2));
    assert_eq!(run(&[(2, stretched(3.0, 0.0))]), Ok(2..3));
    assert_eq!(run(&[(0, at(-3e38, IDENTITY)), (3, at(3e38, IDENTITY))]), Ok(0..0));
    assert_eq!(run(&[(0, at(-3e38, IDENTITY)), (1, at(2e38, IDENTITY)), (2, at(2.5e38, IDENTITY)), (3, at(3e38, IDENTITY))]), Ok(0..2));
    assert_eq!(run(&[(1, at(0.0, IDENTITY))]), Err(Refusal::Chain));
    assert_eq!(Chain::refused_run(&[]), Err(Refusal::Chain));
    let scaled = changed(&[(2, stretched(3.0, 2.0))]);
    assert_eq!((Chain::refused_run(&scaled), Chain::refused_rigid_run(&scaled)), (Ok(0..0), Ok(2..3)));
    // More poses than a chain may have.
    let mut many: Vec<Pose> = (0..40).map(|i| at(i as f32, IDENTITY)).collect();
    assert_eq!(Chain::refused_run(&many), Err(Refusal::Chain));
    many[37].pad = -1.0;
    assert_eq!(Chain::refused_run(&many), Ok(37..38));
}

/// Windows are listed where the two windows' covers meet; a pose's larger pad at a rest holds at its end; the order of the numbers.
#[test]
fn windows() {
    let poses = poses();
    let chain = Chain::new(&poses).unwrap();
    let other = Chain::new(&[at(0.0, translation(-9.0)), at(5.0, translation(9.0))]).unwrap();
    let (b, c) = (Bounds { p_min: [0.0; 3], p_max: [1.0; 3] }, Bounds { p_min: [0.0, -2.0, 0.0], p_max: [0.5, 2.0, 1.0] });
    let ticks = [-1.0, 0.0, 1.0, 2.0, 2.5, 3.0, 4.0, 5.0, 6.0];
    let listed = chain.windows(&other, &b, &c, 6, &ticks).unwrap();
    let meets = |x: &Bounds, y: &Bounds| (0..3).all(|i| x.p_min[i] <= y.p_max[i] && y.p_min[i] <= x.p_max[i]);
    let expected: Vec<u32> = (0..8)
        .filter(|&k| {
            let (from, to) = (ticks[k as usize], ticks[k as usize + 1]);
            meets(&chain.window_cover(&b, 6, from, to).unwrap(), &other.window_cover(&c, 6, from, to).unwrap())
        })
        .collect();
    assert_eq!(listed, expected);
    assert!(!listed.is_empty() && listed.len() < 8);
    assert!(chain.windows(&other, &b, &c, 9, &ticks).unwrap().iter().all(|k| listed.contains(k)));
    // Before the first pose there is but that pose, and after the last the last.
    assert_eq!(chain.window_cover(&b, 3, f32::NEG_INFINITY, -1.0), Ok(b));
    let mut resting = poses;
    (resting[1].pad, resting[2].pad) = (2.0, 0.5);
    let resting = Chain::new(&resting).unwrap();
    let (at_end, after) = (resting.window_cover(&b, 3, 3.0, 3.5).unwrap(), resting.window_cover(&b, 3, next_up(3.0), 3.5).unwrap());
    assert!(at_end.p_min[2] < after.p_min[2]);
    let nan = Bounds { p_min: [f32::NAN; 3], ..b };
    let crossed = Bounds { p_min: [2.0; 3], ..b };
    let refused = |b: &Bounds, c: &Bounds, depth: u32, ticks: &[f32]| chain.windows(&other, b, c, depth, ticks).err();
    for ticks in [&[][..], &[0.0], &[0.0, 0.0], &[-0.0, 0.0], &[0.0, f32::NAN], &[0.0; 65]] {
        assert_eq!(refused(&nan, &nan, 13, ticks), Some(Refusal::Ticks));
    }
    assert_eq!(refused(&crossed, &nan, 13, &ticks), Some(Refusal::Corners));
    assert_eq!(refused(&b, &nan, 13, &ticks), Some(Refusal::Query));
    assert_eq!(refused(&b, &c, 13, &ticks), Some(Refusal::Depth));
    assert_eq!(chain.window_cover(&nan, 13, 1.0, 1.0), Err(Refusal::Ticks));
}
