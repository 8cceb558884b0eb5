//! Chains and files that are built where they stand, empty ones and what a refusal leaves.

use jellyplain::{Bounds, Chain, MoveFile, Pose, Refusal, IDENTITY, TEXT};
use std::sync::Mutex;

const FILE: &[u8] = include_bytes!("../../examples/swing.txt");
const UNIT: Bounds = Bounds { p_min: [0.0; 3], p_max: [1.0; 3] };

fn at(time: f32, x: f32) -> Pose {
    let mut matrix = IDENTITY;
    matrix[0][3] = x;
    Pose { time, matrix, pad: 0.0 }
}

/// What a chain writes, which holds every bit of its poses.
fn text(chain: &Chain) -> Result<String, Refusal> {
    chain.write(&UNIT, &mut [0; TEXT]).map(str::to_owned)
}

/// Every query refuses a chain without moves, whatever else is asked.
fn assert_empty(chain: &Chain) {
    let (refused, nan) = (Some(Refusal::Chain), Bounds { p_min: [f32::NAN; 3], p_max: [0.0; 3] });
    let other = Chain::new(&[at(0.0, 0.0), at(1.0, 1.0)]).unwrap();
    assert_eq!(chain.moves().len(), 0);
    assert_eq!((chain.point(0.0, [0.0; 3]).err(), chain.point(f32::NAN, [f32::NAN; 3]).err()), (refused, refused));
    assert_eq!((chain.pad(0.0).err(), chain.pad(f32::NAN).err()), (refused, refused));
    assert_eq!((chain.points(&[], [0.0; 3], &mut []).err(), chain.points(&[1.0, 0.0], [f32::NAN; 3], &mut []).err()), (refused, refused));
    for b in [UNIT, nan, Bounds::EMPTY] {
        assert_eq!((chain.cover(&b, 10).err(), chain.cover(&b, 13).err()), (refused, refused));
        assert_eq!((chain.covers(&[b], 10).err(), chain.covers(&[], 13).err()), (refused, refused));
        assert_eq!((chain.window_cover(&b, 10, 0.0, 1.0).err(), chain.window_cover(&b, 13, 1.0, 0.0).err()), (refused, refused));
        assert_eq!((chain.windows(&other, &b, &b, 10, &[0.0, 1.0]).err(), other.windows(chain, &b, &b, 13, &[]).err()), (refused, refused));
        assert_eq!((chain.write(&b, &mut [0; TEXT]).err(), chain.write(&b, &mut []).err()), (refused, refused));
        assert_eq!((chain.try_pose(0, &at(0.0, 0.0), &b, 10).err(), chain.try_pose(9, &at(f32::NAN, 0.0), &b, 13).err()), (refused, refused));
    }
    assert_eq!([chain.join(&other).err(), other.join(chain).err(), chain.join(chain).err()], [refused; 3]);
}

#[test]
fn empty_chains_are_refused() {
    assert_empty(&Chain::EMPTY);
    assert_empty(&Chain::default());
    assert_empty(Chain::empty_in(&mut Box::new_uninit()));
}

type Build = fn(&mut Chain, &[Pose]) -> Result<(), Refusal>;

/// A chain that is built anew answers as one that was built at once, with fewer moves than before too; after a refusal it is empty.
#[test]
fn chains_are_built_anew() {
    let (long, short) = ([at(0.0, 0.0), at(1.0, 2.0), at(3.0, 1.0)], [at(5.0, 1.0), at(6.0, 0.0)]);
    let mut chain = Chain::EMPTY;
    for poses in [&long[..], &short, &long[1..], &long] {
        assert_eq!(chain.build(poses), Ok(()));
        assert_eq!((chain.moves().len(), text(&chain)), (poses.len() - 1, text(&Chain::new(poses).unwrap())));
        assert_eq!(chain.build_rigid(poses), Ok(()));
        assert_eq!(chain.cover(&UNIT, 6), Chain::rigid(poses).unwrap().cover(&UNIT, 6));
    }
    let mut stretched = short;
    stretched[1].matrix[0][0] = 2.0;
    let refused: [(Build, &[Pose], Refusal); 4] = [
        (Chain::build, &[], Refusal::Chain),
        (Chain::build, &[at(0.0, 0.0), at(0.0, 0.0)], Refusal::Chain),
        (Chain::build, &[at(0.0, 0.0), at(1.0, f32::NAN)], Refusal::PoseNotFinite),
        (Chain::build_rigid, &stretched, Refusal::NotRigid),
    ];
    for (build, poses, refusal) in refused {
        chain.build(&long).unwrap();
        assert_eq!(build(&mut chain, poses), Err(refusal));
        assert_empty(&chain);
    }
}

#[test]
fn chains_are_joined_in_place() {
    let poses = [at(0.0, 0.0), at(1.0, 2.0), at(3.0, 1.0), at(4.0, 0.0)];
    let [first, second] = [&poses[..2], &poses[1..]].map(|poses| Chain::new(poses).unwrap());
    let mut joined = second.clone();
    assert_eq!(joined.build_joined(&first, &second), Ok(()));
    assert_eq!((joined.moves().len(), text(&joined)), (3, text(&Chain::new(&poses).unwrap())));
    assert_eq!(joined.build_joined(&second, &first), Err(Refusal::Mismatch));
    assert_empty(&joined);
    joined.clone_from(&first);
    assert_eq!(text(&joined), text(&first));
}

#[test]
fn files_are_read_in_place() {
    static READ: Mutex<MoveFile> = Mutex::new(MoveFile::EMPTY);
    let expected = MoveFile::read(FILE).unwrap();
    let mut file = READ.lock().unwrap();
    assert!(*file == MoveFile::EMPTY && *file == MoveFile::default() && *file == *MoveFile::empty_in(&mut Box::new_uninit()));
    assert_eq!(file.read_from(FILE), Ok(()));
    assert_eq!(*file, expected);
    for bytes in [&FILE[1..], &FILE[..FILE.len() - 1], b""] {
        assert_eq!(file.read_from(bytes), Err(Refusal::File));
        assert!(file.poses.is_empty() && *file == MoveFile::EMPTY);
        file.clone_from(&expected);
        assert_eq!(*file, expected.clone());
    }
}

/// No chain is built of a file that was not read, and no query takes its box.
#[test]
fn an_empty_file_is_refused() {
    let file = MoveFile::EMPTY;
    assert_eq!((Chain::new(&file.poses).err(), Chain::rigid(&file.poses).err()), (Some(Refusal::Chain), Some(Refusal::Chain)));
    let chain = Chain::new(&[at(0.0, 0.0), at(1.0, 1.0)]).unwrap();
    assert_eq!(chain.cover(&file.bounds, 10), Err(Refusal::Corners));
    assert!(!file.bounds.contains([0.0; 3]));
}
