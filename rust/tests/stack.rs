//! The stack that calls take, and that it is at most what the package's documentation says. It is found from outside: a thread of a given stack goes down so many bytes and makes the call there, in a
//! process of its own, since an overflow ends that. The greatest depth from which a call still returns, taken from the greatest from which nothing returns, is what it takes, with its caller's place for
//! the answer. The calls and their poses are those of c/tests/stack.c.
//!
//!     cargo test --test stack -- --nocapture    prints what each takes; with --release, where optimized

use jellyplain::{cut, reached_rows, starting_ticks, Boom, Bounds, Chain, Move, MoveFile, Pose, Refusal, BOOMS, BOXES, IDENTITY, POSES, ROWS, TEXT, TICKS};
use std::fmt::Write;
use std::hint::black_box;
use std::mem::size_of;
use std::process::{Command, Stdio};
use std::thread::Builder;

/// The stack of a thread, and the steps in which the depth is sought.
const STACK: usize = 1 << 20;
const STEP: usize = 512;

const BOX: Bounds = Bounds { p_min: [0.0, -1.0, -1.0], p_max: [12.0, 1.0, 1.0] };
const POINT: [f32; 3] = [3.0, 1.0, 2.0];

/// What is asked, and places for what is built: none of it on the thread's stack.
struct Given {
    poses: Vec<Pose>,
    first: Box<Move>,
    chain: Box<Chain>,
    second: Box<Chain>,
    text: Vec<u8>,
    times: Vec<f32>,
    points: Vec<[f32; 3]>,
    built: Box<Chain>,
    file: Box<MoveFile>,
    bytes: Vec<u8>,
}

/// A turn by 37 degrees between each pose and the next, with a scale and a shift, so that every step has something to do.
fn given() -> Given {
    let (mut poses, mut c, mut s) = (Vec::new(), 1.0f32, 0.0f32);
    for i in (0u8..).take(POSES).map(f32::from) {
        let grown = 1.0 + 0.0001 * (i % 3.0);
        let matrix = [[grown * c, -grown * s, 0.0, i % 5.0], [grown * s, grown * c, 0.0, 1.0], [0.0, 0.0, grown, 0.1 * i], IDENTITY[3]];
        poses.push(Pose { time: i, matrix, pad: 0.1 * (i % 4.0) });
        (c, s) = (0.798_635_5 * c - 0.601_815 * s, 0.798_635_5 * s + 0.601_815 * c);
    }
    let chain = Box::new(Chain::new(&poses[..20]).unwrap());
    let mut bytes = vec![0; TEXT];
    let text = chain.write(&BOX, &mut bytes).unwrap().as_bytes().to_vec();
    let second = Box::new(Chain::new(&poses[19..31]).unwrap());
    let (first, times) = (Box::new(chain.moves().next().unwrap()), (0u8..).take(TICKS).map(|i| 0.5 * f32::from(i)).collect());
    Given { poses, first, chain, second, text, times, points: vec![[0.0; 3]; TICKS], built: Box::default(), file: Box::default(), bytes }
}

/// The answer stands in the caller's frame until it has been looked at.
fn accepted<T>(answer: &Result<T, Refusal>) {
    assert!(black_box(answer).is_ok());
}

type Call = fn(&mut Given);

/// By their names in the documentation's table, or as others.
const CALLS: [(&str, Call); 36] = [
    ("nothing", |_| ()),
    ("Move::new", |g| accepted(&Move::new(&g.poses[0], &g.poses[1]))),
    ("Move::rigid", |g| accepted(&Move::rigid(&g.poses[0], &g.poses[1]))),
    ("Move::point", |g| accepted(&g.first.point(0.4, POINT))),
    ("Move::pad", |g| accepted(&g.first.pad(0.4))),
    ("Move::interpolate", |g| accepted(&g.first.interpolate(0.4))),
    ("Move::bound_point_motion", |g| accepted(&g.first.bound_point_motion(POINT))),
    ("Move::motion_bounds", |g| accepted(&g.first.motion_bounds(&BOX))),
    ("Move::cover", |g| accepted(&g.first.cover(&BOX, 8))),
    ("Move::reach", |g| accepted(&g.first.reach(&[BOX; BOXES], 3, &g.times, &[BOX; ROWS]))),
    ("Box::new(Chain::EMPTY)", |_| drop(black_box(Box::new(Chain::EMPTY)))),
    ("Box::new(MoveFile::EMPTY)", |_| drop(black_box(Box::new(MoveFile::EMPTY)))),
    ("Chain::empty_in", |_| assert_eq!(black_box(Chain::empty_in(&mut Box::new_uninit())).moves().len(), 0)),
    ("MoveFile::empty_in", |_| assert!(black_box(MoveFile::empty_in(&mut Box::new_uninit())).poses.is_empty())),
    ("Chain::build", |g| accepted(&g.built.build(&g.poses))),
    ("Chain::build_rigid", |g| accepted(&g.built.build_rigid(&g.poses))),
    ("Chain::build_joined", |g| accepted(&g.built.build_joined(&g.chain, &g.second))),
    ("Chain::new", |g| accepted(&Chain::new(&g.poses))),
    ("Chain::rigid", |g| accepted(&Chain::rigid(&g.poses))),
    ("Chain::join", |g| accepted(&g.chain.join(&g.second))),
    ("Chain::refused_run", |g| accepted(&Chain::refused_run(&g.poses))),
    ("Chain::point", |g| accepted(&g.chain.point(10.4, POINT))),
    ("Chain::pad", |g| accepted(&g.chain.pad(10.4))),
    ("Chain::points", |g| accepted(&g.chain.points(&g.times, POINT, &mut g.points))),
    ("Chain::cover", |g| accepted(&g.chain.cover(&BOX, 6))),
    ("Chain::try_pose", |g| accepted(&g.chain.try_pose(5, &g.poses[5], &BOX, 6))),
    ("Chain::covers", |g| accepted(&g.chain.covers(&[BOX; BOXES], 6))),
    ("Chain::window_cover", |g| accepted(&g.chain.window_cover(&BOX, 6, 0.5, 2.5))),
    ("Chain::windows", |g| accepted(&g.chain.windows(&g.second, &BOX, &BOX, 2, &g.times))),
    ("Chain::reach", |g| accepted(&g.chain.reach(&[BOX; BOXES], 3, &g.times, &[BOX; ROWS]))),
    ("Chain::write", |g| accepted(&g.chain.write(&BOX, &mut g.bytes))),
    ("MoveFile::read_from", |g| accepted(&g.file.read_from(&g.text))),
    ("MoveFile::read", |g| accepted(&MoveFile::read(&g.text))),
    ("starting_ticks", |_| accepted(&starting_ticks(&[Boom { cover: BOX, ticks: 1000 }; BOOMS]))),
    ("reached_rows", |_| accepted(&reached_rows(&BOX, &[BOX; ROWS]))),
    ("cut", |_| accepted(&cut(&BOX, 16))),
];

/// Goes down so many bytes below an address of the stack, and calls.
#[inline(never)]
fn descend(top: usize, depth: usize, call: Call, given: &mut Given) {
    let room = black_box([0u8; STEP / 2]);
    if top - (&raw const room) as usize >= depth {
        call(given);
    } else {
        descend(top, depth, call, given);
    }
    black_box(&room);
}

/// What the processes run, each with a call's place and a depth; without them nothing.
#[test]
fn process() {
    let Ok(asked) = std::env::var("JELLYPLAIN_STACK_TEST") else { return };
    let (call, depth) = asked.split_once(' ').unwrap();
    let (call, depth) = (CALLS[call.parse::<usize>().unwrap()].1, depth.parse().unwrap());
    let mut given = given();
    let thread = Builder::new().stack_size(STACK).spawn(move || {
        let top = 0u8;
        descend((&raw const top) as usize, depth, call, &mut given);
    });
    thread.unwrap().join().unwrap();
}

fn returns(call: usize, depth: usize) -> bool {
    // An overflow shall leave no file behind.
    let mut process = Command::new("sh");
    process.args(["-c", r#"ulimit -c 0; exec "$0" "$@""#]).arg(std::env::current_exe().unwrap());
    process.args(["--exact", "process"]).env("JELLYPLAIN_STACK_TEST", format!("{call} {depth}")).env_remove("RUST_MIN_STACK");
    let ended = process.stdout(Stdio::null()).stderr(Stdio::null()).status().unwrap();
    assert!(ended.success() || ended.code().is_none(), "{} is refused: what it takes isn't seen", CALLS[call].0);
    ended.success()
}

/// The greatest depth, in steps, from which a call returns.
fn depth(call: usize) -> usize {
    let (mut returned, mut overflowed) = (0, STACK / STEP);
    assert!(returns(call, 0));
    while overflowed - returned > 1 {
        let middle = (returned + overflowed) / 2;
        *(if returns(call, middle * STEP) { &mut returned } else { &mut overflowed }) = middle;
    }
    returned
}

/// The rows of the documentation's table: names, and kB of this profile.
fn documented() -> Vec<(&'static str, usize)> {
    let rows = include_str!("../src/lib.rs").lines().filter_map(|line| line.strip_prefix("//! | ")?.strip_suffix(" |")).skip(1);
    let column = if cfg!(debug_assertions) { 2 } else { 1 };
    rows.map(|row| (row, row.split(" | ").nth(column).unwrap().parse().unwrap())).collect()
}

#[test]
fn calls_take_what_is_documented() {
    let table = documented();
    let (others, named) = table.split_last().unwrap();
    let none = depth(0);
    let (mut printed, mut failed) = (String::new(), false);
    let mut taken = |place: usize| {
        let (name, kilobytes) = (CALLS[place].0, ((none - depth(place)) * STEP).div_ceil(1000));
        let row = named.iter().find(|(row, _)| row.contains(&format!("`{name}`"))).unwrap_or(others);
        writeln!(printed, "{kilobytes:4} of {:4} kB  {name}", row.1).unwrap();
        failed |= kilobytes > row.1;
        kilobytes
    };
    let all: Vec<usize> = (1..CALLS.len()).map(&mut taken).collect();
    print!("{printed}");
    assert!(!failed, "a call takes more than is documented:\n{printed}");
    // A measure that sees nothing would pass any limit.
    assert!(*all.iter().max().unwrap() > size_of::<MoveFile>() / 1000);
}
