//! A move by two poses, or a chain of up to 32: where a point of it stands at a time, and which box holds a box of it at every time. Safe functions over the library jellyplain, whose contracts are proved
//! (`crates/api`); this package itself is not. It needs `make`, run once in the repository's root, or an installed library, whose folder `JELLYPLAIN_STATICLIB` names by its whole path; and x86-64 Linux.
//!
//! A move is built once and asked many times:
//!
//! ```
//! use jellyplain::{Bounds, Move, Pose, Refusal, IDENTITY};
//!
//! let mut end = IDENTITY;
//! end[0][3] = 1.0; // one metre along x
//! let m = Move::new(&Pose { time: 0.0, matrix: IDENTITY, pad: 0.0 }, &Pose { time: 1.0, matrix: end, pad: 0.0 })?;
//! assert_eq!(m.point(0.5, [0.0; 3])?, [0.5, 0.0, 0.0]);
//!
//! // The box that is reserved: every point of `boom` is inside `cover` at every time.
//! let boom = Bounds { p_min: [0.0; 3], p_max: [0.0, 2.0, 0.0] };
//! let cover = m.cover(&boom, 10)?;
//! assert!(cover.contains(m.point(0.75, [0.0, 1.5, 0.0])?));
//!
//! assert_eq!(m.cover(&boom, 13), Err(Refusal::Depth));
//! # Ok::<(), Refusal>(())
//! ```
//!
//! Any floats may be handed in, NaN and infinities included; what can't be worked with is refused. Some calls panic where the library that is linked is not [`compatible`], and nothing else panics:
//! those that build from poses, [`Chain::refused_run`] and [`Chain::refused_rigid_run`], [`MoveFile::read_from`] and [`MoveFile::read`], [`starting_ticks`], [`reached_rows`] and [`cut`].
//!
//! The package needs neither `std` nor an allocator: lists are kept in place ([`List`]), and what has no bound is lent by the caller ([`Chain::points`], [`Chain::write`]). A [`Chain`] takes 22 kB and a
//! [`MoveFile`] 40 kB, wherever they are put, and both are built where they stand.
//!
//! The stack that a call takes at most, the place for its answer with it, as `tests/stack.rs` sees it; of others what the library takes at most by its code (`tools/stack`) with some to spare:
//!
//! | kB of stack | optimized | not optimized |
//! |---|---|---|
//! | [`MoveFile::read`] | 84 | 125 |
//! | [`Chain::new`], [`Chain::rigid`], [`Chain::join`] | 81 | 104 |
//! | [`Chain::try_pose`] | 81 | 81 |
//! | [`Chain::build`], [`Chain::build_rigid`], [`Chain::build_joined`] | 37 | 37 |
//! | `Box::new(MoveFile::EMPTY)` | 2 | 43 |
//! | `Box::new(Chain::EMPTY)` | 2 | 25 |
//! | [`Chain::empty_in`], [`MoveFile::empty_in`], [`MoveFile::read_from`] | 2 | 2 |
//! | others | 36 | 36 |
//!
//! c/jellyplain.h also says what the guarantee asks of the thread's floating-point environment: that it is the one which a program starts with, as Rust asks too.

#![no_std]

#[cfg(test)]
extern crate std;

/// The program of README.md, run as a documentation test.
#[cfg(doctest)]
#[doc = include_str!("../README.md")]
struct Readme;

mod decimal;
mod library;
mod list;
mod refusal;

use core::mem::MaybeUninit;
use core::ops::Range;
pub use decimal::Decimal;
pub use library::{BOOMS, BOXES, FILE_POSES, MOVES, POSES, ROWS, TICKS, WINDOWS};
pub use list::List;
pub use refusal::Refusal;

/// The greatest depth of a cover.
pub const DEPTH: u32 = 12;

/// The most ticks that a boom runs.
pub const RUN_TICKS: u32 = 1000;

/// The bytes that hold the text of any chain and box.
pub const TEXT: usize = 4161;

/// The version of this package, as the library counts versions: 10000 * major + 100 * minor + patch.
pub const VERSION: u32 = 10000 * part(env!("CARGO_PKG_VERSION_MAJOR")) + 100 * part(env!("CARGO_PKG_VERSION_MINOR")) + part(env!("CARGO_PKG_VERSION_PATCH"));

const fn part(decimal: &str) -> u32 {
    match u32::from_str_radix(decimal, 10) {
        Ok(number) => number,
        Err(_) => panic!("cargo gives a version's parts as decimals"),
    }
}

/// The version of the library that is linked.
#[must_use]
pub fn version() -> u32 {
    unsafe { library::jellyplain_version() }
}

/// Whether the library that is linked fits this package: the same major version, and the same layout of poses and moves. To be asked at a program's start where a panic later is not wanted.
#[must_use]
pub fn compatible() -> bool {
    library::fits(unsafe { library::jellyplain_layout() }, version())
}

/// Four rows of four numbers.
pub type Matrix = [[f32; 4]; 4];

/// The matrix that leaves every point where it is.
pub const IDENTITY: Matrix = [[1.0, 0.0, 0.0, 0.0], [0.0, 1.0, 0.0, 0.0], [0.0, 0.0, 1.0, 0.0], [0.0, 0.0, 0.0, 1.0]];

/// A matrix at a time, and a pad of at least zero: how far beyond the boom the spray wets the ground then. The library reads it as 18 floats.
#[derive(Clone, Copy, Debug, PartialEq)]
#[repr(C)]
pub struct Pose {
    /// When the boom stands so.
    pub time: f32,
    /// Where it stands then.
    pub matrix: Matrix,
    /// How far the spray reaches then.
    pub pad: f32,
}

/// A box: its least corner and its greatest. The library reads it as 6 floats.
#[derive(Clone, Copy, Debug, PartialEq)]
#[repr(C)]
pub struct Bounds {
    /// The least corner.
    pub p_min: [f32; 3],
    /// The greatest corner.
    pub p_max: [f32; 3],
}

impl Bounds {
    /// pbrt's empty box, its least corner above its greatest: it holds no point, and what is asked with it is refused with [`Refusal::Corners`].
    pub const EMPTY: Bounds = Bounds { p_min: [f32::MAX; 3], p_max: [f32::MIN; 3] };

    /// Whether a point is inside on all three axes, the faces included.
    #[must_use]
    pub fn contains(&self, p: [f32; 3]) -> bool {
        (0..3).all(|i| self.p_min[i] <= p[i] && p[i] <= self.p_max[i])
    }

    /// The six numbers as decimals with `places` digits behind the point, 9 at most: the least corner rounded down, the greatest up, so that the text names no smaller box.
    #[must_use]
    pub fn decimals(&self, places: u32) -> [Decimal; 6] {
        let ([x0, y0, z0], [x1, y1, z1]) = (self.p_min.map(|x| Decimal::below(x, places)), self.p_max.map(|x| Decimal::above(x, places)));
        [x0, y0, z0, x1, y1, z1]
    }

    fn to_array(self) -> [f32; 6] {
        let ([x0, y0, z0], [x1, y1, z1]) = (self.p_min, self.p_max);
        [x0, y0, z0, x1, y1, z1]
    }

    fn from_array([x0, y0, z0, x1, y1, z1]: [f32; 6]) -> Bounds {
        Bounds { p_min: [x0, y0, z0], p_max: [x1, y1, z1] }
    }
}

/// A motion box, and how many intervals the zero search examined for it on x, y and z: what it cost. A point has at most 511 on an axis, a box the sum over its corners.
#[derive(Clone, Copy, Debug, PartialEq)]
pub struct MotionBounds {
    /// The box.
    pub bounds: Bounds,
    /// The counts on x, y and z.
    pub examined: [u32; 3],
}

/// A matrix and its inverse, the two halves of pbrt's `Transform`.
#[derive(Clone, Copy, Debug, PartialEq)]
#[repr(C)]
pub struct Transform {
    /// The matrix.
    pub matrix: Matrix,
    /// Its inverse.
    pub inverse: Matrix,
}

/// A built move. It is only made by [`Move::new`], [`Move::rigid`] and the moves of a [`Chain`], so that the guarantee of [`Move::cover`] holds of every value of this type.
#[derive(Clone, Copy, Debug)]
pub struct Move {
    rows: library::Rows,
}

fn answered<T>(number: u8, value: T) -> Result<T, Refusal> {
    if number == 0 {
        Ok(value)
    } else {
        Err(Refusal::from_number(number).expect("the contracts name every number that the library gives"))
    }
}

impl Move {
    /// The move from one pose to another: pbrt's `AnimatedTransform::new`. Refused with numbers 1 to 5 and 16.
    pub fn new(start: &Pose, end: &Pose) -> Result<Move, Refusal> {
        Move::build(false, start, end)
    }

    /// The move of a boom that neither stretches nor shears: between the poses a turn and a shift alone, so that its covers are tighter. Refused as [`Move::new`] and, pose by
    /// pose, with [`Refusal::NotRigid`] and [`Refusal::Determinant`].
    ///
    /// ```
    /// use jellyplain::{Move, Pose, Refusal, IDENTITY};
    ///
    /// let mut end = IDENTITY;
    /// (end[0], end[1]) = ([0.0, -1.0, 0.0, 3.0], [1.0, 0.0, 0.0, 0.0]); // a quarter turn and three metres
    /// let pose = |time, matrix| Pose { time, matrix, pad: 0.0 };
    /// assert!(Move::rigid(&pose(0.0, IDENTITY), &pose(1.0, end)).is_ok());
    /// end[2][2] = 1.1; // longer by a tenth
    /// assert_eq!(Move::rigid(&pose(0.0, IDENTITY), &pose(1.0, end)).err(), Some(Refusal::NotRigid));
    /// ```
    pub fn rigid(start: &Pose, end: &Pose) -> Result<Move, Refusal> {
        Move::build(true, start, end)
    }

    fn build(rigid: bool, start: &Pose, end: &Pose) -> Result<Move, Refusal> {
        library::check();
        let mut rows = library::EMPTY;
        let number = unsafe { library::jellyplain_build(rigid, start, end, &mut rows) };
        answered(number, Move { rows })
    }

    /// Where a point stands at a time; before the start and after the end, where that pose has it. Refused with [`Refusal::Query`] and [`Refusal::NotFinite`].
    pub fn point(&self, time: f32, p: [f32; 3]) -> Result<[f32; 3], Refusal> {
        let mut moved = [0.0; 3];
        let number = unsafe { library::jellyplain_point(&self.rows, time, &p, &mut moved) };
        answered(number, moved)
    }

    /// The pad at a time: between the times lerp of the two poses' pads, before and after them that pose's own, and the larger throughout where the poses are equal.
    /// Refused with [`Refusal::Query`] and [`Refusal::NotFinite`].
    pub fn pad(&self, time: f32) -> Result<f32, Refusal> {
        let mut pad = [0.0];
        let number = unsafe { library::jellyplain_pad(&self.rows, time, &mut pad) };
        answered(number, pad[0])
    }

    /// The transform at a time. Refused with [`Refusal::Query`], [`Refusal::ZeroPivot`] and [`Refusal::NotFinite`].
    pub fn interpolate(&self, time: f32) -> Result<Transform, Refusal> {
        let mut transform = Transform { matrix: [[0.0; 4]; 4], inverse: [[0.0; 4]; 4] };
        let number = unsafe { library::jellyplain_interpolate(&self.rows, time, &mut transform) };
        answered(number, transform)
    }

    /// pbrt's motion box of a point: where the two poses take it, and where it is at the times that the zero search found. It is no cover.
    /// Refused with [`Refusal::Query`], [`Refusal::NotFinite`] and [`Refusal::NinthZero`].
    pub fn bound_point_motion(&self, p: [f32; 3]) -> Result<MotionBounds, Refusal> {
        let (mut bounds, mut examined) = ([0.0; 6], [0; 3]);
        let number = unsafe { library::jellyplain_bound_point_motion(&self.rows, &p, &mut bounds, &mut examined) };
        answered(number, MotionBounds { bounds: Bounds::from_array(bounds), examined })
    }

    /// pbrt's motion box of a box. It is no cover. Refused as that of a point, and with [`Refusal::Corners`].
    pub fn motion_bounds(&self, b: &Bounds) -> Result<MotionBounds, Refusal> {
        let (mut bounds, mut examined) = ([0.0; 6], [0; 3]);
        let number = unsafe { library::jellyplain_motion_bounds(&self.rows, &b.to_array(), &mut bounds, &mut examined) };
        answered(number, MotionBounds { bounds: Bounds::from_array(bounds), examined })
    }

    /// A box that holds every point of `b` at every time but NaN: [`Move::point`] answers a point inside it, and less and plus [`Move::pad`] on each axis, each rounded, that
    /// point is inside too. It is worked from 2^depth slices of the move, `depth` from 0 to 12; a greater depth costs twice as much and never gives a larger box. Its zeros are +0. Refused with [`Refusal::Query`], [`Refusal::Corners`] and [`Refusal::Depth`], in this
    /// order, then with [`Refusal::NotFinite`] or [`Refusal::SquaredLength`], whichever is met first.
    pub fn cover(&self, b: &Bounds, depth: u32) -> Result<Bounds, Refusal> {
        let mut bounds = [0.0; 6];
        let number = unsafe { library::jellyplain_cover(&self.rows, &b.to_array(), depth, &mut bounds) };
        answered(number, Bounds::from_array(bounds))
    }

    /// Which rows the boxes may wet, and in which windows, as [`Chain::reach`] says of a chain.
    pub fn reach(&self, boxes: &[Bounds], depth: u32, ticks: &[f32], rows: &[Bounds]) -> Result<List<u64, ROWS>, Refusal> {
        reach(core::slice::from_ref(&self.rows), boxes, depth, ticks, rows)
    }
}

/// What is asked about rows by windows, of the moves of a chain or of a move by itself.
fn reach(moves: &[library::Rows], boxes: &[Bounds], depth: u32, ticks: &[f32], rows: &[Bounds]) -> Result<List<u64, ROWS>, Refusal> {
    let mut masks = List::empty(0);
    // A box and a row cross as their six floats.
    let (asked, field) = (boxes.as_ptr().cast::<[f32; 6]>(), rows.as_ptr().cast::<[f32; 6]>());
    let number = unsafe {
        library::jellyplain_moves_reach(moves.as_ptr(), moves.len(), asked, boxes.len(), depth, ticks.as_ptr(), ticks.len(), field, rows.len(), masks.places())
    };
    masks.set_len(rows.len());
    answered(number, masks)
}

/// What a chain holds beside its poses.
#[derive(Clone, Copy, Debug, PartialEq)]
pub struct Held {
    /// How many poses.
    pub poses: usize,
    /// The time of the first pose.
    pub first: f32,
    /// The time of the last pose.
    pub last: f32,
    /// Whether it was built as rigid.
    pub rigid: bool,
}

/// The answer to a set of boxes: a cover for each, in their order, and the union of them.
#[derive(Clone, Copy, Debug, PartialEq)]
pub struct Covers {
    /// The cover of each box.
    pub each: List<Bounds, BOXES>,
    /// The union of the covers.
    pub union: Bounds,
}

/// A built chain, the moves between neighbouring poses, or an empty one, which every query refuses with [`Refusal::Chain`] before all else. It is only built by
/// [`Chain::build`], [`Chain::build_rigid`], [`Chain::build_joined`] and what stands on them, so that the guarantee of [`Chain::cover`] holds of every value of this type.
///
/// It takes 22 kB. Those three build it where it stands, so that a `static` or a [`Box`](https://doc.rust-lang.org/std/boxed/struct.Box.html) keeps it off the stack:
///
/// ```
/// use jellyplain::{Chain, Pose, Refusal, IDENTITY};
/// use std::sync::Mutex;
///
/// static CHAIN: Mutex<Chain> = Mutex::new(Chain::EMPTY);
///
/// let mut chain = CHAIN.lock().unwrap();
/// assert_eq!(chain.point(0.5, [0.0; 3]), Err(Refusal::Chain));
/// chain.build(&[0.0, 1.0].map(|time| Pose { time, matrix: IDENTITY, pad: 0.0 }))?;
/// assert_eq!(chain.point(0.5, [0.0; 3]), Ok([0.0; 3]));
///
/// let mut place = Box::new_uninit();
/// let copy: &mut Chain = Chain::empty_in(&mut place);
/// copy.clone_from(&chain);
/// assert_eq!(copy.moves().len(), 1);
/// # Ok::<(), Refusal>(())
/// ```
#[derive(Debug)]
pub struct Chain {
    moves: List<library::Rows, MOVES>,
}

impl Clone for Chain {
    fn clone(&self) -> Chain {
        Chain { moves: self.moves }
    }

    fn clone_from(&mut self, source: &Chain) {
        self.moves = source.moves;
    }
}

impl Default for Chain {
    fn default() -> Chain {
        Chain::EMPTY
    }
}

impl Chain {
    /// No moves: what a chain is before it is built and after it is refused.
    pub const EMPTY: Chain = Chain { moves: List::empty(library::EMPTY) };

    /// An empty chain in a place that was not written yet, such as that of `Box::new_uninit()`: none of it stands on the stack, without optimization too, where a constant does.
    pub fn empty_in(place: &mut MaybeUninit<Chain>) -> &mut Chain {
        // SAFETY: a chain is floats and a count, and bytes of zero are `Chain::EMPTY`.
        unsafe {
            place.as_mut_ptr().write_bytes(0, 1);
            place.assume_init_mut()
        }
    }

    /// Builds here the chain of 2 to 32 poses whose times rise strictly; what stood here before is gone. Refused with numbers 1, 2, 16, 12, 3, 4 and 5, in this order; the chain is empty then.
    pub fn build(&mut self, poses: &[Pose]) -> Result<(), Refusal> {
        self.build_kind(false, poses)
    }

    /// Builds here the chain of a boom that neither stretches nor shears, each of its moves as [`Move::rigid`] builds it. Refused as [`Chain::build`] and, after 3 and before 4 and 5, pose by
    /// pose, with [`Refusal::NotRigid`] and [`Refusal::Determinant`]. A file doesn't hold how a chain was built: what [`Chain::write`] writes may be read and built either way.
    pub fn build_rigid(&mut self, poses: &[Pose]) -> Result<(), Refusal> {
        self.build_kind(true, poses)
    }

    fn build_kind(&mut self, rigid: bool, poses: &[Pose]) -> Result<(), Refusal> {
        let moves = self.moves.places();
        library::check();
        let number = unsafe { library::jellyplain_build_moves(rigid, poses.as_ptr(), poses.len(), moves) };
        answered(number, ())?;
        self.moves.set_len(poses.len() - 1);
        Ok(())
    }

    /// Builds here one chain of two, with the pose that they share once: the same as that of all poses. Up to the shared time it answers as the first, above it as the second,
    /// and its cover is the union of theirs. Refused with [`Refusal::Chain`] where one is empty, with [`Refusal::Mismatch`] where the last pose of the first and the first of the second differ in a bit of time, matrix or pad, a zero's
    /// sign too, or one chain is rigid and the other isn't, then with [`Refusal::Chain`] for more than 32 poses; the chain is empty then.
    pub fn build_joined(&mut self, first: &Chain, second: &Chain) -> Result<(), Refusal> {
        let moves = self.moves.places();
        let (first, second) = (first.built()?, second.built()?);
        let number = unsafe { library::jellyplain_moves_join(first.as_ptr(), first.len(), second.as_ptr(), second.len(), moves) };
        answered(number, ())?;
        self.moves.set_len(first.len() + second.len());
        Ok(())
    }

    /// The chain that [`Chain::build`] builds, by value: it passes over the stack.
    pub fn new(poses: &[Pose]) -> Result<Chain, Refusal> {
        let mut chain = Chain::EMPTY;
        chain.build(poses)?;
        Ok(chain)
    }

    /// The chain that [`Chain::build_rigid`] builds, by value: it passes over the stack.
    pub fn rigid(poses: &[Pose]) -> Result<Chain, Refusal> {
        let mut chain = Chain::EMPTY;
        chain.build_rigid(poses)?;
        Ok(chain)
    }

    /// One chain of this one and another, as [`Chain::build_joined`] builds it, by value: it passes over the stack.
    pub fn join(&self, other: &Chain) -> Result<Chain, Refusal> {
        let mut chain = Chain::EMPTY;
        chain.build_joined(self, other)?;
        Ok(chain)
    }

    /// Of poses that [`Chain::new`] refuses, the places of the shortest run of neighbouring ones that is refused in the same way, the leftmost among equals: one pose, as a move from it to
    /// itself, or two. An empty range where the poses are a chain; refused with [`Refusal::Chain`] where they are refused with it.
    pub fn refused_run(poses: &[Pose]) -> Result<Range<usize>, Refusal> {
        Chain::run(false, poses)
    }

    /// The same of poses that [`Chain::rigid`] refuses.
    pub fn refused_rigid_run(poses: &[Pose]) -> Result<Range<usize>, Refusal> {
        Chain::run(true, poses)
    }

    fn run(rigid: bool, poses: &[Pose]) -> Result<Range<usize>, Refusal> {
        library::check();
        let run = unsafe { library::jellyplain_refused_run(rigid, poses.as_ptr(), poses.len()) };
        answered(run.refusal, run.place..run.place + run.length)
    }

    /// The moves of a chain that is not empty. About an empty one the library isn't asked: no building has seen yet that it fits.
    fn built(&self) -> Result<&[library::Rows], Refusal> {
        if self.moves.is_empty() {
            Err(Refusal::Chain)
        } else {
            Ok(&self.moves)
        }
    }

    /// The moves, one fewer than the poses: the one at place i goes from pose i to the next.
    #[must_use]
    pub fn moves(&self) -> impl ExactSizeIterator<Item = Move> + '_ {
        self.moves.iter().map(|rows| Move { rows: *rows })
    }

    /// Where a point stands at a time. A time equal to an inner pose's belongs to the earlier move, times outside to the first and the last.
    /// Refused with [`Refusal::Query`] and [`Refusal::NotFinite`].
    pub fn point(&self, time: f32, p: [f32; 3]) -> Result<[f32; 3], Refusal> {
        let (moves, mut answer) = (self.built()?, [0.0; 3]);
        let number = unsafe { library::jellyplain_moves_point(moves.as_ptr(), moves.len(), time, &p, &mut answer) };
        answered(number, answer)
    }

    /// The pad at a time, of the move that the time belongs to. Refused as [`Move::pad`].
    pub fn pad(&self, time: f32) -> Result<f32, Refusal> {
        let (moves, mut pad) = (self.built()?, [0.0]);
        let number = unsafe { library::jellyplain_moves_pad(moves.as_ptr(), moves.len(), time, &mut pad) };
        answered(number, pad[0])
    }

    /// The transform at a time, of the move that the time belongs to. Its matrix applied to a point, each row's products with x, y, z and 1 added from the left, is what [`Chain::point`] answers, bit
    /// for bit. Refused with [`Refusal::Query`], then with [`Refusal::ZeroPivot`] or [`Refusal::NotFinite`], also where points are answered: between two poses the scale on the way may have no
    /// inverse, or its inverse may leave the range of floats, and a point needs none.
    pub fn interpolate(&self, time: f32) -> Result<Transform, Refusal> {
        let (moves, mut transform) = (self.built()?, Transform { matrix: [[0.0; 4]; 4], inverse: [[0.0; 4]; 4] });
        let number = unsafe { library::jellyplain_moves_interpolate(moves.as_ptr(), moves.len(), time, &mut transform) };
        answered(number, transform)
    }

    /// What the chain holds: the number of its poses, the times of the first and the last, its kind. Refused with [`Refusal::Chain`] where it is empty.
    pub fn held(&self) -> Result<Held, Refusal> {
        let moves = self.built()?;
        let held = unsafe { library::jellyplain_moves_held(moves.as_ptr(), moves.len()) };
        answered(held.refusal, Held { poses: held.poses, first: held.first, last: held.last, rigid: held.rigid })
    }

    /// The pose at a place, counted from 0, as it was set, bit by bit. Refused with [`Refusal::Chain`] where the chain is empty, then with [`Refusal::Place`] for a place beyond the last pose.
    pub fn pose(&self, place: usize) -> Result<Pose, Refusal> {
        let (moves, mut pose) = (self.built()?, Pose { time: 0.0, matrix: IDENTITY, pad: 0.0 });
        let number = unsafe { library::jellyplain_moves_pose(moves.as_ptr(), moves.len(), place, &mut pose) };
        answered(number, pose)
    }

    /// Where a point stands at each time of a list that never falls, into as many lent places, which a refusal leaves as they were. Refused with [`Refusal::Query`], [`Refusal::TimeList`], for another
    /// number of places too, and [`Refusal::NotFinite`].
    pub fn points(&self, times: &[f32], p: [f32; 3], points: &mut [[f32; 3]]) -> Result<(), Refusal> {
        let (moves, answers) = (self.built()?, points.as_flattened_mut());
        let number =
            unsafe { library::jellyplain_moves_points(moves.as_ptr(), moves.len(), times.as_ptr(), times.len(), &p, answers.as_mut_ptr(), answers.len()) };
        answered(number, ())
    }

    /// A box that holds every point of `b` at every time but NaN: [`Chain::point`] and [`Chain::points`] answer points inside it, and so they are less and plus [`Chain::pad`]. It
    /// is the union of the moves' covers, each from 2^depth slices, and its zeros are +0. Refused as [`Move::cover`].
    pub fn cover(&self, b: &Bounds, depth: u32) -> Result<Bounds, Refusal> {
        let (moves, mut bounds) = (self.built()?, [0.0; 6]);
        let number = unsafe { library::jellyplain_moves_cover(moves.as_ptr(), moves.len(), &b.to_array(), depth, &mut bounds) };
        answered(number, Bounds::from_array(bounds))
    }

    /// The cover of `b` if the pose at `place`, counted from 0, were this one: the same as that of a chain built with it. Only the moves beside the place are built for it, and the
    /// chain stays as it is. Refused with [`Refusal::Place`] for a place beyond the last pose, then as
    /// [`Chain::new`] or [`Chain::rigid`] of the changed poses, by the chain's kind: 1, 2, 16, 12, 3, of a rigid chain 17 and 18, then 4 or 5; then as [`Chain::cover`].
    pub fn try_pose(&self, place: usize, pose: &Pose, b: &Bounds, depth: u32) -> Result<Bounds, Refusal> {
        let (moves, mut bounds) = (self.built()?, [0.0; 6]);
        let number = unsafe { library::jellyplain_moves_try(moves.as_ptr(), moves.len(), place, pose, &b.to_array(), depth, &mut bounds) };
        answered(number, Bounds::from_array(bounds))
    }

    /// The covers of 1 to 16 boxes, each as [`Chain::cover`] gives it, and their union: no point of a box leaves that box's own cover at any time but NaN. Refused with [`Refusal::Set`], then as [`Chain::cover`] of the first box in order that is refused.
    pub fn covers(&self, boxes: &[Bounds], depth: u32) -> Result<Covers, Refusal> {
        let (moves, mut covers, mut union) = (self.built()?, [[0.0; 6]; BOXES], [0.0; 6]);
        // A box crosses as its six floats.
        let asked = boxes.as_ptr().cast::<[f32; 6]>();
        let number = unsafe { library::jellyplain_moves_covers(moves.as_ptr(), moves.len(), asked, boxes.len(), depth, &mut covers, &mut union) };
        answered(number, Covers { each: List::front(covers.map(Bounds::from_array), boxes.len()), union: Bounds::from_array(union) })
    }

    /// A box that holds every point of `b` at every time from one tick to a later one, both included, as [`Chain::cover`] does at all times; its zeros are +0. Ticks may be infinite. Refused with
    /// [`Refusal::Ticks`] where they don't rise, then as [`Chain::cover`].
    pub fn window_cover(&self, b: &Bounds, depth: u32, earlier: f32, later: f32) -> Result<Bounds, Refusal> {
        let (moves, mut bounds) = (self.built()?, [0.0; 6]);
        let number = unsafe { library::jellyplain_moves_window_cover(moves.as_ptr(), moves.len(), &b.to_array(), depth, earlier, later, &mut bounds) };
        answered(number, Bounds::from_array(bounds))
    }

    /// The windows between neighbouring ticks, counted from 0, in which the boxes that hold `b` here and `c` there meet, touching included. In any other window, ticks included, no point of
    /// `b` and none of `c`, each less or plus its pad or anything between, are ever at the same place; a greater depth, up to 12, lists no other. Refused with [`Refusal::Ticks`] unless 2 to 64 ticks rise strictly,
    /// with the numbers of `b`, of `c` and of the depth, then with [`Refusal::NotFinite`] or [`Refusal::SquaredLength`] of the first window that is refused.
    pub fn windows(&self, other: &Chain, b: &Bounds, c: &Bounds, depth: u32, ticks: &[f32]) -> Result<List<u32, WINDOWS>, Refusal> {
        let (first, second, mut places) = (self.built()?, other.built()?, [0; WINDOWS]);
        let (b, c) = (b.to_array(), c.to_array());
        let windows = unsafe {
            library::jellyplain_moves_windows(
                first.as_ptr(),
                first.len(),
                second.as_ptr(),
                second.len(),
                &b,
                &c,
                depth,
                ticks.as_ptr(),
                ticks.len(),
                &mut places,
            )
        };
        answered(windows.refusal, List::front(places, windows.count))
    }

    /// Which of 1 to 256 rows a boom of 1 to 16 boxes may wet, and in which of the windows between 2 to 64 neighbouring ticks: a mask for each row, in their order. Bit w is 1 exactly where the row is named
    /// in window w, counted from 0: it meets, touching included, one of the boxes whose union is [`Chain::window_cover`] of that window for one of the boom's boxes. So the rows whose mask isn't 0 are the
    /// map, and their bits the schedule. Ticks may be infinite: with minus and plus infinity alone there is one window, all time.
    ///
    /// In a row that isn't named in a window there is no point of any of the boxes at any time of the window, both ticks included, less or plus its pad or anything between. A greater depth, up to 12, is
    /// not refused where a lesser was accepted, and each of its masks is a part of the lesser's. A boom in parts, as [`cut`] makes them, has fewer rows named than the whole box. Refused with
    /// [`Refusal::Set`] of the boxes, then of the rows, with [`Refusal::Ticks`], with [`Refusal::Query`] and [`Refusal::Corners`] of the first box in order that is refused, then of the first row, with
    /// [`Refusal::Depth`], then with [`Refusal::NotFinite`] or [`Refusal::SquaredLength`] of the first window that is refused, and in it of the first box.
    ///
    /// ```
    /// use jellyplain::{cut, Bounds, Chain, Pose, Refusal, IDENTITY};
    ///
    /// // Eight metres along x in eight seconds, and the boom is a metre across.
    /// let mut end = IDENTITY;
    /// end[0][3] = 8.0;
    /// let chain = Chain::rigid(&[Pose { time: 0.0, matrix: IDENTITY, pad: 0.0 }, Pose { time: 8.0, matrix: end, pad: 0.0 }])?;
    /// let parts = cut(&Bounds { p_min: [0.0; 3], p_max: [1.0, 4.0, 1.0] }, 4)?;
    /// let row = |low: f32| Bounds { p_min: [low, 0.0, 0.0], p_max: [low + 0.5, 4.0, 1.0] };
    ///
    /// // Before 2 s, from 2 s to 4 s, and after.
    /// let ticks = [f32::NEG_INFINITY, 2.0, 4.0, f32::INFINITY];
    /// let masks = chain.reach(&parts, 8, &ticks, &[row(0.25), row(3.5), row(9.5)])?;
    /// assert_eq!(masks, [0b001, 0b110, 0b000]);
    /// # Ok::<(), Refusal>(())
    /// ```
    pub fn reach(&self, boxes: &[Bounds], depth: u32, ticks: &[f32], rows: &[Bounds]) -> Result<List<u64, ROWS>, Refusal> {
        reach(self.built()?, boxes, depth, ticks, rows)
    }

    /// The move file of the chain's poses and a box, in the one way that it is written, with fourteen names: [`MoveFile::read`] gives the same bits back, a bottom row's zeros as +0.
    /// The text stands in the front of the lent bytes, for any chain in [`TEXT`] of them. Refused with [`Refusal::Query`] and [`Refusal::Corners`], then with [`Refusal::Room`] for too few bytes,
    /// which a refusal leaves as they were.
    ///
    /// ```
    /// # use jellyplain::{Bounds, Chain, Pose, Refusal, IDENTITY, TEXT};
    /// # let poses = [0.0, 1.0].map(|time| Pose { time, matrix: IDENTITY, pad: 0.0 });
    /// # let b = Bounds { p_min: [0.0; 3], p_max: [1.0; 3] };
    /// let mut bytes = [0; TEXT];
    /// let text: &str = Chain::new(&poses)?.write(&b, &mut bytes)?;
    /// assert!(text.starts_with("time m00 m01") && text.ends_with("3f800000\n"));
    /// # Ok::<(), Refusal>(())
    /// ```
    pub fn write<'a>(&self, b: &Bounds, text: &'a mut [u8]) -> Result<&'a str, Refusal> {
        let moves = self.built()?;
        let written = unsafe { library::jellyplain_write_file(moves.as_ptr(), moves.len(), &b.to_array(), text.as_mut_ptr(), text.len()) };
        answered(written.refusal, &text[..written.length]).map(|text| core::str::from_utf8(text).expect("the text is digits, spaces, names and line feeds"))
    }
}

/// What a move file holds: any number of poses, and a box. Whether a chain can be built of the poses is asked by [`Chain::build`] and [`Chain::build_rigid`].
///
/// It takes 40 kB, and [`MoveFile::read_from`] reads a file to where it stands, a `static` or a place that [`MoveFile::empty_in`] is lent.
///
/// ```
/// # use jellyplain::{Chain, MoveFile, Refusal};
/// # let bytes = b"";
/// let (mut file, mut chain) = (Box::new_uninit(), Box::new_uninit());
/// let (file, chain) = (MoveFile::empty_in(&mut file), Chain::empty_in(&mut chain));
/// if let Err(refusal) = file.read_from(bytes).and_then(|()| chain.build(&file.poses)) {
///     assert_eq!(refusal, Refusal::File);
///     assert_eq!(*file, MoveFile::EMPTY);
/// }
/// ```
#[derive(Debug, PartialEq)]
pub struct MoveFile {
    /// The poses, in the file's order.
    pub poses: List<Pose, FILE_POSES>,
    /// The box.
    pub bounds: Bounds,
}

impl Clone for MoveFile {
    fn clone(&self) -> MoveFile {
        MoveFile { ..*self }
    }

    fn clone_from(&mut self, source: &MoveFile) {
        (self.poses, self.bounds) = (source.poses, source.bounds);
    }
}

impl Default for MoveFile {
    fn default() -> MoveFile {
        MoveFile::EMPTY
    }
}

impl MoveFile {
    /// No pose, and pbrt's empty box, [`Bounds::EMPTY`]: what a file is before it is read and after it is refused. No chain is built of it and no query takes its box.
    pub const EMPTY: MoveFile = MoveFile { poses: List::empty(Pose { time: 0.0, matrix: [[0.0; 4]; 4], pad: 0.0 }), bounds: Bounds::EMPTY };

    /// An empty file in a place that was not written yet, such as that of `Box::new_uninit()`: none of it stands on the stack, without optimization too, where a constant does.
    pub fn empty_in(place: &mut MaybeUninit<MoveFile>) -> &mut MoveFile {
        // SAFETY: a file is floats and a count, for which bytes of zero stand, and they are no pose.
        let file = unsafe {
            place.as_mut_ptr().write_bytes(0, 1);
            place.assume_init_mut()
        };
        file.bounds = Bounds::EMPTY;
        file
    }

    /// Reads a file's bytes to here, whatever its spaces and the case of its digits; with the old thirteen names the pads are +0. What stood here before is gone. Refused with [`Refusal::File`]; there is
    /// no pose then, and the box is empty.
    pub fn read_from(&mut self, bytes: &[u8]) -> Result<(), Refusal> {
        self.bounds = Bounds::EMPTY;
        let (poses, mut bounds) = (self.poses.places(), [0.0; 6]);
        library::check();
        let read = unsafe { library::jellyplain_read_file(bytes.as_ptr(), bytes.len(), poses, &mut bounds) };
        answered(read.refusal, ())?;
        self.poses.set_len(read.count);
        self.bounds = Bounds::from_array(bounds);
        Ok(())
    }

    /// The file that [`MoveFile::read_from`] reads, by value: it passes over the stack.
    pub fn read(bytes: &[u8]) -> Result<MoveFile, Refusal> {
        let mut file = MoveFile::EMPTY;
        file.read_from(bytes)?;
        Ok(file)
    }
}

/// A boom of a day: its chain's cover, and for how many ticks it runs.
#[derive(Clone, Copy, Debug, PartialEq)]
pub struct Boom {
    /// The box that its chain stays in.
    pub cover: Bounds,
    /// How many ticks it runs, 1 to 1000.
    pub ticks: u32,
}

/// The tick in which each of 1 to 8 booms starts, in their order. All wait from tick 0; in each tick those whose run is over stop first, then the waiting ones are taken in order, and one starts if its
/// cover meets, even by touching, no running boom's. No two that run ever have covers that meet, and each starts no later than the sum of the others' run lengths.
/// Refused with [`Refusal::Day`], then with [`Refusal::Query`] and [`Refusal::Corners`] of the first cover in order that is refused.
pub fn starting_ticks(booms: &[Boom]) -> Result<List<u32, BOOMS>, Refusal> {
    library::check();
    let (mut boxes, mut lengths, mut starts) = ([[0.0; 6]; BOOMS], [0; BOOMS], [0; BOOMS]);
    for (i, boom) in booms.iter().enumerate().take(BOOMS) {
        (boxes[i], lengths[i]) = (boom.cover.to_array(), boom.ticks);
    }
    let number = unsafe { library::jellyplain_day(&boxes, &lengths, booms.len(), &mut starts) };
    answered(number, List::front(starts, booms.len()))
}

/// The rows that a boom reaches, by their places in the list that was asked about.
#[derive(Clone, Copy, Debug, PartialEq, Eq)]
pub struct ReachedRows {
    places: [u32; ROWS],
    count: usize,
}

impl ReachedRows {
    /// The places of the named rows, counted from 0 and rising.
    #[must_use]
    pub fn places(&self) -> &[u32] {
        &self.places[..self.count]
    }

    /// Whether the row at a place is named.
    #[must_use]
    pub fn contains(&self, place: usize) -> bool {
        u32::try_from(place).is_ok_and(|place| self.places().binary_search(&place).is_ok())
    }
}

/// Which of 1 to 256 rows a cover meets, touching included. Where the cover is that of a boom's box, as [`Chain::cover`], [`Chain::covers`] or [`Move::cover`] give it, a row that is not named holds no
/// point of the boom at any time, less or plus its pad or anything between; where it is that of a window ([`Chain::window_cover`]), at no time of the window. Refused with [`Refusal::Set`] for no rows or more than 256, then with [`Refusal::Query`] and [`Refusal::Corners`] of
/// the cover, then of the first row in order that is refused.
///
/// ```
/// use jellyplain::{reached_rows, Bounds, Refusal};
///
/// let row = |low: f32| Bounds { p_min: [low, 0.0, 0.0], p_max: [low + 0.5, 30.0, 2.0] };
/// let cover = Bounds { p_min: [0.75, 0.0, 0.0], p_max: [2.0, 4.0, 1.0] };
/// let reached = reached_rows(&cover, &[row(0.0), row(1.0), row(2.0), row(3.0)])?;
/// assert_eq!(reached.places(), [1, 2]); // the third is touched
/// assert!(!reached.contains(3));
/// # Ok::<(), Refusal>(())
/// ```
pub fn reached_rows(cover: &Bounds, rows: &[Bounds]) -> Result<ReachedRows, Refusal> {
    library::check();
    // A row crosses as its six floats.
    let (asked, mut places) = (rows.as_ptr().cast::<[f32; 6]>(), [0; ROWS]);
    let reached = unsafe { library::jellyplain_reached_rows(&cover.to_array(), asked, rows.len(), &mut places) };
    answered(reached.refusal, ReachedRows { places, count: reached.count })
}

/// A box in n parts, 1 to 16, along its longest axis, the first of equals. Each part lies in the box, and every point of the box is inside some part. A boom is asked about in parts so that
/// [`Chain::reach`] names fewer rows. Refused with [`Refusal::Set`] for another number of parts, then with [`Refusal::Query`] and [`Refusal::Corners`].
///
/// ```
/// use jellyplain::{cut, Bounds, Refusal};
///
/// let parts = cut(&Bounds { p_min: [0.0; 3], p_max: [1.0, 6.0, 1.0] }, 3)?;
/// assert_eq!(parts[1], Bounds { p_min: [0.0, 2.0, 0.0], p_max: [1.0, 4.0, 1.0] });
/// # Ok::<(), Refusal>(())
/// ```
pub fn cut(b: &Bounds, n: u32) -> Result<List<Bounds, BOXES>, Refusal> {
    library::check();
    let mut parts = [[0.0; 6]; BOXES];
    let number = unsafe { library::jellyplain_cut(&b.to_array(), n, &mut parts) };
    answered(number, List::front(parts.map(Bounds::from_array), n as usize))
}
