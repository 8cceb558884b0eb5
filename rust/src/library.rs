//! The functions of the archive libjellyplain.a, as `crates/api_c/src/lib.rt` exports them and c/jellyplain.h declares them. A reference to an array crosses as a thin pointer, so that
//! no length can be wrong, and a slice as a pointer and its length; references to be written are borrowed apart from all others.

use crate::{Pose, Transform};

/// A built move as its caller keeps it. What stands in it is the library's own business.
pub type Rows = [[f32; 4]; 45];

pub const EMPTY: Rows = [[0.0; 4]; 45];

/// The most poses that a chain has.
pub const POSES: usize = 32;

/// The most moves that a chain has.
pub const MOVES: usize = 31;

/// The most boxes of a set, and the most parts of a box.
pub const BOXES: usize = 16;

/// The most ticks that are asked about.
pub const TICKS: usize = 64;

/// The most windows between ticks.
pub const WINDOWS: usize = 63;

/// The most poses that a move file has room for.
pub const FILE_POSES: usize = 559;

/// How many poses a file holds, or the number of a refusal.
#[derive(Debug, PartialEq)]
#[repr(C)]
pub struct FileRead {
    pub count: usize,
    pub refusal: u8,
}

/// How long a text is, or the number of a refusal.
#[derive(Debug, PartialEq)]
#[repr(C)]
pub struct Written {
    pub length: usize,
    pub refusal: u8,
}

/// A run's first place and its length, or the number of a refusal.
#[derive(Debug, PartialEq)]
#[repr(C)]
pub struct Run {
    pub place: usize,
    pub length: usize,
    pub refusal: u8,
}

/// How many poses a chain has, the times of its first and its last, and whether it is rigid; or the number of a refusal.
#[derive(Debug, PartialEq)]
#[repr(C)]
pub struct Held {
    pub poses: usize,
    pub first: f32,
    pub last: f32,
    pub rigid: bool,
    pub refusal: u8,
}

/// How many windows are listed, or the number of a refusal.
#[derive(Debug, PartialEq)]
#[repr(C)]
pub struct Windows {
    pub count: usize,
    pub refusal: u8,
}

/// The most booms of a day.
pub const BOOMS: usize = 8;

/// The most rows that are asked about.
pub const ROWS: usize = 256;

/// How many rows are named, or the number of a refusal.
#[derive(Debug, PartialEq)]
#[repr(C)]
pub struct Reached {
    pub count: usize,
    pub refusal: u8,
}

extern "C" {
    pub fn jellyplain_build(rigid: bool, start: &Pose, end: &Pose, motion: &mut Rows) -> u8;
    pub fn jellyplain_point(motion: &Rows, time: f32, p: &[f32; 3], moved: &mut [f32; 3]) -> u8;
    pub fn jellyplain_pad(motion: &Rows, time: f32, pad: &mut [f32; 1]) -> u8;
    pub fn jellyplain_interpolate(motion: &Rows, time: f32, transform: &mut Transform) -> u8;
    pub fn jellyplain_bound_point_motion(motion: &Rows, p: &[f32; 3], out: &mut [f32; 6], examined: &mut [u32; 3]) -> u8;
    pub fn jellyplain_motion_bounds(motion: &Rows, b: &[f32; 6], out: &mut [f32; 6], examined: &mut [u32; 3]) -> u8;
    pub fn jellyplain_cover(motion: &Rows, b: &[f32; 6], depth: u32, out: &mut [f32; 6]) -> u8;
    pub fn jellyplain_layout() -> u32;
    pub fn jellyplain_version() -> u32;
    pub fn jellyplain_build_moves(rigid: bool, poses: *const Pose, count: usize, moves: &mut [Rows; MOVES]) -> u8;
    pub fn jellyplain_refused_run(rigid: bool, poses: *const Pose, count: usize) -> Run;
    pub fn jellyplain_moves_point(moves: *const Rows, count: usize, time: f32, p: &[f32; 3], moved: &mut [f32; 3]) -> u8;
    pub fn jellyplain_moves_pad(moves: *const Rows, count: usize, time: f32, pad: &mut [f32; 1]) -> u8;
    pub fn jellyplain_moves_interpolate(moves: *const Rows, count: usize, time: f32, transform: &mut Transform) -> u8;
    pub fn jellyplain_moves_held(moves: *const Rows, count: usize) -> Held;
    pub fn jellyplain_moves_pose(moves: *const Rows, count: usize, place: usize, pose: &mut Pose) -> u8;
    pub fn jellyplain_moves_points(
        moves: *const Rows,
        count: usize,
        times: *const f32,
        times_count: usize,
        p: &[f32; 3],
        answers: *mut f32,
        places: usize,
    ) -> u8;
    pub fn jellyplain_moves_cover(moves: *const Rows, count: usize, b: &[f32; 6], depth: u32, out: &mut [f32; 6]) -> u8;
    pub fn jellyplain_moves_try(moves: *const Rows, count: usize, place: usize, pose: &Pose, b: &[f32; 6], depth: u32, out: &mut [f32; 6]) -> u8;
    pub fn jellyplain_moves_join(first: *const Rows, first_count: usize, second: *const Rows, second_count: usize, moves: &mut [Rows; MOVES]) -> u8;
    pub fn jellyplain_moves_covers(
        moves: *const Rows,
        count: usize,
        boxes: *const [f32; 6],
        boxes_count: usize,
        depth: u32,
        covers: &mut [[f32; 6]; BOXES],
        union: &mut [f32; 6],
    ) -> u8;
    pub fn jellyplain_moves_window_cover(moves: *const Rows, count: usize, b: &[f32; 6], depth: u32, earlier: f32, later: f32, out: &mut [f32; 6]) -> u8;
    pub fn jellyplain_moves_windows(
        moves: *const Rows,
        count: usize,
        others: *const Rows,
        others_count: usize,
        b: &[f32; 6],
        other: &[f32; 6],
        depth: u32,
        ticks: *const f32,
        ticks_count: usize,
        places: &mut [u32; WINDOWS],
    ) -> Windows;
    pub fn jellyplain_read_file(bytes: *const u8, size: usize, poses: &mut [Pose; FILE_POSES], bounds: &mut [f32; 6]) -> FileRead;
    pub fn jellyplain_write_file(moves: *const Rows, count: usize, b: &[f32; 6], out: *mut u8, size: usize) -> Written;
    pub fn jellyplain_day(boxes: &[[f32; 6]; BOOMS], lengths: &[u32; BOOMS], count: usize, starts: &mut [u32; BOOMS]) -> u8;
    pub fn jellyplain_reached_rows(cover: &[f32; 6], rows: *const [f32; 6], rows_count: usize, places: &mut [u32; ROWS]) -> Reached;
    pub fn jellyplain_cut(b: &[f32; 6], n: u32, parts: &mut [[f32; 6]; BOXES]) -> u8;
    pub fn jellyplain_moves_reach(
        moves: *const Rows,
        count: usize,
        boxes: *const [f32; 6],
        boxes_count: usize,
        depth: u32,
        ticks: *const f32,
        ticks_count: usize,
        rows: *const [f32; 6],
        rows_count: usize,
        masks: &mut [u64; ROWS],
    ) -> u8;
}

/// The layout in which poses, moves and chains cross to the archive.
pub const LAYOUT: u32 = 3;

/// Whether a library of this layout and version is one that the package can call.
pub fn fits(layout: u32, version: u32) -> bool {
    layout == LAYOUT && version / 10000 == crate::VERSION / 10000
}

/// The library that was linked fits this package, or the program stops here.
pub fn check() {
    let (layout, version) = unsafe { (jellyplain_layout(), jellyplain_version()) };
    assert!(
        fits(layout, version),
        "libjellyplain has version {version} and layout {layout}, and this package is for version {} and layout {LAYOUT}: run `make` in the repository's root",
        crate::VERSION
    );
}

#[cfg(test)]
mod tests {
    use super::*;
    use crate::IDENTITY;

    fn built() -> Rows {
        let mut end = IDENTITY;
        end[0][3] = 1.0;
        let mut rows = EMPTY;
        assert_eq!(
            unsafe { jellyplain_build(false, &Pose { time: 0.0, matrix: IDENTITY, pad: 0.0 }, &Pose { time: 1.0, matrix: end, pad: 0.0 }, &mut rows) },
            0
        );
        rows
    }

    /// A greater minor version or another patch fits, another major version or layout doesn't. What is linked is this package's very version.
    #[test]
    fn versions() {
        assert!(fits(LAYOUT, crate::VERSION) && fits(LAYOUT, crate::VERSION + 100) && fits(LAYOUT, crate::VERSION + 1));
        assert!(!fits(LAYOUT, crate::VERSION + 10000) && !fits(LAYOUT, crate::VERSION - 10000) && !fits(LAYOUT - 1, crate::VERSION));
        assert_eq!((crate::version(), crate::compatible()), (crate::VERSION, true));
    }

    #[test]
    fn refused_arrays_stay_as_they_were() {
        let rows = built();
        let mut kept = rows;
        let mut flat = IDENTITY;
        flat[2] = [0.0; 4];
        let flat = Pose { time: 0.0, matrix: flat, pad: 0.0 };
        let (start, end) = (Pose { time: 0.0, matrix: IDENTITY, pad: 0.0 }, Pose { time: 1.0, matrix: IDENTITY, pad: 0.0 });
        assert_eq!(unsafe { jellyplain_build(false, &flat, &end, &mut kept) }, 4);
        assert_eq!(unsafe { jellyplain_build(true, &flat, &end, &mut kept) }, 17);
        assert_eq!(unsafe { jellyplain_build(true, &end, &start, &mut kept) }, 3);
        assert_eq!(kept, rows);

        let (origin, mut three, mut six, mut counts) = ([0.0; 3], [7.0; 3], [7.0; 6], [7; 3]);
        let sevens = Transform { matrix: [[7.0; 4]; 4], inverse: [[7.0; 4]; 4] };
        let mut transform = sevens;
        assert_eq!(unsafe { jellyplain_point(&rows, f32::NAN, &origin, &mut three) }, 6);
        assert_eq!(three, [7.0; 3]);
        assert_eq!(unsafe { jellyplain_interpolate(&rows, f32::NAN, &mut transform) }, 6);
        assert_eq!(transform, sevens);
        assert_eq!(unsafe { jellyplain_bound_point_motion(&rows, &[f32::INFINITY, 0.0, 0.0], &mut six, &mut counts) }, 6);
        assert_eq!(unsafe { jellyplain_motion_bounds(&rows, &[1.0, 0.0, 0.0, 0.0, 0.0, 0.0], &mut six, &mut counts) }, 7);
        assert_eq!(unsafe { jellyplain_cover(&rows, &[0.0; 6], 0, &mut six) }, 10);
        assert_eq!(six, [7.0; 6]);
        assert_eq!(counts, [7; 3]);
    }

    #[test]
    fn refused_chains_leave_all_as_it_was() {
        let at = |time: f32| Pose { time, matrix: IDENTITY, pad: 0.0 };
        let mut moves = [[[7.0f32; 4]; 45]; MOVES];
        let poses = [at(0.0), at(1.0), at(1.0)];
        assert_eq!(unsafe { jellyplain_build_moves(true, poses.as_ptr(), 3, &mut moves) }, 12);
        assert_eq!(moves, [[[7.0; 4]; 45]; MOVES]);
        assert_eq!(unsafe { jellyplain_build_moves(false, poses.as_ptr(), 2, &mut moves) }, 0);
        assert_eq!(moves[1..], [[[7.0; 4]; 45]; MOVES - 1]);

        let (origin, times, mut nine) = ([0.0; 3], [0.0, 2.0, 1.0], [7.0f32; 9]);
        let mut points = |times: &[f32], places: usize| unsafe {
            jellyplain_moves_points(moves.as_ptr(), 1, times.as_ptr(), times.len(), &origin, nine.as_mut_ptr(), places)
        };
        assert_eq!(points(&times, 9), 13);
        assert_eq!(points(&times[..2], 9), 13);
        assert_eq!(points(&[0.0, 2.0, f32::NAN], 9), 6);
        assert_eq!(nine, [7.0; 9]);
        let (mut three, mut six) = ([7.0; 3], [7.0; 6]);
        assert_eq!(unsafe { jellyplain_moves_point(moves.as_ptr(), 0, 0.0, &origin, &mut three) }, 12);
        assert_eq!(unsafe { jellyplain_moves_cover(moves.as_ptr(), 0, &[0.0; 6], 10, &mut six) }, 12);
        assert_eq!(unsafe { jellyplain_moves_cover(moves.as_ptr(), 1, &[0.0; 6], 13, &mut six) }, 8);
        let pose = Pose { time: f32::NAN, matrix: [[f32::NAN; 4]; 4], pad: -1.0 };
        let mut tried = |count: usize, place: usize| unsafe { jellyplain_moves_try(moves.as_ptr(), count, place, &pose, &[f32::NAN; 6], 13, &mut six) };
        assert_eq!([tried(0, 0), tried(1, 2), tried(1, usize::MAX), tried(1, 0), tried(1, 1)], [19, 19, 19, 1, 1]);
        assert_eq!((three, six), ([7.0; 3], [7.0; 6]));
    }

    #[test]
    fn sets_of_boxes_in_their_places() {
        let moves = [built()];
        let boxes = [[1.0f32, 0.0, 0.0, 1.5, 0.5, 0.0]; 17];
        let (mut covers, mut union) = ([[7.0; 6]; BOXES], [7.0; 6]);
        let mut ask = |moves_count: usize, boxes: &[[f32; 6]], depth: u32| {
            let number = unsafe { jellyplain_moves_covers(moves.as_ptr(), moves_count, boxes.as_ptr(), boxes.len(), depth, &mut covers, &mut union) };
            (number, covers, union)
        };
        let refused = |number: u8| (number, [[7.0; 6]; BOXES], [7.0; 6]);
        assert_eq!(ask(0, &[], 13), refused(12));
        assert_eq!(ask(1, &[], 13), refused(14));
        assert_eq!(ask(1, &boxes, 13), refused(14));
        assert_eq!(ask(1, &boxes[..16], 13), refused(8));
        let mut last = boxes;
        last[15] = [f32::NAN; 6];
        assert_eq!(ask(1, &last[..16], 8), refused(6));
        last[14][0] = 9.0;
        assert_eq!(ask(1, &last[..16], 8), refused(7));
        // Two places are written, and the others are +0.
        let mut own = [7.0; 6];
        assert_eq!(unsafe { jellyplain_moves_cover(moves.as_ptr(), 1, &boxes[0], 8, &mut own) }, 0);
        let mut expected = [[0.0; 6]; BOXES];
        (expected[0], expected[1]) = (own, own);
        assert_eq!(ask(1, &boxes[..2], 8), (0, expected, own));
    }

    #[test]
    fn windows_in_their_places() {
        let moves = [built()];
        let (near, far, nan) = ([0.0f32, 0.0, 0.0, 0.5, 0.5, 0.5], [1.25f32, 0.0, 0.0, 2.0, 0.5, 0.5], [f32::NAN; 6]);
        let ticks = [0.0, 0.25, 0.75, 1.0, 2.0];
        let mut places = [7u32; WINDOWS];
        let mut ask = |counts: [usize; 2], b: &[f32; 6], other: &[f32; 6], depth: u32, ticks: &[f32]| {
            let rows = moves.as_ptr();
            let windows = unsafe { jellyplain_moves_windows(rows, counts[0], rows, counts[1], b, other, depth, ticks.as_ptr(), ticks.len(), &mut places) };
            (windows, places)
        };
        let refused = |refusal: u8| (Windows { count: 0, refusal }, [7; WINDOWS]);
        assert_eq!(ask([0, 1], &nan, &nan, 13, &[]), refused(12));
        assert_eq!(ask([1, 0], &nan, &nan, 13, &[]), refused(12));
        assert_eq!(ask([1, 1], &nan, &nan, 13, &[1.0, 1.0]), refused(21));
        assert_eq!(ask([1, 1], &nan, &[1.0, 0.0, 0.0, 0.0, 0.0, 0.0], 13, &ticks), refused(6));
        assert_eq!(ask([1, 1], &near, &[1.0, 0.0, 0.0, 0.0, 0.0, 0.0], 13, &ticks), refused(7));
        assert_eq!(ask([1, 1], &near, &far, 13, &ticks), refused(8));
        // Both boxes move alike, so that they never meet but in a window that is long enough.
        let (windows, places) = ask([1, 1], &near, &far, 8, &[0.0, 0.5, 1.0]);
        assert_eq!((windows, places), (Windows { count: 0, refusal: 0 }, [0; WINDOWS]));
        let mut first = [0; WINDOWS];
        first[0] = 1;
        assert_eq!(ask([1, 1], &near, &far, 8, &[-1.0, 0.0, 1.0, 2.0]), (Windows { count: 1, refusal: 0 }, first));
        let mut six = [7.0; 6];
        let mut cover = |count: usize, ticks: [f32; 2], depth: u32| unsafe {
            jellyplain_moves_window_cover(moves.as_ptr(), count, &near, depth, ticks[0], ticks[1], &mut six)
        };
        assert_eq!([cover(0, [1.0, 1.0], 13), cover(1, [1.0, 1.0], 13), cover(1, [f32::NAN, 1.0], 13), cover(1, [0.0, 1.0], 13)], [12, 21, 21, 8]);
        assert_eq!(six, [7.0; 6]);
    }

    #[test]
    fn files_in_lent_arrays() {
        let moves = [built()];
        let mut text = [7u8; 400];
        let mut write = |count: usize, b: &[f32; 6], size: usize| {
            let written = unsafe { jellyplain_write_file(moves.as_ptr(), count, b, text.as_mut_ptr(), size) };
            (written, text)
        };
        let refused = |refusal: u8| (Written { length: 0, refusal }, [7; 400]);
        let (nan, crossed) = ([f32::NAN; 6], [1.0, 0.0, 0.0, 0.0, 0.0, 0.0]);
        assert_eq!(write(0, &nan, 0), refused(12));
        assert_eq!(write(1, &nan, 0), refused(6));
        assert_eq!(write(1, &crossed, 0), refused(7));
        assert_eq!(write(1, &[0.0; 6], 0), refused(15));
        assert_eq!(write(1, &[0.0; 6], 380), refused(15));
        let (written, text) = write(1, &[0.0; 6], 400);
        assert_eq!(written, Written { length: 381, refusal: 0 });
        assert_eq!((text[380], &text[381..]), (b'\n', &[7; 19][..]));

        let seven = Pose { time: 7.0, matrix: [[7.0; 4]; 4], pad: 7.0 };
        let (mut poses, mut b) = ([seven; FILE_POSES], [7.0; 6]);
        let mut read = |bytes: &[u8]| {
            let read = unsafe { jellyplain_read_file(bytes.as_ptr(), bytes.len(), &mut poses, &mut b) };
            (read, poses, b)
        };
        assert_eq!(read(&text[..380]), (FileRead { count: 0, refusal: 11 }, [seven; FILE_POSES], [7.0; 6]));
        let (read, poses, b) = read(&text[..381]);
        assert_eq!((read, b), (FileRead { count: 2, refusal: 0 }, [0.0; 6]));
        assert_eq!((poses[1].time, poses[1].matrix[0][3], poses[1].matrix[3], poses[1].pad), (1.0, 1.0, IDENTITY[3], 0.0));
        assert_eq!(poses[2..], [seven; FILE_POSES - 2]);
    }

    #[test]
    fn starting_ticks_in_their_places() {
        let mut boxes = [[0.0, 0.0, 0.0, 1.0, 1.0, 1.0]; BOOMS];
        let mut starts = [7; BOOMS];
        let mut ask = |boxes: &[[f32; 6]; BOOMS], lengths: &[u32; BOOMS], count: usize| {
            let number = unsafe { jellyplain_day(boxes, lengths, count, &mut starts) };
            (number, starts)
        };
        for count in [0, 9, usize::MAX] {
            assert_eq!(ask(&boxes, &[1; BOOMS], count), (22, [7; BOOMS]));
        }
        // What stands behind the booms is not looked at.
        boxes[3] = [f32::NAN; 6];
        assert_eq!(ask(&boxes, &[1; BOOMS], 4), (6, [7; BOOMS]));
        assert_eq!(ask(&boxes, &[1, 2, 3, 0, 5, 6, 7, 8], 4), (22, [7; BOOMS]));
        assert_eq!(ask(&boxes, &[1, 2, 1000, 0, 1001, 6, 7, 8], 3), (0, [0, 1, 3, 0, 0, 0, 0, 0]));
    }

    #[test]
    fn reached_rows_in_their_places() {
        let unit = [0.0f32, 0.0, 0.0, 1.0, 1.0, 1.0];
        let (far, nan, crossed) = ([2.0f32, 0.0, 0.0, 3.0, 1.0, 1.0], [f32::NAN; 6], [1.0f32, 0.0, 0.0, 0.0, 1.0, 1.0]);
        let mut places = [7u32; ROWS];
        let mut ask = |cover: &[f32; 6], rows: &[[f32; 6]]| {
            let reached = unsafe { jellyplain_reached_rows(cover, rows.as_ptr(), rows.len(), &mut places) };
            (reached, places)
        };
        let refused = |refusal: u8| (Reached { count: 0, refusal }, [7; ROWS]);
        assert_eq!(ask(&nan, &[]), refused(14));
        assert_eq!(ask(&nan, &[nan; 257]), refused(14));
        assert_eq!(ask(&nan, &[crossed; 256]), refused(6));
        assert_eq!(ask(&crossed, &[nan]), refused(7));
        assert_eq!(ask(&unit, &[unit, far, crossed, nan]), refused(7));
        assert_eq!(ask(&unit, &[unit, nan, crossed]), refused(6));
        let mut last = [unit; 256];
        last[255] = nan;
        assert_eq!(ask(&unit, &last), refused(6));
        // Named in front, 0 behind them.
        let mut two = [0; ROWS];
        (two[0], two[1]) = (1, 3);
        assert_eq!(ask(&unit, &[far, unit, far, [1.0, 1.0, 1.0, 2.0, 2.0, 2.0]]), (Reached { count: 2, refusal: 0 }, two));
        assert_eq!(ask(&unit, &[far; 256]), (Reached { count: 0, refusal: 0 }, [0; ROWS]));
        assert_eq!(ask(&unit, &[unit; 256]), (Reached { count: 256, refusal: 0 }, std::array::from_fn(|i| u32::try_from(i).unwrap())));
        last = [far; 256];
        last[255] = unit;
        let mut one = [0; ROWS];
        one[0] = 255;
        assert_eq!(ask(&unit, &last), (Reached { count: 1, refusal: 0 }, one));
    }

    #[test]
    fn parts_in_their_places() {
        let (nan, crossed) = ([f32::NAN; 6], [1.0f32, 0.0, 0.0, 0.0, 1.0, 1.0]);
        let mut parts = [[7.0; 6]; BOXES];
        let mut ask = |b: &[f32; 6], n: u32| {
            let number = unsafe { jellyplain_cut(b, n, &mut parts) };
            (number, parts)
        };
        for (n, b, number) in [(0, nan, 14), (17, nan, 14), (u32::MAX, nan, 14), (16, nan, 6), (1, crossed, 7)] {
            assert_eq!(ask(&b, n), (number, [[7.0; 6]; BOXES]));
        }
        // Two places are written, and the others stay.
        let mut expected = [[7.0; 6]; BOXES];
        (expected[0], expected[1]) = ([0.0, 0.0, 0.0, 1.0, 1.0, 1.0], [1.0, 0.0, 0.0, 2.0, 1.0, 1.0]);
        assert_eq!(ask(&[0.0, 0.0, 0.0, 2.0, 1.0, 1.0], 2), (0, expected));
    }

    #[test]
    fn masks_in_their_places() {
        let moves = [built()];
        let (near, far) = ([0.0f32, 0.0, 0.0, 0.5, 0.5, 0.5], [3.0f32, 0.0, 0.0, 4.0, 1.0, 1.0]);
        let (nan, crossed, ticks) = ([f32::NAN; 6], [1.0f32, 0.0, 0.0, 0.0, 1.0, 1.0], [0.0, 0.25, 1.0, 2.0]);
        let mut masks = [7u64; ROWS];
        let mut ask = |count: usize, boxes: &[[f32; 6]], depth: u32, ticks: &[f32], rows: &[[f32; 6]]| {
            let number = unsafe {
                jellyplain_moves_reach(
                    moves.as_ptr(),
                    count,
                    boxes.as_ptr(),
                    boxes.len(),
                    depth,
                    ticks.as_ptr(),
                    ticks.len(),
                    rows.as_ptr(),
                    rows.len(),
                    &mut masks,
                )
            };
            (number, masks)
        };
        let refused = |number: u8| (number, [7; ROWS]);
        assert_eq!(ask(0, &[], 13, &[], &[]), refused(12));
        assert_eq!(ask(1, &[], 13, &[], &[nan]), refused(14));
        assert_eq!(ask(1, &[nan; 17], 13, &[], &[nan]), refused(14));
        assert_eq!(ask(1, &[nan; 16], 13, &[], &[]), refused(14));
        assert_eq!(ask(1, &[nan], 13, &[], &[nan; 257]), refused(14));
        assert_eq!(ask(1, &[nan], 13, &[0.0], &[nan; 256]), refused(21));
        assert_eq!(ask(1, &[nan], 13, &[0.0; 65], &[nan]), refused(21));
        assert_eq!(ask(1, &[nan], 13, &[0.0, f32::NAN], &[nan]), refused(21));
        assert_eq!(ask(1, &[near, crossed, nan], 13, &ticks, &[nan]), refused(7));
        assert_eq!(ask(1, &[near], 13, &ticks, &[near, nan, crossed]), refused(6));
        assert_eq!(ask(1, &[near], 13, &ticks, &[near]), refused(8));
        assert_eq!(ask(1, &[near], 0, &[-1.0, 0.0, 1.0], &[near]), refused(10));
        // Two places are written, whatever stood there, and the others stay.
        let mut expected = [7; ROWS];
        (expected[0], expected[1]) = (0, 0b011);
        assert_eq!(ask(1, &[near], 4, &ticks, &[far, [0.25, 0.0, 0.0, 0.5, 1.0, 1.0]]), (0, expected));
    }

    #[test]
    fn version() {
        assert_eq!(unsafe { jellyplain_version() }, crate::VERSION);
    }

    /// Rows that no building made are answered too: here a move at rest whose matrices are all zeros, so that a point's wp is zero.
    #[test]
    fn rows_that_were_not_built() {
        let mut moved = [7.0; 3];
        assert_eq!(unsafe { jellyplain_point(&EMPTY, 0.0, &[1.0; 3], &mut moved) }, 5);
        assert_eq!(moved, [7.0; 3]);
        let nan = [[f32::NAN; 4]; 45];
        assert_eq!(unsafe { jellyplain_cover(&nan, &[0.0; 6], 12, &mut [0.0; 6]) }, 5);
    }
}
