//! The refusal numbers of documents 01 and 02.

/// Building: a matrix entry, a time or a pad is not finite.
pub const POSE_NOT_FINITE: u8 = 1;
/// Building: a bottom row is not 0, 0, 0, 1.
pub const BOTTOM_ROW: u8 = 2;
/// Building: the end time is below the start time, or their difference is not finite.
pub const TIMES: u8 = 3;
/// A chosen pivot is zero.
pub const ZERO_PIVOT: u8 = 4;
/// A finished matrix, quaternion, dot product, coefficient set or answer is not finite; in a cover, any interval end.
pub const NOT_FINITE: u8 = 5;
/// A query's time is NaN, or a coordinate is not finite.
pub const QUERY: u8 = 6;
/// A least corner is above its greatest corner.
pub const CORNERS: u8 = 7;
/// A depth above 12.
pub const DEPTH: u8 = 8;
/// A ninth zero would be stored.
pub const NINTH_ZERO: u8 = 9;
/// In a cover's slerp, the low end of a squared length to be rooted is zero or below.
pub const SQUARED_LENGTH: u8 = 10;
/// A file departs from its layout.
pub const FILE: u8 = 11;
/// Fewer than 2 poses, more than 32, or times that don't rise strictly.
pub const CHAIN: u8 = 12;
/// A list of times that falls, or answers that aren't three places a time.
pub const TIME_LIST: u8 = 13;
/// A set of no boxes, or of more than 16; no rows, or more than 256.
pub const SET: u8 = 14;
/// A buffer too short for the text of a file.
pub const ROOM: u8 = 15;
/// A pose's pad is below zero.
pub const PAD: u8 = 16;
/// A pose of a rigid chain or move scales or shears.
pub const NOT_RIGID: u8 = 17;
/// A pose of a rigid chain or move has a determinant that isn't above zero.
pub const DETERMINANT: u8 = 18;
/// A trial: a place beyond the last pose.
pub const PLACE: u8 = 19;
/// Two chains to be joined whose shared pose differs in a bit, or their kinds.
pub const MISMATCH: u8 = 20;
/// Ticks that are NaN, too few, too many or not rising.
pub const TICKS: u8 = 21;
/// A day of no boom, or of more than 8, or a run length outside 1 to 1,000.
pub const DAY: u8 = 22;
