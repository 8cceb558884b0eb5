use core::fmt;

/// Why a move or a query is refused. The numbers are those that the library and the program `cover` give; a later version may have more, so that a `match` needs an arm for others.
// made by tools/numbers --write
#[derive(Clone, Copy, Debug, PartialEq, Eq, Hash)]
#[non_exhaustive]
#[repr(u8)]
pub enum Refusal {
    /// A matrix entry, a time or a pad of a pose isn't finite. What to do: set that pose again.
    PoseNotFinite = 1,
    /// A bottom row of a pose's matrix isn't 0 0 0 1. What to do: set it so; a file has no bottom rows.
    BottomRow = 2,
    /// The end time is below the start time, or their difference isn't finite. What to do: set the times again.
    Times = 3,
    /// A pose, or a scale on the way, flattens space: it has no inverse. What to do: set a pose that has an inverse.
    ZeroPivot = 4,
    /// Numbers leave the range of floats on the way. What to do: work in larger units, nearer to the origin.
    NotFinite = 5,
    /// The time asked for is NaN, or a coordinate isn't finite. What to do: ask again, with numbers.
    Query = 6,
    /// A least corner of a box is above its greatest corner on some axis. What to do: give the least corner first.
    Corners = 7,
    /// The depth is above 12. What to do: ask with a depth from 0 to 12.
    Depth = 8,
    /// A motion box's search finds more than eight zeros on an axis. What to do: ask for the cover, which has no such limit.
    NinthZero = 9,
    /// A cover's slices are too wide for the rotation in them. What to do: ask with a greater depth, up to 12, or set a pose on the way.
    SquaredLength = 10,
    /// A file departs from its layout. What to do: write it again; `tools/move_file` makes move files.
    File = 11,
    /// A chain has fewer than 2 poses or more than 32, or its times don't rise strictly. What to do: set the times again, or cut the chain in two.
    Chain = 12,
    /// A list of times falls, or the answers lent for it aren't three places a time. What to do: sort the times; lend as many places.
    TimeList = 13,
    /// A set has no box or more than 16, a box is cut into no parts or more than 16, or a list of rows has none or more than 256. What to do: ask with 1 to 16 boxes or parts, and 1 to 256 rows.
    Set = 14,
    /// A buffer is too short for the text of a move file. What to do: lend 126 bytes for each pose and 129 more.
    Room = 15,
    /// A pad is below zero. What to do: set a pad of zero or more.
    Pad = 16,
    /// A pose of a rigid move or chain scales or shears. What to do: build it as plain, or set a pose that only turns and shifts.
    NotRigid = 17,
    /// A pose of a rigid move or chain mirrors: its determinant isn't above zero. What to do: set a pose that doesn't mirror.
    Determinant = 18,
    /// A place is beyond the last pose. What to do: count the places from 0.
    Place = 19,
    /// Two chains to be joined differ in a bit of the pose that they share, a zero's sign too, or in their kind. What to do: hand over both with the very same pose, at its time and with its pad.
    Mismatch = 20,
    /// A tick is NaN, there are fewer than 2 or more than 64, or they don't rise strictly. What to do: sort the ticks, each once, or ask in parts.
    Ticks = 21,
    /// A day has no boom or more than 8, or a run length outside 1 to 1,000 ticks. What to do: ask with 1 to 8 booms; count in longer ticks.
    Day = 22,
}

impl Refusal {
    const ALL: [Refusal; 22] = [
        Refusal::PoseNotFinite,
        Refusal::BottomRow,
        Refusal::Times,
        Refusal::ZeroPivot,
        Refusal::NotFinite,
        Refusal::Query,
        Refusal::Corners,
        Refusal::Depth,
        Refusal::NinthZero,
        Refusal::SquaredLength,
        Refusal::File,
        Refusal::Chain,
        Refusal::TimeList,
        Refusal::Set,
        Refusal::Room,
        Refusal::Pad,
        Refusal::NotRigid,
        Refusal::Determinant,
        Refusal::Place,
        Refusal::Mismatch,
        Refusal::Ticks,
        Refusal::Day,
    ];

    /// What was refused.
    #[must_use]
    pub fn reason(self) -> &'static str {
        match self {
            Refusal::PoseNotFinite => "a matrix entry, a time or a pad of a pose isn't finite",
            Refusal::BottomRow => "a bottom row of a pose's matrix isn't 0 0 0 1",
            Refusal::Times => "the end time is below the start time, or their difference isn't finite",
            Refusal::ZeroPivot => "a pose, or a scale on the way, flattens space: it has no inverse",
            Refusal::NotFinite => "numbers leave the range of floats on the way",
            Refusal::Query => "the time asked for is NaN, or a coordinate isn't finite",
            Refusal::Corners => "a least corner of a box is above its greatest corner on some axis",
            Refusal::Depth => "the depth is above 12",
            Refusal::NinthZero => "a motion box's search finds more than eight zeros on an axis",
            Refusal::SquaredLength => "a cover's slices are too wide for the rotation in them",
            Refusal::File => "a file departs from its layout",
            Refusal::Chain => "a chain has fewer than 2 poses or more than 32, or its times don't rise strictly",
            Refusal::TimeList => "a list of times falls, or the answers lent for it aren't three places a time",
            Refusal::Set => "a set has no box or more than 16, a box is cut into no parts or more than 16, or a list of rows has none or more than 256",
            Refusal::Room => "a buffer is too short for the text of a move file",
            Refusal::Pad => "a pad is below zero",
            Refusal::NotRigid => "a pose of a rigid move or chain scales or shears",
            Refusal::Determinant => "a pose of a rigid move or chain mirrors: its determinant isn't above zero",
            Refusal::Place => "a place is beyond the last pose",
            Refusal::Mismatch => "two chains to be joined differ in a bit of the pose that they share, a zero's sign too, or in their kind",
            Refusal::Ticks => "a tick is NaN, there are fewer than 2 or more than 64, or they don't rise strictly",
            Refusal::Day => "a day has no boom or more than 8, or a run length outside 1 to 1,000 ticks",
        }
    }
}
// end of what tools/numbers makes

impl Refusal {
    /// Its number, as C has it.
    #[must_use]
    pub fn number(self) -> u8 {
        self as u8
    }

    /// The refusal of a number, or none for 0 and for a number that is given nowhere.
    #[must_use]
    pub fn from_number(number: u8) -> Option<Refusal> {
        Refusal::ALL.into_iter().find(|refusal| refusal.number() == number)
    }
}

impl fmt::Display for Refusal {
    fn fmt(&self, f: &mut fmt::Formatter<'_>) -> fmt::Result {
        write!(f, "refused with {}: {}", self.number(), self.reason())
    }
}

impl core::error::Error for Refusal {}

#[cfg(test)]
mod tests {
    use super::*;

    #[test]
    fn numbers() {
        assert!(Refusal::ALL.into_iter().all(|refusal| Refusal::from_number(refusal.number()) == Some(refusal)));
        assert_eq!((Refusal::from_number(0), Refusal::from_number(255)), (None, None));
    }
}
