//! The limits that the package exports: what they name is accepted, and one more is refused.

use jellyplain::{
    cut, reached_rows, starting_ticks, Boom, Bounds, Chain, Pose, Refusal, BOOMS, BOXES, DEPTH, IDENTITY, MOVES, POSES, ROWS, RUN_TICKS, TEXT, TICKS, WINDOWS,
};

const UNIT: Bounds = Bounds { p_min: [0.0; 3], p_max: [1.0; 3] };

fn times(count: usize) -> Vec<f32> {
    (0u8..).take(count).map(f32::from).collect()
}

fn chain(count: usize) -> Result<Chain, Refusal> {
    let pose = |&time: &f32| Pose { time, matrix: IDENTITY, pad: 0.0 };
    Chain::new(&times(count).iter().map(pose).collect::<Vec<Pose>>())
}

#[test]
fn limits_are_the_librarys() {
    let longest = chain(POSES).unwrap();
    assert_eq!((longest.moves().len(), chain(POSES + 1).err()), (MOVES, Some(Refusal::Chain)));

    let covers = |count: usize| longest.covers(&vec![UNIT; count], 3).map(|covers| covers.each.len());
    assert_eq!((covers(BOXES), covers(BOXES + 1)), (Ok(BOXES), Err(Refusal::Set)));
    assert_eq!((longest.cover(&UNIT, DEPTH), longest.cover(&UNIT, DEPTH + 1)), (Ok(UNIT), Err(Refusal::Depth)));

    let windows = |count: usize| longest.windows(&longest, &UNIT, &UNIT, 3, &times(count)).map(|windows| windows.len());
    assert_eq!((windows(TICKS), windows(TICKS + 1)), (Ok(WINDOWS), Err(Refusal::Ticks)));

    let starts = |count: usize, ticks: u32| starting_ticks(&vec![Boom { cover: UNIT, ticks }; count]).map(|starts| starts.len());
    assert_eq!((starts(BOOMS, RUN_TICKS), starts(BOOMS + 1, RUN_TICKS)), (Ok(BOOMS), Err(Refusal::Day)));
    assert_eq!(starts(1, RUN_TICKS + 1), Err(Refusal::Day));

    let reached = |count: usize| reached_rows(&UNIT, &vec![UNIT; count]).map(|rows| rows.places().len());
    assert_eq!((reached(ROWS), reached(ROWS + 1)), (Ok(ROWS), Err(Refusal::Set)));

    let parts = |count: usize| cut(&UNIT, u32::try_from(count).unwrap()).map(|parts| parts.len());
    assert_eq!((parts(BOXES), parts(BOXES + 1)), (Ok(BOXES), Err(Refusal::Set)));
    let masks = |boxes: usize, ticks: usize, rows: usize| longest.reach(&vec![UNIT; boxes], 1, &times(ticks), &vec![UNIT; rows]).map(|masks| masks.len());
    assert_eq!((masks(BOXES, TICKS, ROWS), masks(BOXES + 1, TICKS, ROWS)), (Ok(ROWS), Err(Refusal::Set)));
    assert_eq!((masks(BOXES, TICKS, ROWS + 1), masks(BOXES, TICKS + 1, ROWS)), (Err(Refusal::Set), Err(Refusal::Ticks)));

    let written = |bytes: usize| longest.write(&UNIT, &mut vec![0; bytes]).map(str::len);
    assert_eq!((written(TEXT), written(TEXT - 1)), (Ok(TEXT), Err(Refusal::Room)));
}
