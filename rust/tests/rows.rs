//! The rows that a boom reaches.

use jellyplain::{reached_rows, version, Bounds, Chain, Pose, Refusal, IDENTITY};

/// A row from one place to another along x.
fn row(low: f32, high: f32) -> Bounds {
    Bounds { p_min: [low, 0.0, 0.0], p_max: [high, 1.0, 1.0] }
}

const NAN: Bounds = Bounds { p_min: [f32::NAN; 3], p_max: [1.0; 3] };

#[test]
fn rows_that_touch_are_named() {
    let cover = row(0.0, 2.0);
    let rows = [row(-1.0, -0.0), row(f32::from_bits(2.0f32.to_bits() + 1), 3.0), row(0.5, 0.75), row(2.0, 2.0), row(-2.0, -f32::from_bits(1)), row(-1.0, 3.0)];
    let reached = reached_rows(&cover, &rows).unwrap();
    assert_eq!(reached.places(), [0, 2, 3, 5]);
    for (place, row) in rows.iter().enumerate() {
        assert_eq!(reached.contains(place), row.p_min[0] <= 2.0 && 0.0 <= row.p_max[0]);
    }
    assert!(!reached.contains(usize::MAX));
}

/// As many rows as a line of the test programs has no room for.
#[test]
fn many_rows() {
    let cover = row(100.0, 200.0);
    for count in 146..=256 {
        let rows: Vec<Bounds> = (0..count).map(|i| row(i as f32, i as f32 + 0.5)).collect();
        let met: Vec<u32> = (100..count.min(201)).collect();
        assert_eq!(reached_rows(&cover, &rows).unwrap().places(), met);
        assert_eq!(reached_rows(&row(-1.0, 300.0), &rows).unwrap().places(), (0..count).collect::<Vec<u32>>());
        assert_eq!(reached_rows(&row(-2.0, -1.0), &rows).unwrap().places(), []);
    }
}

#[test]
fn refused_rows() {
    let refused = |cover: &Bounds, rows: &[Bounds]| reached_rows(cover, rows).err();
    let (good, crossed) = (row(0.0, 1.0), row(1.0, 0.0));
    assert_eq!(refused(&NAN, &[]), Some(Refusal::Set));
    for count in [257, 258, 1000] {
        assert_eq!(refused(&NAN, &vec![NAN; count]), Some(Refusal::Set));
        assert_eq!(refused(&good, &vec![good; count]), Some(Refusal::Set));
    }
    assert_eq!(refused(&NAN, &[crossed; 256]), Some(Refusal::Query));
    assert_eq!(refused(&crossed, &[NAN]), Some(Refusal::Corners));
    assert_eq!(refused(&good, &[good, crossed, NAN]), Some(Refusal::Corners));
    assert_eq!(refused(&good, &[good, NAN, crossed]), Some(Refusal::Query));
    for place in 146..256 {
        let mut rows = [good; 256];
        rows[place] = crossed;
        assert_eq!(refused(&good, &rows), Some(Refusal::Corners));
    }
}

/// What is promised: points of the boom, less and plus the pad, are in no row that is not named.
#[test]
fn rows_that_are_not_named_stay_dry() {
    let pose = |time: f32, x: f32, pad: f32| {
        let mut matrix = IDENTITY;
        (matrix[0], matrix[1]) = ([0.0, -1.0, 0.0, x], [1.0, 0.0, 0.0, x]);
        Pose { time, matrix: if time > 0.0 { matrix } else { IDENTITY }, pad }
    };
    let chain = Chain::new(&[pose(0.0, 0.0, 0.0), pose(1.0, 3.0, 0.5), pose(3.0, 5.0, 0.25)]).unwrap();
    let boom = Bounds { p_min: [0.0, 0.0, 0.0], p_max: [2.0, 0.5, 1.0] };
    let cover = chain.cover(&boom, 10).unwrap();
    let rows: Vec<Bounds> = (0..256).map(|i| Bounds { p_min: [(i as f32 - 128.0) / 8.0, -40.0, 0.0], p_max: [(i as f32 - 127.5) / 8.0, 40.0, 1.0] }).collect();
    let reached = reached_rows(&cover, &rows).unwrap();
    assert!(!reached.places().is_empty() && reached.places().len() < rows.len());
    for k in -8..40 {
        let time = k as f32 / 8.0;
        let pad = chain.pad(time).unwrap();
        for p in [[0.0, 0.0, 0.0], [2.0, 0.5, 1.0], [2.0, 0.0, 0.5], [1.0, 0.25, 0.0]] {
            let q = chain.point(time, p).unwrap();
            for (place, row) in rows.iter().enumerate() {
                let is_wet = (0..3).all(|i| row.p_min[i] <= q[i] + pad && q[i] - pad <= row.p_max[i]);
                assert!(!is_wet || reached.contains(place), "row {place} at {time}");
            }
        }
    }
}

#[test]
fn the_version() {
    assert_eq!(version(), 20_000);
}
