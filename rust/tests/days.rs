//! Days of booms.

use jellyplain::{starting_ticks, Boom, Bounds, Refusal};

/// A boom from one place to another along x, and its run length.
fn boom(low: f32, high: f32, ticks: u32) -> Boom {
    Boom { cover: Bounds { p_min: [low, 0.0, 0.0], p_max: [high, 1.0, 1.0] }, ticks }
}

#[test]
fn booms_that_meet_wait_for_each_other() {
    assert_eq!(starting_ticks(&[boom(0.0, 2.0, 30), boom(2.0, 4.0, 20), boom(5.0, 6.0, 10)]).unwrap(), [0, 30, 0]);
    assert_eq!(starting_ticks(&[boom(0.0, 2.0, 30), boom(1.0, 5.0, 20), boom(4.5, 6.0, 10)]).unwrap(), [0, 30, 0]);
    assert_eq!(starting_ticks(&[boom(0.0, 1.0, 1000); 8]).unwrap(), [0, 1000, 2000, 3000, 4000, 5000, 6000, 7000]);
}

/// No two that run meet, and each starts in time.
#[test]
fn what_is_promised() {
    let booms: Vec<Boom> = (0..8u32).map(|i| boom((i * 3 % 8) as f32, (i * 3 % 8 + 2) as f32, 1 + 7 * i % 10)).collect();
    let starts = starting_ticks(&booms).unwrap();
    let all: u32 = booms.iter().map(|b| b.ticks).sum();
    for (b, start) in booms.iter().zip(&starts) {
        assert!(start + b.ticks <= all);
        for (other, later) in booms.iter().zip(&starts) {
            let meet = b.cover.p_min[0] <= other.cover.p_max[0] && other.cover.p_min[0] <= b.cover.p_max[0];
            assert!(b == other || !meet || start + b.ticks <= *later || later + other.ticks <= *start);
        }
    }
}

#[test]
fn refused_days() {
    let refused = |booms: &[Boom]| starting_ticks(booms).err();
    assert_eq!(refused(&[]), Some(Refusal::Day));
    assert_eq!(refused(&[boom(0.0, 1.0, 1); 9]), Some(Refusal::Day));
    assert_eq!(refused(&[boom(f32::NAN, 1.0, 1), boom(0.0, 1.0, 0)]), Some(Refusal::Day));
    assert_eq!(refused(&[boom(0.0, 1.0, 1001)]), Some(Refusal::Day));
    assert_eq!(refused(&[boom(0.0, 1.0, 1), boom(2.0, 1.0, 1), boom(f32::NAN, 1.0, 1)]), Some(Refusal::Corners));
    assert_eq!(refused(&[boom(f32::INFINITY, 1.0, 1), boom(2.0, 1.0, 1)]), Some(Refusal::Query));
}
