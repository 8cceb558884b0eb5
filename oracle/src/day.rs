//! A day of booms, tick by tick, as document 02 tells it.

use crate::judged::Judged;
use crate::refusal;

/// The most booms of a day, and the most ticks of a run.
pub const MOST_BOOMS: usize = 8;
pub const MOST_TICKS: u64 = 1000;

/// A chain's cover, given as its two corners, and a run length in ticks.
pub struct Boom {
    pub cover: [f32; 6],
    pub ticks: u64,
}

#[derive(Clone, Copy, PartialEq)]
enum State {
    Waiting,
    /// In which tick the run is over.
    Running(u64),
    Stopped,
}

/// Whether two boxes meet, touching included, on all three axes.
pub fn meet(a: &[f32; 6], b: &[f32; 6]) -> bool {
    (0..3).all(|axis| !(a[axis + 3] < b[axis] || b[axis + 3] < a[axis]))
}

fn judge(booms: &[Boom]) -> Judged<()> {
    if booms.is_empty() || booms.len() > MOST_BOOMS || booms.iter().any(|boom| !(1..=MOST_TICKS).contains(&boom.ticks)) {
        return Err(refusal::DAY);
    }
    for Boom { cover, .. } in booms {
        if !cover.iter().all(|x| x.is_finite()) {
            return Err(refusal::QUERY);
        }
        if (0..3).any(|axis| cover[axis] > cover[axis + 3]) {
            return Err(refusal::CORNERS);
        }
    }
    Ok(())
}

/// Each boom's starting tick, in list order.
pub fn starting_ticks(booms: &[Boom]) -> Judged<Vec<u64>> {
    judge(booms)?;
    let mut states = vec![State::Waiting; booms.len()];
    let mut starts = vec![0; booms.len()];
    let mut tick = 0;
    while states.contains(&State::Waiting) {
        for state in &mut states {
            if *state == State::Running(tick) {
                *state = State::Stopped;
            }
        }
        for (i, boom) in booms.iter().enumerate() {
            let meets_running = booms.iter().zip(&states).any(|(other, state)| matches!(state, State::Running(_)) && meet(&boom.cover, &other.cover));
            if states[i] == State::Waiting && !meets_running {
                states[i] = State::Running(tick + boom.ticks);
                starts[i] = tick;
            }
        }
        tick += 1;
    }
    Ok(starts)
}

#[cfg(test)]
mod tests {
    use super::*;

    /// Booms along x, each from its first number to its second, and a run length.
    fn starts(booms: &[(f32, f32, u64)]) -> Judged<Vec<u64>> {
        starting_ticks(&booms.iter().map(|&(low, high, ticks)| Boom { cover: [low, 0.0, 0.0, high, 0.0, 0.0], ticks }).collect::<Vec<_>>())
    }

    #[test]
    fn the_waiting_ones_are_taken_in_list_order() {
        assert_eq!(starts(&[(0.0, 1.0, 3), (0.5, 2.0, 2), (1.5, 3.0, 4)]), Ok(vec![0, 4, 0]));
        assert_eq!(starts(&[(0.0, 1.0, 3), (0.5, 2.0, 2), (2.0, 3.0, 4), (0.0, 0.25, 1)]), Ok(vec![0, 4, 0, 3]));
        // The second waits for the first, and the third, which touches the second alone, does not wait for it.
        assert_eq!(starts(&[(0.0, 1.0, 1000), (1.0, 2.0, 1000), (2.0, 3.0, 1)]), Ok(vec![0, 1000, 0]));
    }

    #[test]
    fn what_is_refused() {
        assert_eq!(starts(&[]), Err(22));
        assert_eq!(starts(&[(0.0, 1.0, 1); 8]), Ok((0..8).collect()));
        assert_eq!(starts(&[(0.0, 1.0, 1); 9]), Err(22));
        assert_eq!(starts(&[(f32::NAN, 1.0, 1), (0.0, 1.0, 0)]), Err(22));
        assert_eq!(starts(&[(0.0, 1.0, 1001)]), Err(22));
        assert_eq!(starts(&[(2.0, 1.0, 1), (f32::NAN, 1.0, 1)]), Err(7));
        assert_eq!(starts(&[(f32::NAN, 1.0, 1), (2.0, 1.0, 1)]), Err(6));
    }
}
