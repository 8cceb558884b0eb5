//! Questions for the shortest refused stretch: chains with each fault at each place, with several at once, of either kind, and with more poses than a chain may have.

use super::chains::{at_times, at_whole_times, swing_of_six, Chain, Pose, MOST_POSES};
use super::*;

const KINDS_OF_CHAIN: [&str; 2] = ["plain", "rigid"];

fn ask_stretch<W: Write>(q: &mut Questions<W>, kind: &str, poses: &[Pose]) {
    let values: Vec<f32> = poses.iter().flat_map(|p| [&[p.time], p.matrix.as_slice(), &[p.pad]].concat()).collect();
    q.ask(&format!("stretch {kind}"), &[&values]);
}

fn ask_both<W: Write>(q: &mut Questions<W>, poses: &[Pose]) {
    q.new_case();
    KINDS_OF_CHAIN.iter().for_each(|kind| ask_stretch(q, kind, poses));
}

/// How many faults `spoil_with` knows.
const FAULTS: usize = 10;

/// A fault by its number: 1, 2, 16, 12, 3, 17, 18, 4 of a pose, 5 of a pose, 5 of two.
fn spoil_with(chain: &mut [Pose], fault: usize, place: usize) {
    match fault {
        0 => chain[place].matrix[5] = NAN,
        1 => chain[place].matrix[13] = 1.0,
        2 => chain[place].pad = -1.0,
        3 => chain[place].time = chain[place.saturating_sub(1)].time,
        4 => {
            // The times before the place are far below, the others far above.
            for (i, pose) in chain.iter_mut().enumerate() {
                pose.time = if i < place { -3.3e38 } else { 3e38 } + i as f32 * 1e34;
            }
        }
        5 => (0..3).for_each(|j| chain[place].matrix[j] *= 2.0),
        6 => (0..3).for_each(|i| chain[place].matrix[4 * i] *= -1.0),
        7 => (0..3).for_each(|j| chain[place].matrix[4 + j] = 0.0),
        8 => (0..3).for_each(|j| chain[place].matrix[j] *= 1e-39),
        _ => {
            // Two translations whose difference overflows in the coefficients.
            chain[place].matrix[3] = 3e38;
            chain[place.saturating_sub(1)].matrix[3] = -3e38;
        }
    }
}

fn identities(count: usize) -> Chain {
    at_whole_times(&vec![IDENTITY; count])
}

pub fn fixed<W: Write>(q: &mut Questions<W>) {
    for count in [0, 1, 2, 31, 32, 33, MOST_POSES] {
        ask_both(q, &identities(count));
    }
    for fault in 0..FAULTS {
        for place in 0..6 {
            let mut chain = swing_of_six();
            spoil_with(&mut chain, fault, place);
            ask_both(q, &chain);
        }
        for (count, place) in [(1, 0), (2, 1), (32, 31), (33, 32), (MOST_POSES, 0), (MOST_POSES, MOST_POSES - 1)] {
            let mut chain = identities(count);
            spoil_with(&mut chain, fault, place);
            ask_both(q, &chain);
        }
        // Two of a fault, and each with each other: the number of the first stage, the shortest run, the leftmost.
        for other in 0..FAULTS {
            for (left, right) in [(1, 4), (4, 1), (2, 3)] {
                let mut chain = swing_of_six();
                spoil_with(&mut chain, fault, left);
                spoil_with(&mut chain, other, right);
                ask_both(q, &chain);
            }
        }
    }
    for line in ["stretch", "stretch flat", "stretch 0 plain", "stretch plain 00000000", "stretch rigid x"] {
        q.line(line);
    }
}

pub fn random<W: Write>(q: &mut Questions<W>, r: &mut Random) {
    q.new_case();
    let is_rigid = r.one_in(3);
    let mut chain = if is_rigid { r.rigid_chain() } else { r.chain() };
    if r.one_in(8) && !chain.is_empty() {
        // More than 32.
        let count = 30 + r.below(MOST_POSES - 29);
        let times: Vec<f32> = (0..count).map(|i| i as f32).collect();
        let matrices: Vec<[f32; 16]> = chain.iter().map(|pose| pose.matrix).collect();
        chain = at_times(&times, &matrices);
    }
    for _ in 0..r.below(4) {
        if chain.is_empty() {
            break;
        }
        if r.one_in(2) {
            r.spoil(&mut chain);
        } else {
            let (fault, place) = (r.below(FAULTS), r.below(chain.len()));
            spoil_with(&mut chain, fault, place);
        }
    }
    // Mostly in the kind that it was made for.
    let is_asked_rigid = is_rigid != r.one_in(6);
    ask_stretch(q, KINDS_OF_CHAIN[usize::from(is_asked_rigid)], &chain);
}
