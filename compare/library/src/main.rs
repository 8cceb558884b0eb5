//! What no question of the programs asks, through the library: the transform of a chain at a time, and what a chain holds. Read are the questions of the oracle's `vectors chains` and
//! `vectors rigid` on standard input: each chain in them is built on both sides, and at each time at which a point of it is asked, and at each of its poses' times, its transform is asked of both.
//!
//! Compared are the numbers and every bit of both halves. Where the transform is answered, pbrt's `transform_point` of it has to be what the library's point query answers, bit for bit, or both are
//! refused with 5. Of each chain the number of its poses, its first and last time, its kind and each pose have to be those that it was built from.
//! Exit status: 0 no difference, 1 a difference, 2 nothing was asked.

use jellyplain::{Chain, Pose};
use oracle::chain;
use oracle::core::geometry::point::Point3f;
use oracle::core::transform::{Matrix4x4, Transform};
use oracle::judged::{point_values, Kind};
use std::io::BufRead;

#[derive(Default)]
struct Counts {
    chains: u64,
    refused_chains: u64,
    transforms: u64,
    refused: [u64; 32],
    points: u64,
    refused_points: u64,
    answered_points_alone: u64,
    poses: u64,
    different: u64,
}

impl Counts {
    fn expect(&mut self, same: bool, what: &str, line: &str) {
        if !same {
            self.different += 1;
            if self.different <= 10 {
                println!("different: {what}: {line}");
            }
        }
    }
}

fn floats<'a>(words: impl Iterator<Item = &'a str>) -> Option<Vec<f32>> {
    words.map(|word| (word.len() == 8).then(|| u32::from_str_radix(word, 16).ok().map(f32::from_bits)).flatten()).collect()
}

fn bits(values: &[f32]) -> Vec<u32> {
    values.iter().map(|x| x.to_bits()).collect()
}

fn halves(t: &Transform) -> Vec<u32> {
    bits(&[t.m.m.as_flattened(), t.m_inv.m.as_flattened()].concat())
}

/// The number of a refusal, 0 for none.
fn number<T>(answer: &Result<T, jellyplain::Refusal>) -> u8 {
    answer.as_ref().err().map_or(0, |refusal| refusal.number())
}

/// pbrt's `transform_point` of a matrix whose bottom row is 0 0 0 1, or none where a coordinate isn't finite.
fn applied(m: &[[f32; 4]; 4], p: [f32; 3]) -> Option<[f32; 3]> {
    let row = |r: [f32; 4]| p[0] * r[0] + p[1] * r[1] + p[2] * r[2] + r[3];
    let (q, w) = ([row(m[0]), row(m[1]), row(m[2])], row(m[3]));
    let q = if w == 1.0 { q } else { q.map(|x| x / w) };
    q.iter().all(|x| x.is_finite()).then_some(q)
}

struct Built {
    port: Chain,
    original: chain::Chain,
}

fn build(counts: &mut Counts, rigid: bool, values: &[f32], line: &str) -> Option<Built> {
    let poses: Vec<Pose> = values
        .chunks_exact(18)
        .map(|v| Pose { time: v[0], matrix: std::array::from_fn(|i| std::array::from_fn(|j| v[1 + 4 * i + j])), pad: v[17] })
        .collect();
    let others: Vec<chain::Pose> = poses.iter().map(|p| chain::Pose { time: p.time, matrix: Matrix4x4 { m: p.matrix }, pad: p.pad }).collect();
    let port = if rigid { Chain::rigid(&poses) } else { Chain::new(&poses) };
    let original = chain::Chain::build(if rigid { Kind::Rigid } else { Kind::Plain }, &others);
    counts.chains += 1;
    counts.expect(u64::from(number(&port)) == original.as_ref().err().map_or(0, |n| u64::from(*n)), "building", line);
    let (Ok(port), Ok(original)) = (port, original) else {
        counts.refused_chains += 1;
        return None;
    };
    let held = port.held().ok();
    let ends = [poses[0].time, poses[poses.len() - 1].time];
    counts.expect(held.is_some_and(|h| h.poses == poses.len() && bits(&[h.first, h.last]) == bits(&ends) && h.rigid == rigid), "what is held", line);
    for (place, pose) in poses.iter().enumerate() {
        let flat = |p: &Pose| bits(&[&[p.time], p.matrix.as_flattened(), &[p.pad]].concat());
        counts.poses += 1;
        counts.expect(port.pose(place).is_ok_and(|kept| flat(&kept) == flat(pose)), "a pose", line);
    }
    counts.expect(number(&port.pose(poses.len())) == 19, "a place beyond the last pose", line);
    for pose in &poses {
        ask(counts, &Built { port: port.clone(), original: original.clone() }, pose.time, [1.0, -2.0, 0.5], line);
    }
    Some(Built { port, original })
}

fn ask(counts: &mut Counts, built: &Built, time: f32, p: [f32; 3], line: &str) {
    let (port, original) = (built.port.interpolate(time), built.original.interpolate(time));
    counts.transforms += 1;
    counts.refused[usize::from(number(&port))] += 1;
    counts.expect(u64::from(number(&port)) == original.as_ref().err().map_or(0, |n| u64::from(*n)), "the transform's number", line);
    let moved = built.port.point(time, p);
    let Ok(port) = port else {
        counts.answered_points_alone += u64::from(moved.is_ok());
        return;
    };
    if let Ok(original) = &original {
        counts.expect(bits(&[port.matrix.as_flattened(), port.inverse.as_flattened()].concat()) == halves(original), "the transform", line);
    }
    if !p.iter().all(|x| x.is_finite()) {
        return;
    }
    counts.points += 1;
    match (applied(&port.matrix, p), &moved) {
        (Some(q), Ok(moved)) => counts.expect(bits(&q) == bits(moved), "the point", line),
        (None, answer) => {
            counts.refused_points += 1;
            counts.expect(number(answer) == 5, "a point that isn't finite", line);
        }
        (Some(_), Err(_)) => counts.expect(false, "a point that is refused", line),
    }
    let original = built.original.transform_point(time, &Point3f::new(p[0], p[1], p[2]));
    counts.expect(moved.ok().map(|q| bits(&q)) == original.ok().map(|q| bits(&point_values(&q))), "the original's point", line);
}

fn main() {
    let mut counts = Counts::default();
    let mut slots: [Option<Built>; 4] = Default::default();
    for line in std::io::stdin().lock().lines().map_while(Result::ok) {
        let mut words = line.split(' ');
        let (name, slot) = (words.next().unwrap_or(""), words.next().and_then(|s| s.parse::<usize>().ok()).filter(|s| *s < 4));
        let Some(slot) = slot else { continue };
        match name {
            "chain" => {
                let kind = words.next();
                let Some(values) = floats(words).filter(|v| v.len() % 18 == 0) else { continue };
                slots[slot] = match kind {
                    Some("plain") => build(&mut counts, false, &values, &line),
                    Some("rigid") => build(&mut counts, true, &values, &line),
                    _ => continue,
                };
            }
            "lone" | "join" => slots[slot] = None,
            "cpoint" => {
                let (Some(values), Some(built)) = (floats(words), &slots[slot]) else { continue };
                let [time, x, y, z] = values[..] else { continue };
                ask(&mut counts, built, time, [x, y, z], &line);
            }
            _ => {}
        }
    }
    println!("chains {} (refused {}), poses {}", counts.chains, counts.refused_chains, counts.poses);
    let refused: Vec<String> = (1..32).filter(|n| counts.refused[*n] > 0).map(|n| format!("{n}: {}", counts.refused[n])).collect();
    println!("transforms {} (refused {}; of these {} where the point is answered)", counts.transforms, refused.join(", "), counts.answered_points_alone);
    println!("points beside them {} (not finite on both sides {})", counts.points, counts.refused_points);
    println!("different {}", counts.different);
    std::process::exit(if counts.transforms == 0 { 2 } else { i32::from(counts.different > 0) });
}
