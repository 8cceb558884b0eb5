//! A pose that is tried shows what a changed copy answers, in every bit, and leaves the chain as it was: the copy is built and asked by the project too.

use crate::answer::{lines, poses, questions, words, Kept};
use crate::program::{run, Sides};
use crate::report::Report;

/// The numbers and the floats of a question `try S PLACE D P BOX`.
struct Trial<'a> {
    slot: &'a [u8],
    place: usize,
    depth: &'a [u8],
    pose: Vec<&'a [u8]>,
    bounds: Vec<&'a [u8]>,
}

fn trial(question: &[u8]) -> Option<Trial<'_>> {
    let words: Vec<&[u8]> = words(question).collect();
    match words.as_slice() {
        [b"try", slot, place, depth, values @ ..] if values.len() == 24 => {
            let place = std::str::from_utf8(place).ok()?.parse().ok()?;
            Some(Trial { slot, place, depth, pose: values[..18].to_vec(), bounds: values[18..].to_vec() })
        }
        _ => None,
    }
}

/// The question that builds the changed copy, in another slot; none for a place beyond the last pose.
fn changed(built: &[u8], trial: &Trial) -> Option<(Vec<u8>, Vec<u8>)> {
    let mut poses = poses(built)?;
    *poses.get_mut(trial.place)? = trial.pose.clone();
    let kind = words(built).nth(2)?;
    let slot: &[u8] = if trial.slot == b"3" { b"0" } else { b"3" };
    let values = poses.into_iter().flatten();
    Some((slot.to_vec(), [b"chain", slot, kind].into_iter().chain(values).collect::<Vec<_>>().join(&b' ')))
}

fn cover(slot: &[u8], trial: &Trial) -> Vec<u8> {
    [b"ccover", slot, trial.depth].into_iter().chain(trial.bounds.iter().copied()).collect::<Vec<_>>().join(&b' ')
}

pub fn test(sides: &Sides, asked: &[u8], answers: &[u8], report: &mut Report) {
    let mut kept = Kept::default();
    let (mut text, mut tried) = (Vec::new(), Vec::new());
    for (question, answer) in questions(asked).zip(lines(answers)) {
        let built = kept.before(question);
        kept.note(question, answer);
        let Some(trial) = trial(question).filter(|_| answer != b"error") else { continue };
        let old = cover(trial.slot, &trial);
        let mut group = vec![built.to_vec(), old.clone(), question.to_vec(), old];
        if let Some((slot, copy)) = changed(built, &trial) {
            group.extend([copy, cover(&slot, &trial)]);
        }
        tried.push((question, group.len()));
        text.extend([group.join(&b'\n'), b"\n".to_vec()].concat());
    }
    let run = run(&sides.project, &[], &text);
    let mut answered = lines(&run.output);
    for (question, count) in tried {
        let group: Vec<&[u8]> = answered.by_ref().take(count).collect();
        let (shown, copy) = match group.as_slice() {
            [_, _, shown, _] => (*shown, b"refused 19".as_slice()),
            [_, _, shown, _, built, cover] => (*shown, if built.starts_with(b"ok") { *cover } else { *built }),
            _ => (b"".as_slice(), b"every answer".as_slice()),
        };
        let is_same = run.ended_well && shown == copy && group[1] == group[3];
        report.compared("a pose tried, and a copy changed", copy, is_same);
        if !is_same {
            report.found("a trial is not what a changed copy answers", &[("question:", question), ("project:", shown), ("copy:", copy)]);
        }
    }
}
