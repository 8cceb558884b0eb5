//! What is promised of a day of booms, tested from outside: no two that run have boxes that meet, and each starts no later than the sum of the others' run lengths.

use crate::answer::{float, lines, questions, text, words};
use crate::report::Report;

struct Boom {
    cover: [f32; 6],
    ticks: u64,
    start: u64,
}

fn whole(word: &[u8]) -> Option<u64> {
    text(word).parse().ok()
}

/// The booms of a question with their starting ticks; none where the day isn't accepted.
fn accepted(question: &[u8], answer: &[u8]) -> Option<Vec<Boom>> {
    let asked: Vec<&[u8]> = words(question).collect();
    let mut starts = words(answer.strip_prefix(b"ok ")?).map(whole);
    let booms = asked.strip_prefix(&[b"day".as_slice()])?.chunks(7).map(|boom| {
        let values = boom[..6].iter().map(|word| float(&word.to_ascii_lowercase())).collect::<Option<Vec<f32>>>()?;
        Some(Boom { cover: values.try_into().ok()?, ticks: whole(boom.get(6)?)?, start: starts.next()?? })
    });
    booms.collect()
}

fn meet(a: &Boom, b: &Boom) -> bool {
    (0..3).all(|axis| a.cover[axis] <= b.cover[axis + 3] && b.cover[axis] <= a.cover[axis + 3])
}

fn run_together(a: &Boom, b: &Boom) -> bool {
    a.start < b.start + b.ticks && b.start < a.start + a.ticks
}

/// Tests every accepted day.
pub fn test(asked: &[u8], answers: &[u8], report: &mut Report) {
    for (question, answer) in questions(asked).zip(lines(answers)) {
        let Some(booms) = accepted(question, answer) else { continue };
        report.days += 1;
        let all: u64 = booms.iter().map(|boom| boom.ticks).sum();
        let meets = (0..booms.len()).any(|i| booms[..i].iter().any(|other| meet(&booms[i], other) && run_together(&booms[i], other)));
        let late = booms.iter().any(|boom| all - boom.ticks < boom.start);
        if meets || late {
            report.days_broken += 1;
            let title = if meets { "day: two booms that run meet" } else { "day: a boom starts late" };
            report.found(title, &[("", question), ("project:", answer)]);
        }
    }
}
