//! Two chains made one, tested from outside: the joined chain answers as the chain of all poses does, up to the shared time as the first, above it as the second, and its cover is the
//! union of theirs, the first refusal standing. `vectors joins` asks each question of the slots 2, 3, 0 and 1 in turn: the joined chain, that of all poses, the first and the second.

use crate::answer::{accepted, float, lines, poses, questions, words, write_float};
use crate::report::Report;

/// The slots in the order in which they are asked.
const ASKED: [&[u8]; 4] = [b"2", b"3", b"0", b"1"];

fn box_of(answer: &[u8]) -> Option<[f32; 6]> {
    accepted(answer)?.first().copied()
}

/// The union of two covers, or the first refusal.
fn union(first: &[u8], second: &[u8]) -> Vec<u8> {
    let (Some(a), Some(b)) = (box_of(first), box_of(second)) else {
        return if first.starts_with(b"ok") { second.to_vec() } else { first.to_vec() };
    };
    let united = (0..6).map(|i| if i < 3 { a[i].min(b[i]) } else { a[i].max(b[i]) });
    united.fold(b"ok".to_vec(), |mut line, x| {
        write_float(&mut line, x);
        line
    })
}

/// What the joined chain has to answer by the two chains' answers, where that follows from one question of each.
fn expected(question: &[u8], shared: f32, first: &[u8], second: &[u8]) -> Option<Vec<u8>> {
    let mut values = words(question);
    match values.next()? {
        b"cpoint" | b"cpad" => {
            let time = float(values.nth(1)?)?;
            Some(if time <= shared { first.to_vec() } else { second.to_vec() })
        }
        b"ccover" => Some(union(first, second)),
        _ => None,
    }
}

/// The time of a built chain's last pose.
fn last_time(question: &[u8]) -> Option<f32> {
    float(poses(question)?.last()?[0])
}

pub fn test(asked: &[u8], answers: &[u8], report: &mut Report) {
    let lines: Vec<(&[u8], &[u8])> = questions(asked).zip(lines(answers)).collect();
    let (mut first, mut shared, mut is_whole) = (None, None, false);
    let mut count: &[u8] = b"";
    for (place, (question, answer)) in lines.iter().copied().enumerate() {
        if question.starts_with(b"chain 0 ") {
            (first, shared, is_whole) = (last_time(question), None, false);
        } else if question.starts_with(b"chain 1 ") {
            (shared, is_whole) = (None, false);
        } else if question == b"join 2 0 1" {
            (shared, is_whole) = (first.filter(|_| answer.starts_with(b"ok ")), false);
            count = answer;
        } else if question.starts_with(b"join ") {
            (first, shared) = (None, None);
        } else if question.starts_with(b"chain 3 ") {
            is_whole = answer.starts_with(b"ok ");
            if shared.is_some() {
                check(report, "a joined chain and that of all poses", question, count, answer, count == answer);
            }
        }
        let asks: Vec<_> = lines[place..].iter().take(4).collect();
        let slot = |question: &[u8]| words(question).nth(1).unwrap_or(b"").to_vec();
        let is_group = asks.len() == 4
            && asks.iter().zip(ASKED).all(|((question, _), asked)| slot(question) == asked && question[0] == b'c' && !question.starts_with(b"chain"));
        let (Some(shared), true) = (shared, is_group) else { continue };
        if is_whole {
            check(report, "a joined chain and that of all poses", question, answer, asks[1].1, answer == asks[1].1);
        }
        if let Some(expected) = expected(question, shared, asks[2].1, asks[3].1) {
            check(report, "a joined chain and the two", question, answer, &expected, answer == expected);
        }
    }
}

fn check(report: &mut Report, row: &'static str, question: &[u8], answer: &[u8], expected: &[u8], is_same: bool) {
    report.compared(row, expected, is_same);
    if !is_same {
        report.found(row, &[("question:", question), ("project:", answer), ("expected:", expected)]);
    }
}
