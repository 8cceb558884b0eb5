//! What a chain was written as is read again: the poses that it was built from, pads too, a bottom row's zeros as +0, and the box.

use crate::answer::{lines, poses, questions, words, Kept};
use crate::program::{run, Sides};
use crate::report::Report;

/// A line of the protocol has room for `read` and so many digits; the text of 31 poses has more.
const MOST_DIGITS: usize = 8_000 - 5;

const BOTTOM: [&[u8]; 4] = [b"00000000", b"00000000", b"00000000", b"3f800000"];

/// What reading the text answers, by the question that built the chain and the one that wrote it.
fn expected(built: &[u8], written: &[u8]) -> Option<Vec<u8>> {
    let poses = poses(built)?;
    let count = poses.len().to_string();
    let bounds = words(written).skip(3);
    let poses = poses.iter().flat_map(|pose| [&pose[..13], &BOTTOM, &pose[17..]].concat());
    Some([&b"ok"[..], count.as_bytes()].into_iter().chain(bounds).chain(poses).collect::<Vec<_>>().join(&b' '))
}

pub fn test(sides: &Sides, asked: &[u8], answers: &[u8], report: &mut Report) {
    let mut kept = Kept::default();
    let (mut again, mut wanted) = (Vec::new(), Vec::new());
    for (question, answer) in questions(asked).zip(lines(answers)) {
        kept.note(question, answer);
        let text = answer.strip_prefix(b"ok ").filter(|_| question.starts_with(b"write ")).and_then(|answer| words(answer).nth(1));
        let text = text.filter(|digits| digits.len() <= MOST_DIGITS);
        if let (Some(text), Some(values)) = (text, expected(kept.before(question), question)) {
            again.extend([b"read ", text, b"\n"].concat());
            wanted.push((question, values));
        }
    }
    let run = run(&sides.project, &[], &again);
    let mut read = lines(&run.output);
    for (question, wanted) in wanted {
        let read = read.next().unwrap_or(b"");
        let is_same = run.ended_well && read == wanted;
        report.compared("a text that was written, read again", &wanted, is_same);
        if !is_same {
            report.found("read of what was written", &[("question:", question), ("project:", read), ("poses and box:", &wanted)]);
        }
    }
}
