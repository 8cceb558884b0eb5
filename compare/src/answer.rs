//! Lines of questions and answers (the protocol is that of `answers` and `chain_answers`): when two answers are the same, and the floats in them.

/// The lines of a text, each without its line feed.
pub fn lines(text: &[u8]) -> impl Iterator<Item = &[u8]> {
    let text = text.strip_suffix(b"\n").unwrap_or(text);
    // The empty text has no line.
    let count = if text.is_empty() { 0 } else { usize::MAX };
    text.split(|byte| *byte == b'\n').take(count)
}

/// The lines that are answered: an empty line and a comment are not.
pub fn questions(text: &[u8]) -> impl Iterator<Item = &[u8]> {
    lines(text).filter(|line| !line.is_empty() && line[0] != b'#')
}

pub fn words(line: &[u8]) -> impl Iterator<Item = &[u8]> {
    line.split(|byte| *byte == b' ')
}

/// Bytes of two hexadecimal digits each.
pub fn bytes(digits: &[u8]) -> Option<Vec<u8>> {
    let (pairs, []) = digits.as_chunks::<2>() else { return None };
    let digit = |byte: u8| (byte as char).to_digit(16);
    pairs.iter().map(|[high, low]| Some((16 * digit(*high)? + digit(*low)?) as u8)).collect()
}

pub fn text(line: &[u8]) -> String {
    String::from_utf8_lossy(line).into_owned()
}

/// The poses of a question that builds, each its time, 16 entries and pad as words: of `move`, whose pads are +0, or of `chain` and `lone`.
pub fn poses<'a>(question: &'a [u8]) -> Option<Vec<Vec<&'a [u8]>>> {
    let words: Vec<&'a [u8]> = words(question).collect();
    let (values, size) = match words.as_slice() {
        [b"move", values @ ..] if values.len() == 34 => (values, 17),
        [b"chain" | b"lone", _, _, values @ ..] => (values, 18),
        _ => return None,
    };
    let padded = |pose: &[&'a [u8]]| pose.iter().copied().chain((size == 17).then_some(b"00000000".as_slice())).collect();
    values.len().is_multiple_of(size).then(|| values.chunks(size).map(padded).collect())
}

/// A move or chain is built.
pub fn builds(question: &[u8]) -> bool {
    matches!(words(question).next(), Some(b"move" | b"chain" | b"lone"))
}

/// What a program keeps between questions, by the questions that built it: a move, or chains in four slots.
#[derive(Default)]
pub struct Kept<'a>([&'a [u8]; 5]);

impl<'a> Kept<'a> {
    /// The place that a question fills or asks about: the move's, or that of the slot which its second word names.
    fn place(question: &[u8]) -> usize {
        let mut words = words(question);
        match (words.next(), words.next()) {
            (
                Some(
                    b"chain" | b"lone" | b"join" | b"cpoint" | b"ctimes" | b"ccover" | b"cset" | b"cpad" | b"cinterp" | b"cparts" | b"cmotion" | b"cpmotion"
                    | b"write" | b"try" | b"wcover" | b"windows" | b"reach",
                ),
                Some([slot @ b'0'..=b'3']),
            ) => 1 + usize::from(slot - b'0'),
            _ => 0,
        }
    }

    /// The question by which was built what a question is about; empty for one that builds.
    pub fn before(&self, question: &[u8]) -> &'a [u8] {
        if builds(question) {
            b""
        } else {
            self.0[Kept::place(question)]
        }
    }

    /// A slot that was joined into keeps nothing that one question built.
    pub fn note(&mut self, question: &'a [u8], answer: &[u8]) {
        let is_join = question.starts_with(b"join ");
        if (builds(question) || is_join) && answer != b"error" {
            self.0[Kept::place(question)] = if is_join { b"" } else { question };
        }
    }
}

/// Eight hexadecimal digits, lower case as in an answer.
pub fn float(word: &[u8]) -> Option<f32> {
    if word.len() != 8 || !word.iter().all(|byte| matches!(byte, b'0'..=b'9' | b'a'..=b'f')) {
        return None;
    }
    let bits = u32::from_str_radix(std::str::from_utf8(word).ok()?, 16).ok()?;
    Some(f32::from_bits(bits))
}

/// Any number of words, each N of them N floats.
pub fn rows<'a, const N: usize>(words: impl Iterator<Item = &'a [u8]>) -> Option<Vec<[f32; N]>> {
    let values = words.map(float).collect::<Option<Vec<f32>>>()?;
    let (rows, rest) = values.as_chunks();
    rest.is_empty().then(|| rows.to_vec())
}

/// The floats of `ok` and nothing but floats, each N a row.
pub fn accepted<const N: usize>(answer: &[u8]) -> Option<Vec<[f32; N]>> {
    rows(words(answer.strip_prefix(b"ok ")?))
}

pub fn write_float(line: &mut Vec<u8>, x: f32) {
    line.push(b' ');
    line.extend((0..8).rev().map(|place| b"0123456789abcdef"[(x.to_bits() >> (4 * place) & 15) as usize]));
}

fn same_word(either_zero: bool, a: &[u8], b: &[u8]) -> bool {
    a == b
        || match (float(a), float(b)) {
            (Some(a), Some(b)) => a.is_nan() && b.is_nan() || either_zero && a == 0.0 && b == 0.0,
            _ => false,
        }
}

/// The same bytes; but any NaN is any NaN, and where either zero is meant zeros have either sign.
pub fn same(either_zero: bool, a: &[u8], b: &[u8]) -> bool {
    a == b || words(a).count() == words(b).count() && words(a).zip(words(b)).all(|(a, b)| same_word(either_zero, a, b))
}

/// The questions whose answer is a box of the original's, of which a zero has either sign. A cover's zeros are +0.
pub fn answers_either_zero(question: &[u8]) -> bool {
    matches!(words(question).next(), Some(b"motion" | b"pmotion" | b"bounds" | b"cmotion" | b"cpmotion"))
}
