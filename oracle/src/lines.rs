//! Lines of questions and answers, as every program here reads and writes them. A float is eight hexadecimal digits, its bits: either case in, lower case
//! out, a NaN as 7fc00000. A matrix is 16 floats by rows, a quaternion x y z w, a box x0 y0 z0 x1 y1 z1; whole numbers are decimal; one space stands between words.

use crate::core::geometry::bounds::Bounds3f;
use crate::core::geometry::point::Point3f;
use crate::core::geometry::vector::Vector3f;
use crate::core::quaternion::Quaternion;
use crate::core::transform::Matrix4x4;
use crate::judged::{bounds_values, quaternion_values, vector_values, Judged, MotionBounds, Move};
use std::fmt::Write as _;
use std::io::{self, BufRead, BufWriter, Write};

/// The answer to a question: none for a malformed one, or for one about what isn't kept.
pub type Answer = Option<Judged<Values>>;

/// A program that keeps something between questions.
pub trait Session {
    /// The longest line that may be a question.
    fn longest(&self) -> usize;

    fn judged(&mut self, question: &[u8], words: &[&[u8]]) -> Answer;

    /// The answer to a line, without its line feed; none to an empty line or a comment.
    fn answer(&mut self, line: &[u8]) -> Option<String> {
        if line.is_empty() || line[0] == b'#' {
            return None;
        }
        let words: Vec<&[u8]> = line.split(|byte| *byte == b' ').collect();
        let answer = if line.len() > self.longest() { None } else { self.judged(words[0], &words[1..]) };
        Some(match answer {
            Some(Ok(values)) => format!("ok{}", values.0),
            Some(Err(number)) => format!("refused {number}"),
            None => "error".to_owned(),
        })
    }

    /// Reads questions from standard input, one a line, and writes an answer line for each.
    fn run(&mut self) -> io::Result<()> {
        let mut input = io::stdin().lock();
        let mut output = BufWriter::new(io::stdout().lock());
        let mut line = Vec::new();
        while input.read_until(b'\n', &mut line)? > 0 {
            if line.last() == Some(&b'\n') {
                line.pop();
            }
            if let Some(answer) = self.answer(&line) {
                writeln!(output, "{answer}")?;
            }
            line.clear();
        }
        output.flush()
    }
}

/// The words of an answer after `ok`.
#[derive(Default)]
pub struct Values(String);

impl Values {
    pub fn number(mut self, n: usize) -> Values {
        write!(self.0, " {n}").unwrap();
        self
    }

    /// Floats as a file has them, a NaN with its own bits.
    pub fn bits(mut self, values: &[f32]) -> Values {
        values.iter().for_each(|x| write!(self.0, " {:08x}", x.to_bits()).unwrap());
        self
    }

    /// A mask, sixteen hexadecimal digits.
    pub fn mask(mut self, mask: u64) -> Values {
        write!(self.0, " {mask:016x}").unwrap();
        self
    }

    /// Bytes, two hexadecimal digits each.
    pub fn bytes(mut self, bytes: &[u8]) -> Values {
        self.0.push(' ');
        bytes.iter().for_each(|byte| write!(self.0, "{byte:02x}").unwrap());
        self
    }

    /// The words, a space before each.
    pub fn text(&self) -> &str {
        &self.0
    }

    pub fn floats(mut self, values: &[f32]) -> Values {
        for x in values {
            // The compiler takes a root for its own NaN and drops a test of it; `black_box` hides where the bits came from.
            let bits = std::hint::black_box(x.to_bits());
            let is_nan = bits & 0x7fff_ffff > 0x7f80_0000;
            write!(self.0, " {:08x}", if is_nan { 0x7fc0_0000 } else { bits }).unwrap();
        }
        self
    }
}

pub fn floats(values: &[f32]) -> Values {
    Values::default().floats(values)
}

pub fn float(word: &[u8]) -> Option<f32> {
    if word.len() != 8 || !word.iter().all(u8::is_ascii_hexdigit) {
        return None;
    }
    let digits = std::str::from_utf8(word).ok()?;
    Some(f32::from_bits(u32::from_str_radix(digits, 16).ok()?))
}

/// Bytes of two hexadecimal digits each, of either case.
pub fn bytes(word: &[u8]) -> Option<Vec<u8>> {
    let (pairs, []) = word.as_chunks::<2>() else { return None };
    let digit = |byte: u8| (byte as char).to_digit(16);
    pairs.iter().map(|[high, low]| Some((16 * digit(*high)? + digit(*low)?) as u8)).collect()
}

/// Exactly N words, each a float.
pub fn read<const N: usize>(words: &[&[u8]]) -> Option<[f32; N]> {
    let values: Option<Vec<f32>> = words.iter().map(|word| float(word)).collect();
    values?.try_into().ok()
}

/// A whole number below 2^64.
pub fn whole(word: &[u8]) -> Option<u64> {
    if !word.iter().all(u8::is_ascii_digit) {
        return None;
    }
    std::str::from_utf8(word).ok()?.parse().ok()
}

pub fn matrix(values: &[f32]) -> Matrix4x4 {
    Matrix4x4::from_row_slice(values)
}

pub fn quaternion(values: &[f32]) -> Quaternion {
    Quaternion { v: Vector3f::new(values[0], values[1], values[2]), w: values[3] }
}

pub fn bounds(values: &[f32; 6]) -> Bounds3f {
    let [x0, y0, z0, x1, y1, z1] = *values;
    Bounds3f { p_min: Point3f::new(x0, y0, z0), p_max: Point3f::new(x1, y1, z1) }
}

pub fn matrix_floats(m: &Matrix4x4) -> Values {
    floats(m.m.as_flattened())
}

/// A motion box, and its three counts behind it.
pub fn counted(motion: &MotionBounds) -> Values {
    motion.examined.iter().fold(floats(&bounds_values(&motion.bounds)), |values, n| values.number(*n as usize))
}

pub fn quaternion_floats(q: &Quaternion) -> Values {
    floats(&quaternion_values(q))
}

/// A move's parts: two whole numbers and 138 floats.
pub fn parts(m: &Move) -> Values {
    let f = &m.fields;
    let mut values = Values::default().number(f.actually_animated.into()).number(f.has_rotation.into());
    for i in 0..2 {
        values = values.floats(&vector_values(&f.t[i])).floats(&quaternion_values(&f.r[i]));
        values = values.floats(f.s[i].m.as_flattened()).floats([&f.start, &f.end][i].m_inv.m.as_flattened());
    }
    values.floats(f.c.as_flattened().as_flattened())
}
