//! Document 01's questions: those of the program `answers`.

use crate::angles;
use crate::core::geometry::bounds::Bounds3f;
use crate::core::geometry::point::Point3f;
use crate::core::pbrt::{clamp, lerp};
use crate::core::quaternion::slerp;
use crate::core::transform::{Matrix4x4, Transform};
use crate::judged::{self, bounds_values, point_values, quaternion_values, vector_values, Kind, Move};
use crate::lines::{bounds, counted, floats, matrix, matrix_floats, parts, quaternion, quaternion_floats, read, whole, Answer, Session, Values};
use crate::num::Float;

/// The program `answers`, which keeps a move.
#[derive(Default)]
pub struct Moves {
    kept: Option<Move>,
}

/// A function of one float.
fn one(words: &[&[u8]], function: fn(f32) -> f32) -> Answer {
    let [a] = read(words)?;
    Some(Ok(floats(&[function(a)])))
}

fn two(words: &[&[u8]], function: fn(f32, f32) -> f32) -> Answer {
    let [a, b] = read(words)?;
    Some(Ok(floats(&[function(a, b)])))
}

fn three(words: &[&[u8]], function: fn(f32, f32, f32) -> f32) -> Answer {
    let [a, b, c] = read(words)?;
    Some(Ok(floats(&[function(a, b, c)])))
}

impl Session for Moves {
    fn longest(&self) -> usize {
        1200
    }

    fn judged(&mut self, question: &[u8], words: &[&[u8]]) -> Answer {
        match question {
            b"move" => {
                let values: [f32; 34] = read(words)?;
                let built = judged::build(Kind::Plain, values[0], &matrix(&values[1..17]), values[17], &matrix(&values[18..]));
                let answer = built.as_ref().map(|_| Values::default()).map_err(|number| *number);
                self.kept = built.ok();
                Some(answer)
            }
            b"parts" => {
                let [] = read(words)?;
                Some(Ok(parts(self.kept.as_ref()?)))
            }
            b"point" => {
                let [time, x, y, z] = read(words)?;
                let moved = self.kept.as_ref()?.transform_point(time, &Point3f::new(x, y, z));
                Some(moved.map(|p| floats(&point_values(&p))))
            }
            b"interp" => {
                let [time] = read(words)?;
                let pose = self.kept.as_ref()?.interpolate(time);
                Some(pose.map(|t| matrix_floats(&t.m).floats(t.m_inv.m.as_flattened())))
            }
            b"motion" => {
                let moved = self.kept.as_ref()?.motion_bounds(&bounds(&read(words)?));
                Some(moved.map(|motion| counted(&motion)))
            }
            b"pmotion" => {
                let [x, y, z] = read(words)?;
                let moved = self.kept.as_ref()?.bound_point_motion(&Point3f::new(x, y, z));
                Some(moved.map(|motion| counted(&motion)))
            }
            b"cover" => {
                let (depth, words) = words.split_first()?;
                let (depth, b) = (whole(depth)?, read(words)?);
                Some(self.kept.as_ref()?.cover(&b, depth).map(|b| floats(&b)))
            }
            b"zeros" => {
                let [c1, c2, c3, c4, c5, theta] = read(words)?;
                let found = judged::zeros([c1, c2, c3, c4, c5], theta);
                Some(found.map(|(count, zeros)| Values::default().number(count).floats(&zeros)))
            }
            b"sin" => one(words, angles::sin),
            b"cos" => one(words, angles::cos),
            b"acos" => one(words, angles::acos),
            b"abs" => one(words, f32::abs),
            b"root" => one(words, f32::sqrt),
            b"least" => two(words, f32::least),
            b"greatest" => two(words, f32::greatest),
            b"lerp" => three(words, lerp),
            b"clamp" => three(words, clamp),
            b"whole" => {
                let [n] = words else { return None };
                Some(Ok(floats(&[whole(n)? as f32])))
            }
            b"inverse" => {
                let m: [f32; 16] = read(words)?;
                Some(judged::inverse(&matrix(&m)).map(|m| matrix_floats(&m)))
            }
            b"mul" => {
                let m: [f32; 32] = read(words)?;
                Some(Ok(matrix_floats(&Matrix4x4::mul(&matrix(&m[..16]), &matrix(&m[16..])))))
            }
            b"quat" => {
                let m: [f32; 16] = read(words)?;
                let transform = Transform::from_matrices(&matrix(&m), &Matrix4x4::default());
                Some(Ok(quaternion_floats(&transform.into())))
            }
            b"rotation" => {
                let q: [f32; 4] = read(words)?;
                Some(Ok(matrix_floats(&Transform::from(quaternion(&q)).m)))
            }
            b"dot" => {
                let q: [f32; 8] = read(words)?;
                Some(Ok(floats(&[quaternion(&q[..4]).dot(&quaternion(&q[4..]))])))
            }
            b"normalize" => {
                let q: [f32; 4] = read(words)?;
                Some(Ok(quaternion_floats(&quaternion(&q).normalize())))
            }
            b"slerp" => {
                let q: [f32; 9] = read(words)?;
                Some(Ok(quaternion_floats(&slerp(&quaternion(&q[1..5]), &quaternion(&q[5..]), q[0]))))
            }
            b"bounds" => {
                let v: [f32; 22] = read(words)?;
                let corners = [Point3f::new(v[16], v[17], v[18]), Point3f::new(v[19], v[20], v[21])];
                let b = Bounds3f { p_min: corners[0], p_max: corners[1] };
                Some(judged::transform_bounds(&matrix(&v[..16]), &b).map(|b| floats(&bounds_values(&b))))
            }
            b"decompose" => {
                let m: [f32; 16] = read(words)?;
                let parts = judged::decompose(Kind::Plain, &matrix(&m));
                Some(parts.map(|p| floats(&vector_values(&p.t)).floats(&quaternion_values(&p.r)).floats(p.s.m.as_flattened())))
            }
            _ => None,
        }
    }
}

#[cfg(test)]
mod tests {
    use super::*;

    const IDENTITY: &str =
        "3f800000 00000000 00000000 00000000 00000000 3f800000 00000000 00000000 00000000 00000000 3f800000 00000000 00000000 00000000 00000000 3f800000";
    const SHIFTED: &str =
        "3f800000 00000000 00000000 3f800000 00000000 3f800000 00000000 00000000 00000000 00000000 3f800000 00000000 00000000 00000000 00000000 3f800000";
    const ORIGIN: &str = "00000000 00000000 00000000";

    fn answers(questions: &[&str]) -> Vec<String> {
        let mut session = Moves::default();
        questions.iter().filter_map(|question| session.answer(question.as_bytes())).collect()
    }

    fn answer(question: &str) -> String {
        answers(&[question]).concat()
    }

    #[test]
    fn lines_without_an_answer() {
        assert!(answers(&["", "# sin 00000000", "#"]).is_empty());
    }

    #[test]
    fn malformed_lines() {
        for line in [
            " ",
            "sin",
            "sin ",
            "sin 0000000",
            "sin 000000000",
            "sin 0000000g",
            "sin +0000000",
            "sin  00000000",
            " sin 00000000",
            "sin 00000000 ",
            "sin 00000000\r",
            "Sin 00000000",
            "sin 00000000 00000000",
            "whole",
            "whole -1",
            "whole +1",
            "whole 1.0",
            "whole 18446744073709551616",
            "least 00000000",
            "parts",
            "nothing",
            "cover 1",
            "move 00000000",
            "sin\t00000000",
            "zeros 00000000",
        ] {
            assert_eq!(answer(line), "error", "{line:?}");
        }
        assert_eq!(Moves::default().answer(b"sin \xff\xff\xff\xff\xff\xff\xff\xff").unwrap(), "error");
        assert_eq!(answer(&format!("whole {:01200}", 1)), "error");
    }

    #[test]
    fn numbers() {
        assert_eq!(answer("sin 00000000"), "ok 00000000");
        assert_eq!(answer("acos 00000000"), "ok 3fc90fdb");
        assert_eq!(answer("acos 3F800001"), "ok 7fc00000");
        assert_eq!(answer("abs FFC12345"), "ok 7fc00000");
        assert_eq!(answer("root 80000000"), "ok 80000000");
        assert_eq!(answer("root bf800000"), "ok 7fc00000");
        assert_eq!(answer("least 00000000 80000000"), "ok 00000000");
        assert_eq!(answer("greatest 80000000 00000000"), "ok 80000000");
        assert_eq!(answer("least 7fc00000 3f800000"), "ok 3f800000");
        assert_eq!(answer("greatest 3f800000 7fc00000"), "ok 3f800000");
        assert_eq!(answer("greatest 7fc00000 7fc00000"), "ok 7fc00000");
        assert_eq!(answer("lerp 3f000000 3f800000 40400000"), "ok 40000000");
        assert_eq!(answer("clamp 40000000 bf800000 3f800000"), "ok 3f800000");
        assert_eq!(answer("whole 16777217"), "ok 4b800000");
        assert_eq!(answer("whole 16777219"), "ok 4b800002");
        assert_eq!(answer("whole 18446744073709551615"), "ok 5f800000");
    }

    #[test]
    fn worked_cases_of_move_a() {
        let build = format!("move 00000000 {IDENTITY} 3f800000 {SHIFTED}");
        let point = |time: &str| format!("point {time} {ORIGIN}");
        let session = [
            build.as_str(),
            &point("3f000000"),
            &point("ff800000"),
            &point("7f800000"),
            &point("7fc00000"),
            &format!("cover 0 {ORIGIN} {ORIGIN}"),
            &format!("cover 1 {ORIGIN} {ORIGIN}"),
            &format!("cover 13 {ORIGIN} {ORIGIN}"),
            &format!("motion {ORIGIN} {ORIGIN}"),
            &format!("pmotion {ORIGIN}"),
            &format!("move 00000000 {IDENTITY} bf800000 {SHIFTED}"),
            &point("3f000000"),
        ];
        let expected = [
            "ok",
            "ok 3f000000 00000000 00000000",
            "ok 00000000 00000000 00000000",
            "ok 3f800000 00000000 00000000",
            "refused 6",
            "refused 10",
            "ok 00000000 00000000 00000000 3f800000 00000000 00000000",
            "refused 8",
            "ok 00000000 00000000 00000000 3f800000 00000000 00000000 0 0 0",
            "ok 00000000 00000000 00000000 3f800000 00000000 00000000 1 1 1",
            "refused 3",
            "error",
        ];
        assert_eq!(answers(&session), expected);
    }

    #[test]
    fn counts_of_words() {
        let build = format!("move 00000000 {IDENTITY} 3f800000 {SHIFTED}");
        let words = |question: &str| answers(&[&build, question])[1].split(' ').count();
        assert_eq!(words("parts"), 1 + 2 + 138);
        assert_eq!(words("interp 3f000000"), 1 + 32);
        assert_eq!(words(&format!("pmotion {ORIGIN}")), 1 + 6 + 3);
        assert_eq!(words("zeros 00000000 3f800000 00000000 00000000 00000000 3f800000"), 1 + 1 + 8);
        assert_eq!(words(&format!("decompose {SHIFTED}")), 1 + 3 + 4 + 16);
        assert_eq!(words(&format!("inverse {SHIFTED}")), 1 + 16);
        assert_eq!(words(&format!("mul {SHIFTED} {SHIFTED}")), 1 + 16);
        assert_eq!(words(&format!("quat {SHIFTED}")), 1 + 4);
        assert_eq!(words("rotation 00000000 00000000 00000000 3f800000"), 1 + 16);
    }
}
