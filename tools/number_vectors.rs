// Vectors for the questions abs, root, least, greatest, lerp, clamp and whole of the program `answers`.
// The expected values are hardware float arithmetic's, as rustc compiles it; nothing here calls the libraries.
// tools/vectors.sh makes crates/answers/stdin and crates/answers/stdout of it:
//     rustc -O tools/number_vectors.rs -o number_vectors
//     number_vectors              the questions
//     number_vectors --answers    the answer lines
// Every run prints the same.

use std::hint::black_box;

struct Vectors {
    questions: String,
    answers: String,
    random: u64,
}

impl Vectors {
    fn ask(&mut self, question: &str, answer: &str) {
        // a line that is too long, where the first block of the program's reading ends
        if (15_000..16_384).contains(&self.questions.len()) {
            self.questions.push_str(&format!("whole {:03000}\n", 7));
            self.answers.push_str("error\n");
        }
        self.questions.push_str(question);
        self.questions.push('\n');
        self.answers.push_str(answer);
        self.answers.push('\n');
    }

    fn silent(&mut self, line: &str) {
        self.questions.push_str(line);
        self.questions.push('\n');
    }

    fn ask_floats(&mut self, name: &str, arguments: &[f32], value: f32) {
        let words: Vec<String> = arguments
            .iter()
            .map(|x| format!(" {:08x}", x.to_bits()))
            .collect();
        self.ask(&(name.to_string() + &words.concat()), &ok(value));
    }

    fn abs(&mut self, x: f32) {
        self.ask_floats("abs", &[x], x.abs());
    }

    fn root(&mut self, x: f32) {
        self.ask_floats("root", &[x], x.sqrt());
    }

    fn least_greatest(&mut self, x: f32, y: f32) {
        self.ask_floats("least", &[x, y], if x.is_nan() || y < x { y } else { x });
        self.ask_floats("greatest", &[x, y], if x.is_nan() || y > x { y } else { x });
    }

    fn lerp(&mut self, t: f32, a: f32, b: f32) {
        self.ask_floats("lerp", &[t, a, b], (1.0 - t) * a + t * b);
    }

    fn clamp(&mut self, v: f32, a: f32, b: f32) {
        let below = if v > b { b } else { v };
        self.ask_floats("clamp", &[v, a, b], if v < a { a } else { below });
    }

    fn whole(&mut self, n: u64) {
        self.ask(&format!("whole {n}"), &ok(black_box(n) as f32));
    }

    // splitmix64
    fn next(&mut self) -> u64 {
        self.random = self.random.wrapping_add(0x9e37_79b9_7f4a_7c15);
        let z = (self.random ^ (self.random >> 30)).wrapping_mul(0xbf58_476d_1ce4_e5b9);
        let z = (z ^ (z >> 27)).wrapping_mul(0x94d0_49bb_1331_11eb);
        z ^ (z >> 31)
    }

    // any pattern
    fn pattern(&mut self) -> f32 {
        float(self.next() as u32)
    }

    // a number from 2^-8 up to 2^8, of either sign
    fn ordinary(&mut self) -> f32 {
        let n = self.next();
        let exponent = 119 + (n >> 32) as u32 % 16;
        float(n as u32 & 0x807f_ffff | exponent << 23)
    }
}

// the float of a pattern, of which the compiler knows nothing, so that the hardware does the arithmetic
fn float(bits: u32) -> f32 {
    f32::from_bits(black_box(bits))
}

fn ok(x: f32) -> String {
    let bits = if x.is_nan() { 0x7fc0_0000 } else { x.to_bits() };
    format!("ok {bits:08x}")
}

// NaNs, infinities, zeros, subnormals, the ends of the normal numbers and ones
const SPECIAL: [u32; 20] = [
    0x7fc0_0000,
    0xffc0_0001,
    0x7f80_0001,
    0x7f80_0000,
    0xff80_0000,
    0x0000_0000,
    0x8000_0000,
    0x0000_0001,
    0x8000_0001,
    0x007f_ffff,
    0x0080_0000,
    0x8080_0000,
    0x7f7f_ffff,
    0xff7f_ffff,
    0x3f80_0000,
    0xbf80_0000,
    0x3f80_0001,
    0x3f7f_ffff,
    0x3f00_0000,
    0x4000_0000,
];

fn specials() -> Vec<f32> {
    SPECIAL.iter().map(|&n| float(n)).collect()
}

// the powers of two, subnormal ones too, each with its neighbours
fn around_powers() -> Vec<f32> {
    let powers = (0..23)
        .step_by(4)
        .map(|k| 1u32 << k)
        .chain((1..255).step_by(6).map(|e| e << 23));
    powers.flat_map(|n| [n - 1, n, n + 1]).map(float).collect()
}

fn one_float(v: &mut Vectors) {
    for x in specials().into_iter().chain(around_powers()) {
        v.abs(x);
        v.abs(-x);
        v.root(x);
    }
    for _ in 0..100 {
        let (x, y) = (v.pattern(), v.pattern());
        v.abs(x);
        v.root(y);
        v.root(y.abs());
    }
}

// Arguments whose root is next to the middle of two floats: the two floats around the square of each middle,
// for the middles whose squares are nearest to a float, and for some others.
fn root_ties(v: &mut Vectors) {
    let mut middles: Vec<(u64, u64)> = (1u64 << 23..1 << 24)
        .map(|m| {
            let square = (2 * m + 1) * (2 * m + 1);
            let unit = if square < 1 << 49 { 1 << 25 } else { 1 << 26 };
            let above = square % unit;
            (above.min(unit - above), m)
        })
        .collect();
    middles.sort();
    let mut roots: Vec<u64> = middles.iter().take(60).map(|p| p.1).collect();
    for _ in 0..40 {
        roots.push((1 << 23) + v.next() % (1 << 23));
    }
    for m in roots {
        let square = (2 * m + 1) * (2 * m + 1);
        let unit = if square < 1 << 49 { 1 << 25 } else { 1 << 26 };
        let scale = 2f32.powi(2 * (v.next() % 60) as i32 - 100);
        v.root((square / unit * unit) as f32 * scale);
        v.root((square / unit * unit + unit) as f32 * scale);
    }
    for n in 1..40u32 {
        v.root((n * n * 104_729) as f32);
        v.root((n * n) as f32);
    }
}

fn two_floats(v: &mut Vectors) {
    for x in specials() {
        for y in specials() {
            v.least_greatest(x, y);
        }
    }
    for _ in 0..80 {
        let (x, y) = (v.pattern(), v.pattern());
        v.least_greatest(x, y);
        let near = float(x.to_bits() ^ 1);
        v.least_greatest(x, near);
    }
}

fn three_floats(v: &mut Vectors) {
    for t in specials() {
        for (a, b) in [
            (0x3f80_0000, 0x4000_0000),
            (0x8000_0000, 0x0000_0000),
            (0x0000_0003, 0x8000_0007),
            (0x7f7f_ffff, 0x7f7f_ffff),
            (0x7f80_0000, 0xff80_0000),
        ] {
            let (a, b) = (float(a), float(b));
            v.lerp(t, a, b);
            v.clamp(t, a, b);
            v.clamp(a, t, b);
            v.clamp(a, b, t);
        }
    }
    for _ in 0..200 {
        let (t, a, b) = (v.ordinary(), v.ordinary(), v.ordinary());
        v.lerp(t, a, b);
        v.lerp(t.abs().fract(), a, b);
        v.clamp(t, a, b);
    }
    for _ in 0..60 {
        let (t, a, b) = (v.pattern(), v.pattern(), v.pattern());
        v.lerp(t, a, b);
        v.clamp(t, a, b);
    }
}

// Whole numbers: around powers of two, exactly between two floats and next to that, and others.
fn whole_numbers(v: &mut Vectors) {
    v.whole(0);
    v.whole(u64::MAX);
    for k in 0..64 {
        let power = 1u64 << k;
        v.whole(power - 1);
        v.whole(power);
        v.whole(power + 1);
    }
    for k in 0..40 {
        for _ in 0..4 {
            let middle = ((1 << 24) + v.next() % (1 << 24)) << k | 1 << k;
            v.whole(middle - 1);
            v.whole(middle);
            v.whole(middle + 1);
        }
    }
    for _ in 0..200 {
        let n = v.next() >> (v.next() % 64);
        v.whole(n);
    }
}

// The layout of a line: what is malformed, what has no answer, and how long a line may be.
fn lines(v: &mut Vectors) {
    v.silent("# Made by tools/vectors.sh. A question a line: a name and its arguments, floats as their bits.");
    v.silent("# Numbers: the expected values are hardware float arithmetic's, by tools/number_vectors.rs.");
    v.ask("abs BF8000aB", "ok 3f8000ab");
    v.ask("abs FFFFFFFF", "ok 7fc00000");
    v.silent("");
    v.silent("# abs bf800000");
    v.silent("#");
    for line in [
        "abs",
        "abs ",
        "abs 3f80000",
        "abs 3f8000000",
        "abs  3f800000",
        " abs 3f800000",
        "abs 3f800000 ",
        "abs 3f800000 3f800000",
        "abs 3f80000g",
        "abs 3f80000/",
        "abs 3f80000:",
        "abs 3f80000@",
        "abs 3f80000G",
        "abs 3f80000`",
        "abs\t3f800000",
        "abs 3f800000\r",
        "Abs 3f800000",
        "ab 3f800000",
        "absx 3f800000",
        "root",
        "least 3f800000",
        "least 3f80000040000000",
        "greatest 3f800000 40000000 40400000",
        "lerp 3f800000 40000000",
        "clamp",
        "whole",
        "whole ",
        "whole -1",
        "whole +1",
        "whole 1.0",
        "whole 0x10",
        "whole a",
        "whole 1 ",
        "whole 1 1",
        "whole  1",
        "whole 18446744073709551616",
        "whole 18446744073709551620",
        "whole 20000000000000000000",
        "whole 100000000000000000000",
        "3f800000",
        " ",
        "%",
        "x #",
    ] {
        v.ask(line, "error");
    }
    v.ask("whole 18446744073709551615", "ok 5f800000");
    v.ask("whole 007", "ok 40e00000");
    v.ask(&format!("whole {:01194}", 7), "ok 40e00000");
    v.ask(&format!("whole {:01195}", 7), "error");
    v.silent(&format!("#{}", "-".repeat(2000)));
}

fn main() {
    let mut v = Vectors {
        questions: String::new(),
        answers: String::new(),
        random: 2,
    };
    lines(&mut v);
    one_float(&mut v);
    root_ties(&mut v);
    two_floats(&mut v);
    three_floats(&mut v);
    whole_numbers(&mut v);
    let answers = std::env::args().any(|a| a == "--answers");
    print!("{}", if answers { v.answers } else { v.questions });
}
