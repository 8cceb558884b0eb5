//! Questions about move files: chains written into buffers of every length, and files good and damaged that are read.

use super::chains::{of_move, swing_of_six, Chain, Pose, SLOTS};
use super::*;
use oracle::chain;
use oracle::file::File;

/// A longer file doesn't go into a line.
const MOST_BYTES: usize = 3997;

fn text_of(poses: &[Pose], bounds: &[f32; 6]) -> Vec<u8> {
    let poses = poses.iter().map(|p| chain::Pose { time: p.time, matrix: Matrix4x4::from_row_slice(&p.matrix), pad: p.pad }).collect();
    File { poses, bounds: *bounds }.write().into_bytes()
}

/// The same file with the old thirteen names, whatever the pads were.
fn without_pads(text: &[u8]) -> Vec<u8> {
    let lines: Vec<&[u8]> = text.split(|byte| *byte == b'\n').collect();
    let poses = lines.len() - 3;
    let cut = |(i, line): (usize, &&[u8])| if i < poses { line[..line.len() - if i == 0 { 4 } else { 9 }].to_vec() } else { line.to_vec() };
    lines.iter().enumerate().map(cut).collect::<Vec<_>>().join(&b'\n')
}

impl<W: Write> Questions<W> {
    fn ask_write(&mut self, slot: usize, room: u64, b: &[f32; 6]) {
        self.ask(&format!("write {slot} {room}"), &[b]);
    }

    fn ask_read(&mut self, bytes: &[u8]) {
        let digits: String = bytes.iter().map(|byte| format!("{byte:02x}")).collect();
        self.line(&format!("read {digits}"));
    }
}

fn replaced(text: &[u8], from: &str, to: &str) -> Vec<u8> {
    String::from_utf8_lossy(text).replacen(from, to, 1).into_bytes()
}

pub fn fixed<W: Write>(q: &mut Questions<W>) {
    let chain = swing_of_six();
    let b = [1.0, 2.0, 3.0, 4.0, 5.0, 6.0];
    q.new_case();
    q.ask_write(0, 5000, &b);
    q.ask_chain(0, &chain);
    let text = text_of(&chain, &b);
    let length = text.len() as u64;
    for room in [0, 1, 57, 381, length - 1, length, length + 1, 4199, 4200, 4201, 1 << 32, u64::MAX] {
        q.ask_write(0, room, &b);
    }
    // 6 and 7 before 15.
    for b in BOXES {
        for room in [0, length - 1, length] {
            q.ask_write(0, room, b);
        }
    }
    for room in ["", "x", "-1", "18446744073709551616"] {
        q.ask(&format!("write 0 {room}"), &[&b]);
    }
    for line in ["write", "write 0", "write 0 5000", "write 4 5000", "Write 0 5000"] {
        q.line(line);
        q.ask(line, &[&b]);
    }
    q.ask("write 0 5000", &[&b, &[0.0]]);
    // A move by itself isn't written; as a chain it is.
    for question in ["lone", "chain"] {
        q.ask_poses(question, 2, &of_move(&quarter_turn()));
        q.ask_write(2, 5000, &b);
    }
    // The fewest poses, the most of a chain, and more than it may have.
    for count in [2, 31, 32] {
        let many: Chain = (0..count).map(|i| Pose { time: i as f32, ..chain[i % 6] }).collect();
        q.ask_chain(1, &many);
        let length = text_of(&many, &b).len() as u64;
        q.ask_write(1, length, &b);
        q.ask_write(1, length - 1, &b);
    }
    for count in [0, 1, 2, 30] {
        let many: Chain = (0..count).map(|i| chain[i % 6]).collect();
        q.ask_read(&text_of(&many, &b));
    }
    for count in [0, 1, 2, 32, 33] {
        let many: Chain = (0..count).map(|i| chain[i % 6]).collect();
        q.ask_read(&without_pads(&text_of(&many, &b)));
    }
    for line in ["read", "read ", "read 0", "read 0g", "read 0A", "read 0a 0a", "read 0a ", "Read 0a"] {
        q.line(line);
    }
    let digits: String = text.iter().map(|byte| format!("{byte:02X}")).collect();
    q.line(&format!("read {digits}"));
    for (from, to) in [
        (" ", "  "),
        (" ", "\t"),
        (" ", ""),
        ("\n", " \n"),
        ("\n", "\n "),
        ("\n", "\r\n"),
        ("\n", "\n\n"),
        ("time", "Time"),
        ("time", " time"),
        ("m23", "m24"),
        ("m22 m23", "m23 m22"),
        ("pad", "Pad"),
        (" pad", ""),
        (" pad", " pad pad"),
        ("m23 pad", "pad m23"),
        ("x0", "X0"),
        ("x0 y0", "y0 x0"),
        ("40a00000", "40A00000"),
        ("40a00000", "40a0000"),
        ("40a00000", "40a000000"),
        ("40a00000", "40a0000g"),
        ("40a00000", "ffc00000"),
        ("40a00000", "7f800001"),
        ("40a00000", "FF800000"),
        ("40a00000", "80000000"),
        ("40a00000\n", "40a00000 00000000\n"),
        ("40c00000\n", "\n"),
        ("40c00000\n", "40c00000"),
        ("40c00000\n", "40c00000\n\n"),
    ] {
        q.ask_read(&replaced(&text, from, to));
    }
    for size in [0, 1, 56, 57, text.len() - 1] {
        q.ask_read(&text[..size]);
    }
}

impl Random {
    /// The same file with other spaces and letter case, in as many bytes as a line holds.
    fn respelt(&mut self, text: &[u8]) -> Vec<u8> {
        let (upper, spaces) = (self.pick(&[0, 1, 2, 2]), self.pick(&[1, 1, 2, 5]));
        let room = MOST_BYTES.saturating_sub(text.len());
        let mut made = Vec::new();
        let mut added = 0;
        let mut is_value = false;
        for (i, byte) in text.iter().enumerate() {
            if i == 0 || text[i - 1] == b'\n' {
                is_value = byte.is_ascii_digit() || (b'a'..=b'f').contains(byte);
            }
            let is_upper = is_value && (upper == 1 || upper == 2 && self.one_in(2));
            made.push(if is_upper { byte.to_ascii_uppercase() } else { *byte });
            if *byte == b' ' {
                let more = self.below(spaces).min(room - added);
                made.extend(vec![b' '; more]);
                added += more;
            }
        }
        made
    }

    /// A file that most often departs from the layout.
    fn damaged(&mut self, text: &[u8]) -> Vec<u8> {
        let place = self.below(text.len());
        let (before, behind) = text.split_at(place);
        let byte = self.pick(b" \n\t\r0aAgG\0\xff");
        match self.below(8) {
            0 => before.to_vec(),
            1 => behind.to_vec(),
            2 => [before, &behind[1..]].concat(),
            3 | 4 => [before, &[byte], behind].concat(),
            5 => [before, &[byte], &behind[1..]].concat(),
            6 => {
                // A value of any bits, NaNs too.
                let mut lines: Vec<Vec<u8>> = text.split(|b| *b == b'\n').map(<[u8]>::to_vec).collect();
                let line = self.below(lines.len());
                if lines[line].len() >= 8 {
                    let word = self.below(lines[line].len() / 9 + 1).min(lines[line].len() / 9);
                    let bits = if self.one_in(2) { self.pick(EDGES) } else { self.next() as u32 };
                    if let Some(place) = lines[line].get_mut(9 * word..9 * word + 8) {
                        place.copy_from_slice(format!("{bits:08x}").as_bytes());
                    }
                }
                lines.join(&b'\n')
            }
            _ => {
                let mut lines: Vec<&[u8]> = text.split(|b| *b == b'\n').collect();
                let (one, other) = (self.below(lines.len()), self.below(lines.len()));
                match self.below(3) {
                    0 => lines.swap(one, other),
                    1 => lines.insert(one, lines[other]),
                    _ => drop(lines.remove(one)),
                }
                lines.join(&b'\n')
            }
        }
    }
}

pub fn random<W: Write>(q: &mut Questions<W>, r: &mut Random) {
    q.new_case();
    let slot = r.below(SLOTS);
    let poses: Chain = if r.one_in(4) { of_move(&r.any_move()) } else { r.chain() };
    let b: [f32; 6] = if r.one_in(4) { r.pick(BOXES) } else { r.bounds().try_into().expect("a box has six coordinates") };
    let text = text_of(&poses, &b);
    if q.ask_chain(slot, &poses) {
        let length = text.len() as u64;
        let room = match r.below(6) {
            0 => r.below(text.len()) as u64,
            1 => length - 1,
            2 => length,
            3 => length + r.below(300) as u64,
            _ => 5000,
        };
        q.ask_write(slot, room, &b);
        if r.one_in(4) {
            q.ask_write(slot, length, &r.pick(BOXES));
        }
    }
    if text.len() > MOST_BYTES {
        return;
    }
    for _ in 0..1 + r.below(3) {
        let text = if r.one_in(3) { without_pads(&text) } else { text.clone() };
        let mut file = if r.one_in(4) { text } else { r.respelt(&text) };
        if r.one_in(2) {
            file = r.damaged(&file);
        }
        if file.len() <= MOST_BYTES {
            q.ask_read(&file);
        }
    }
}
