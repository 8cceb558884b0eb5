//! Move files: their layout, and the one way to write it. Document 01, "File and program", with document 02's chains and "One way to write a move file".

use crate::chain::{Chain, Pose};
use crate::core::transform::Matrix4x4;
use crate::cover;
use crate::judged::Judged;
use crate::lines;
use crate::refusal::*;

const POSE: &str = "time m00 m01 m02 m03 m10 m11 m12 m13 m20 m21 m22 m23";
const PADDED_POSE: &str = "time m00 m01 m02 m03 m10 m11 m12 m13 m20 m21 m22 m23 pad";
const BOX: &str = "x0 y0 z0 x1 y1 z1";
const MOST_BYTES: usize = 65_536;

/// What a file holds: any number of poses, and a box.
#[derive(Debug, Clone)]
pub struct File {
    pub poses: Vec<Pose>,
    pub bounds: [f32; 6],
}

/// The words of a line: runs of spaces stand between them, and neither before the first nor after the last.
fn words(line: &[u8]) -> Option<Vec<&[u8]>> {
    let outside = |end: Option<&u8>| !matches!(end, Some(byte) if *byte != b' ');
    if outside(line.first()) || outside(line.last()) {
        return None;
    }
    Some(line.split(|byte| *byte == b' ').filter(|word| !word.is_empty()).collect())
}

fn are_names(line: &[u8], names: &str) -> bool {
    words(line).is_some_and(|words| words.into_iter().eq(names.split(' ').map(str::as_bytes)))
}

fn values<const N: usize>(line: &[u8]) -> Option<[f32; N]> {
    lines::read(&words(line)?)
}

fn pose(line: &[u8]) -> Option<Pose> {
    let values: [f32; 13] = values(line)?;
    let mut matrix = Matrix4x4::default();
    matrix.m.as_flattened_mut()[..12].copy_from_slice(&values[1..]);
    Some(Pose { time: values[0], matrix, pad: 0.0 })
}

fn padded_pose(line: &[u8]) -> Option<Pose> {
    let values: [f32; 14] = values(line)?;
    let mut matrix = Matrix4x4::default();
    matrix.m.as_flattened_mut()[..12].copy_from_slice(&values[1..13]);
    Some(Pose { time: values[0], matrix, pad: values[13] })
}

fn lines_of(bytes: &[u8]) -> Option<Vec<&[u8]>> {
    if bytes.len() > MOST_BYTES {
        return None;
    }
    Some(bytes.strip_suffix(b"\n")?.split(|byte| *byte == b'\n').collect())
}

fn read_lines(bytes: &[u8]) -> Option<File> {
    let lines = lines_of(bytes)?;
    let [names, poses @ .., box_names, bounds] = lines.as_slice() else { return None };
    if !are_names(box_names, BOX) {
        return None;
    }
    let poses: Option<Vec<Pose>> = if are_names(names, PADDED_POSE) {
        poses.iter().map(|line| padded_pose(line)).collect()
    } else if are_names(names, POSE) {
        poses.iter().map(|line| pose(line)).collect()
    } else {
        return None;
    };
    Some(File { poses: poses?, bounds: values(bounds)? })
}

impl File {
    /// 11 for whatever departs from the layout.
    pub fn read(bytes: &[u8]) -> Judged<File> {
        read_lines(bytes).ok_or(FILE)
    }

    /// Fourteen names; lower-case digits, single spaces, line feeds, no space at a line's end.
    pub fn write(&self) -> String {
        let line = |values: &[f32]| lines::floats(values).text()[1..].to_owned();
        let poses = self.poses.iter().map(|pose| line(&[&[pose.time], &pose.matrix.m.as_flattened()[..12], &[pose.pad]].concat()));
        [PADDED_POSE.to_owned()].into_iter().chain(poses).chain([BOX.to_owned(), line(&self.bounds)]).map(|line| line + "\n").collect()
    }
}

impl Chain {
    /// 6 and 7 of the box, then 15 for a text that is longer than so many bytes.
    pub fn write(&self, bounds: &[f32; 6], room: u64) -> Judged<String> {
        cover::check_box(bounds)?;
        let text = File { poses: self.poses.clone(), bounds: *bounds }.write();
        if text.len() as u64 > room {
            return Err(ROOM);
        }
        Ok(text)
    }
}

#[cfg(test)]
mod tests {
    use super::*;

    const SHIFT: &str = "00000000 3f800000 00000000 00000000 00000000 00000000 3f800000 00000000 00000000 00000000 00000000 3f800000 00000000 40000000";

    fn file(pose_lines: &[&str]) -> String {
        format!(
            "{PADDED_POSE}\n{}{BOX}\n00000000 00000000 00000000 3f800000 3f800000 80000000\n",
            pose_lines.iter().map(|line| format!("{line}\n")).collect::<String>()
        )
    }

    #[test]
    fn what_is_written_is_read_back() {
        for count in [0, 1, 2, 33] {
            let text = file(&vec![SHIFT; count]);
            let read = File::read(text.as_bytes()).unwrap();
            assert_eq!(read.poses.len(), count);
            assert_eq!(read.write(), text);
        }
    }

    #[test]
    fn spaces_and_case_are_one() {
        let text = file(&[&SHIFT.replace("00000000", "abcdef01"), SHIFT]);
        for other in [text.replace(' ', "   "), text.replace("abcdef01", "ABCDEF01"), text.replace("abcdef01", "aBcDeF01").replacen(' ', "  ", 3)] {
            assert_eq!(File::read(other.as_bytes()).unwrap().write(), text, "{other}");
        }
    }

    #[test]
    fn thirteen_names_are_pads_of_zero() {
        let text = file(&[SHIFT.replace("40000000", "00000000").as_str(); 2]);
        let old = text.replace(" pad\n", "\n").replace("00000000 00000000\n", "00000000\n");
        assert_eq!(old.len() + 4 + 2 * 9, text.len());
        assert_eq!(File::read(old.as_bytes()).unwrap().write(), text);
        assert_eq!(File::read(text.replace(" pad\n", "\n").as_bytes()).err(), Some(FILE));
    }

    #[test]
    fn departures() {
        let text = file(&[SHIFT, SHIFT]);
        let cut = &text[..text.len() - 1];
        for other in [
            "",
            "\n",
            cut,
            &format!("{text}\n"),
            &format!(" {text}"),
            &text.replacen('\n', " \n", 1),
            &text.replacen('\n', "\r\n", 1),
            &text.replacen(' ', "\t", 1),
            &text.replacen("time", "Time", 1),
            &text.replacen("3f800000", "3f80000", 1),
            &text.replacen("3f800000", "+f800000", 1),
            &text.replacen(SHIFT, "", 1),
            &text.replacen(' ', &" ".repeat(MOST_BYTES), 1),
        ] {
            assert_eq!(File::read(other.as_bytes()).err(), Some(FILE), "{other:?}");
        }
    }
}
