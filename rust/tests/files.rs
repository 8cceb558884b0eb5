//! Move files: read, written in one way, and read again.

use jellyplain::{Bounds, Chain, MoveFile, Refusal, TEXT};

const FILE: &str = include_str!("../../examples/swing.txt");

fn bits(file: &MoveFile) -> Vec<u32> {
    let poses = file.poses.iter().flat_map(|pose| [pose.time].into_iter().chain(pose.matrix.into_iter().flatten()).chain([pose.pad]));
    poses.chain(file.bounds.p_min).chain(file.bounds.p_max).map(f32::to_bits).collect()
}

fn rewritten(file: &MoveFile) -> String {
    Chain::new(&file.poses).unwrap().write(&file.bounds, &mut [0; TEXT]).unwrap().to_owned()
}

#[test]
fn spaces_and_case_are_one() {
    let file = MoveFile::read(FILE.as_bytes()).unwrap();
    let text = rewritten(&file);
    let is_values = |line: &str| line.starts_with(|c: char| c.is_ascii_digit());
    let upper: String = FILE.lines().map(|line| if is_values(line) { line.to_uppercase() + "\n" } else { line.to_owned() + "\n" }).collect();
    assert_ne!(upper, FILE);
    for other in [text.clone(), FILE.replace(' ', "   "), upper] {
        let read = MoveFile::read(other.as_bytes()).unwrap();
        assert_eq!(bits(&read), bits(&file));
        assert_eq!(rewritten(&read), text);
    }
    assert!(text.lines().all(|line| !line.ends_with(' ') && !line.contains("  ")));
}

#[test]
fn zeros_keep_their_sign_above_the_bottom_row() {
    let mut file = MoveFile::read(FILE.as_bytes()).unwrap();
    file.poses[0].time = -0.0;
    file.poses[0].matrix[0][1] = -0.0;
    file.poses[1].pad = -0.0;
    file.bounds.p_min[2] = -0.0;
    let with_plus_zero = bits(&file);
    file.poses[1].matrix[3][0] = -0.0;
    assert_eq!(bits(&MoveFile::read(rewritten(&file).as_bytes()).unwrap()), with_plus_zero);
}

/// The old thirteen names give pads of +0, and the writer always writes fourteen.
#[test]
fn pads_are_a_fourteenth_column() {
    let old = MoveFile::read(FILE.as_bytes()).unwrap();
    assert!(FILE.lines().next().unwrap().ends_with("m23") && old.poses.iter().all(|pose| pose.pad.to_bits() == 0));
    let text = rewritten(&old);
    assert!(text.lines().next().unwrap().ends_with("m23 pad"));
    assert_eq!(MoveFile::read(text.as_bytes()), Ok(old.clone()));

    let mut padded = old;
    padded.poses.iter_mut().zip(1u8..).for_each(|(pose, i)| pose.pad = 0.1 * f32::from(i));
    let text = rewritten(&padded);
    assert_eq!(bits(&MoveFile::read(text.as_bytes()).unwrap()), bits(&padded));
    // A pad too few, a name too few, a name twice.
    let (without_pad, without_name) = (text.replacen(" 3dcccccd\n", "\n", 1), text.replacen(" pad\n", "\n", 1));
    for refused in [without_pad, without_name, text.replacen(" pad\n", " pad pad\n", 1), text.replacen("pad", "Pad", 1)] {
        assert_ne!(refused, text);
        assert_eq!(MoveFile::read(refused.as_bytes()), Err(Refusal::File));
    }
}

#[test]
fn refused_files() {
    for bytes in [&b""[..], b"\n", &FILE.as_bytes()[1..], &FILE.as_bytes()[..FILE.len() - 1], FILE.replacen(' ', "\t", 1).as_bytes()] {
        assert_eq!(MoveFile::read(bytes), Err(Refusal::File));
    }
    let file = MoveFile::read(FILE.as_bytes()).unwrap();
    let chain = Chain::new(&file.poses).unwrap();
    let mut text = [7; TEXT];
    assert_eq!(chain.write(&Bounds { p_min: [f32::NAN; 3], p_max: [0.0; 3] }, &mut text), Err(Refusal::Query));
    assert_eq!(chain.write(&Bounds { p_min: [1.0; 3], p_max: [0.0; 3] }, &mut text), Err(Refusal::Corners));
    assert_eq!(chain.write(&file.bounds, &mut text[..380]), Err(Refusal::Room));
    assert_eq!(text, [7; TEXT]);
    assert_eq!(chain.write(&file.bounds, &mut text[..381]).map(str::len), Ok(381));
}
