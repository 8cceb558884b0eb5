//! Move files, good and damaged: what the programs `cover`, `rewrite` and `stretch` print for each, against what the oracle says of it.
//! tools/move_files.py makes the files, around the moves and boxes of `vectors covers` and the chains and boxes of `vectors chains`, and reads their layout; the
//! oracle builds the chain, covers the box at depth 10, writes both and looks for the shortest refused stretch. What `rewrite` prints for a file it prints for that text too.

use crate::answer::{bytes, lines, poses, text, words};
use crate::program::{give_up, output_of, run, Programs, Run};
use crate::report::Report;
use std::path::Path;

const BOX: &[u8] = b"x0 y0 z0 x1 y1 z1";

/// A row of values for each move or chain of a kind, refused ones too: for each pose its time, upper three rows and pad, then the last box that was asked for before.
fn rows(programs: &Programs, kind: &str, count: usize, seed: u64) -> Vec<Vec<u8>> {
    let asked = output_of(&programs.vectors, &[kind, &count.to_string(), &seed.to_string()], b"");
    let mut rows = Vec::new();
    let mut bounds: Vec<&[u8]> = vec![b"00000000"; 6];
    for line in lines(&asked) {
        if let Some(poses) = poses(line) {
            let values: Vec<&[u8]> = poses.iter().flat_map(|pose| pose[..13].iter().chain(&pose[17..])).chain(&bounds).copied().collect();
            rows.push(values.join(&b' '));
        }
        match words(line).collect::<Vec<_>>().as_slice() {
            [b"cover", _, values @ ..] | [b"ccover", _, _, values @ ..] if values.len() == 6 => bounds = values.to_vec(),
            _ => (),
        }
    }
    // The fixed ones come first.
    rows.split_off(rows.len().saturating_sub(count))
}

/// Two rows of chains after each row of a move.
fn values(programs: &Programs, count: usize, seed: u64) -> Vec<u8> {
    let (moves, chains) = (rows(programs, "covers", count, seed), rows(programs, "chains", count, seed));
    let row = |i: usize| if i.is_multiple_of(3) { &moves[i % moves.len()] } else { &chains[i % chains.len()] };
    (0..count).map(row).cloned().collect::<Vec<_>>().join(&b'\n')
}

/// The files of the stream, each behind its length as eight hexadecimal digits and a line feed.
fn split(mut stream: &[u8]) -> Vec<&[u8]> {
    let mut files = Vec::new();
    while let Some((length, rest)) = stream.split_at_checked(9) {
        let length = usize::from_str_radix(text(length).trim_end(), 16).unwrap_or_else(|e| give_up(&format!("move_files.py: a length: {e}")));
        let (file, rest) = rest.split_at_checked(length).unwrap_or_else(|| give_up("move_files.py: a file is cut short"));
        files.push(file);
        stream = rest;
    }
    files
}

/// The questions that a good file's values ask: its poses as a chain, with their bottom rows, the cover of its box, its text, and the shortest refused stretch of the poses.
fn questions_of(values: &[u8]) -> Vec<u8> {
    let values: Vec<&[u8]> = words(values).collect();
    let (poses, bounds) = values.split_at(values.len() - 6);
    let bottom: [&[u8]; 4] = [b"00000000", b"00000000", b"00000000", b"3f800000"];
    let poses: Vec<&[u8]> = poses.chunks(14).flat_map(|pose| [&pose[..13], &bottom, &pose[13..]].concat()).collect();
    let build = [&[b"chain".as_slice(), b"0", b"plain"], poses.as_slice()].concat().join(&b' ');
    let cover = [&[b"ccover".as_slice(), b"0", b"10"], bounds].concat().join(&b' ');
    let write = [&[b"write".as_slice(), b"0", b"65536"], bounds].concat().join(&b' ');
    let stretch = [&[b"stretch".as_slice(), b"plain"], poses.as_slice()].concat().join(&b' ');
    [build, cover, write, stretch, vec![]].join(&b'\n')
}

/// What document 01 has the program print for an answer of the oracle.
fn printed(answer: &[u8]) -> Vec<u8> {
    match answer.strip_prefix(b"ok ") {
        Some(values) => [BOX, values, b""].join(&b'\n'),
        None => [b"refused".as_slice(), answer.strip_prefix(b"refused ").unwrap_or(answer), b""].join(&b'\n'),
    }
}

/// What document 02 has the program `rewrite` print.
fn rewritten(answer: &[u8]) -> Vec<u8> {
    match answer.strip_prefix(b"ok ").and_then(|values| bytes(words(values).nth(1)?)) {
        Some(text) => text,
        None => printed(answer),
    }
}

/// What the program `stretch` prints for a file whose chain was answered so: the file's lines count from 1, and its first pose stands in line 2.
fn stretched(built: &[u8], stretch: &[u8]) -> Vec<u8> {
    let numbers: Option<Vec<usize>> = stretch.strip_prefix(b"ok ").map(|run| words(run).map(|word| text(word).parse().unwrap_or(0)).collect());
    match numbers.as_deref() {
        Some([0, 0]) => b"accepted\n".to_vec(),
        Some([place, length]) => [printed(built), format!("lines {} to {}\n", place + 2, place + length + 1).into_bytes()].concat(),
        _ => printed(stretch),
    }
}

pub fn compare(programs: &Programs, count: usize, seed: u64, report: &mut Report) {
    let rows = values(programs, count, seed);
    let make =
        |verb: &str| output_of(Path::new("python3"), &[&programs.move_files.display().to_string(), verb, &count.to_string(), &seed.to_string(), "-"], &rows);
    let (stream, layout) = (make("stream"), make("answers"));
    let (files, layout): (Vec<&[u8]>, Vec<&[u8]>) = (split(&stream), lines(&layout).collect());
    if files.len() != count || layout.len() != count {
        give_up("move_files.py: not as many files as asked for");
    }
    let is_good = |answer: &&&[u8]| !answer.starts_with(b"refused");
    let asked: Vec<u8> = layout.iter().filter(is_good).flat_map(|values| questions_of(values)).collect();
    // A file may hold more poses than a line of the protocol's.
    let answers = output_of(&programs.chains.oracle, &["--any-length"], &asked);
    let mut answers = lines(&answers);
    for (i, (file, layout)) in files.iter().zip(&layout).enumerate() {
        let (cover, form, stretch) = if is_good(&layout) {
            let mut next = || answers.next().unwrap_or_else(|| give_up("the oracle has too few answers for the files"));
            let (built, cover, form, stretch) = (next(), next(), next(), next());
            let stretch = stretched(built, stretch);
            if built.starts_with(b"ok") {
                (cover, form, stretch)
            } else {
                (built, built, stretch)
            }
        } else {
            (*layout, *layout, printed(layout))
        };
        let mut tell = |row: &'static str, title: &str, expected: &[u8], run: &Run, is_same: bool| {
            report.compared(row, expected, run.ended_well && is_same);
            if !(run.ended_well && is_same) {
                let kept = format!("compare/target/different-{seed}-{i}.txt");
                std::fs::write(&kept, file).unwrap_or_else(|e| give_up(&format!("{kept}: {e}")));
                let status = if run.ended_well { "" } else { "ended by a failure" };
                report.found(title, &[("file:", kept.as_bytes()), ("project:", &run.output), ("project:", status.as_bytes()), ("oracle:", expected)]);
            }
        };
        let run_of_cover = run(&programs.cover, &[], file);
        tell("move file, to the program `cover`", "cover, the program", cover, &run_of_cover, run_of_cover.output == printed(cover));
        let (run_of_rewrite, text) = (run(&programs.rewrite, &[], file), rewritten(form));
        tell("move file, to the program `rewrite`", "rewrite, the program", form, &run_of_rewrite, run_of_rewrite.output == text);
        let run_of_stretch = run(&programs.stretch, &[], file);
        tell("move file, to the program `stretch`", "stretch, the program", &stretch, &run_of_stretch, run_of_stretch.output == stretch);
        if form.starts_with(b"ok") {
            let again = run(&programs.rewrite, &[], &run_of_rewrite.output);
            tell("what `rewrite` printed, to it again", "rewrite, of its own text", form, &again, again.output == text);
        }
    }
}
