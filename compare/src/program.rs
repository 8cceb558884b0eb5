//! Programs that are run by pipes.

use std::io::{Read, Write};
use std::path::{Path, PathBuf};
use std::process::{Command, Stdio};
use std::thread;

/// Where the programs stand. The paths are read from the repository's folder.
pub struct Programs {
    /// `answers`, asked about moves.
    pub moves: Sides,
    /// `chain_answers`, asked about chains.
    pub chains: Sides,
    pub cover: PathBuf,
    pub rewrite: PathBuf,
    pub stretch: PathBuf,
    pub vectors: PathBuf,
    pub move_files: PathBuf,
}

/// A program of the project's and the oracle's of the same name.
pub struct Sides {
    pub project: PathBuf,
    pub oracle: PathBuf,
}

/// What a program wrote, and whether it ended with status 0.
pub struct Run {
    pub output: Vec<u8>,
    pub ended_well: bool,
}

/// Nothing can be compared: says why and ends with status 2.
pub fn give_up(message: &str) -> ! {
    eprintln!("compare: {message}");
    std::process::exit(2)
}

/// Runs a program on an input. A thread of its own writes the input, so that no pipe waits for the other.
pub fn run(program: &Path, arguments: &[&str], input: &[u8]) -> Run {
    let name = program.display();
    let mut child =
        Command::new(program).args(arguments).stdin(Stdio::piped()).stdout(Stdio::piped()).spawn().unwrap_or_else(|e| give_up(&format!("{name}: {e}")));
    let (mut stdin, mut stdout) = (child.stdin.take().unwrap(), child.stdout.take().unwrap());
    let mut output = Vec::new();
    thread::scope(|scope| {
        // A program that ends before it has read everything closes the pipe; the answers that are missing will tell.
        scope.spawn(move || stdin.write_all(input).ok());
        stdout.read_to_end(&mut output).unwrap_or_else(|e| give_up(&format!("{name}: {e}")));
    });
    let status = child.wait().unwrap_or_else(|e| give_up(&format!("{name}: {e}")));
    Run { output, ended_well: status.success() }
}

/// Runs the project's program and the oracle's on the same questions, both at once.
pub fn run_both(sides: &Sides, questions: &[u8]) -> [Run; 2] {
    thread::scope(|scope| {
        let project = scope.spawn(|| run(&sides.project, &[], questions));
        let oracle = run(&sides.oracle, &[], questions);
        [project.join().unwrap(), oracle]
    })
}

/// A program that must do its work: what it wrote.
pub fn output_of(program: &Path, arguments: &[&str], input: &[u8]) -> Vec<u8> {
    let run = run(program, arguments, input);
    if !run.ended_well {
        give_up(&format!("{} {} failed", program.display(), arguments.join(" ")));
    }
    run.output
}
