//! Holds the answers of the project's programs to the oracle's, and tests the guarantee from outside: README.md says how.

mod answer;
mod day;
mod files;
mod guarantee;
mod joins;
mod program;
mod random;
mod reach;
mod report;
mod texts;
mod trials;
mod windows;

use program::{give_up, run_both, Programs, Sides};
use random::Random;
use report::{grouped, name_of, Report};
use std::collections::BTreeMap;
use std::io::{BufRead, BufReader};
use std::process::{Command, Stdio};
use std::sync::mpsc::{channel, sync_channel, RecvTimeoutError, SyncSender};
use std::sync::{Arc, Mutex};
use std::time::{Duration, Instant};

const KINDS: &[&str] = &[
    "numbers",
    "angles",
    "matrices",
    "boxes",
    "moves",
    "bounds",
    "motion",
    "covers",
    "chains",
    "rigid",
    "sets",
    "texts",
    "trials",
    "arcs",
    "joins",
    "stretches",
    "windows",
    "days",
    "rows",
    "reach",
    "files",
];

const HELP: &str = "\
compare/run [--moves N] [--chains N] [--seed N] [--kinds A,B,..] [--files N] [--no-build] ..

  --moves N              cases of each kind beside the fixed ones                20000
  --chains N             chains, with their questions, sets, texts, trials, joins, stretches, windows, days, rows and reach   a quarter of the moves
  --files N              files for the programs `cover`, `rewrite`, `stretch`    a tenth of the moves
  --seed N               the same seed makes the same cases                      7
  --kinds A,B            some of: numbers angles matrices boxes moves bounds motion covers chains rigid sets texts trials arcs joins stretches windows days rows reach files; all of them without it
  --show N               how many differences are printed                        10
  --workers N            batches worked at once                                  the number of processors
  --no-build             takes the project's programs as they stand
  --answers PATH         the project's program `answers`                         crates/answers/out/answers
  --chain-answers PATH   the project's program `chain_answers`                   crates/chain_answers/out/chain_answers
  --cover PATH           the project's program `cover`                           crates/cover/out/cover
  --rewrite PATH         the project's program `rewrite`                         crates/rewrite/out/rewrite
  --stretch PATH         the project's program `stretch`                         crates/stretch/out/stretch
  --oracle PATH          the oracle's program `answers`                          oracle/target/release/answers
  --chain-oracle PATH    the oracle's program `chain_answers`                    oracle/target/release/chain_answers
Exit status: 0 no difference, 1 a difference, 2 nothing could be compared.";

struct Options {
    moves: u64,
    seed: u64,
    kinds: Vec<String>,
    chains: Option<u64>,
    files: Option<u64>,
    show: usize,
    workers: usize,
    programs: Programs,
}

fn number(option: &str, value: &str) -> u64 {
    value.parse().unwrap_or_else(|_| give_up(&format!("{option} takes a whole number, and not {value}")))
}

fn options() -> Options {
    let programs = Programs {
        moves: Sides { project: "crates/answers/out/answers".into(), oracle: "oracle/target/release/answers".into() },
        chains: Sides { project: "crates/chain_answers/out/chain_answers".into(), oracle: "oracle/target/release/chain_answers".into() },
        cover: "crates/cover/out/cover".into(),
        rewrite: "crates/rewrite/out/rewrite".into(),
        stretch: "crates/stretch/out/stretch".into(),
        vectors: "oracle/target/release/vectors".into(),
        move_files: "tools/move_files.py".into(),
    };
    let workers = std::thread::available_parallelism().map_or(2, usize::from);
    let kinds = KINDS.iter().map(|kind| kind.to_string()).collect();
    let mut options = Options { moves: 20_000, seed: 7, kinds, chains: None, files: None, show: 10, workers, programs };
    let mut arguments = std::env::args().skip(1);
    while let Some(option) = arguments.next() {
        if option == "--help" || option == "-h" {
            println!("{HELP}");
            std::process::exit(0);
        }
        let Some(value) = arguments.next() else { give_up(&format!("{option} takes a value; --help lists the options")) };
        match option.as_str() {
            "--moves" => options.moves = number(&option, &value),
            "--seed" => options.seed = number(&option, &value),
            "--chains" => options.chains = Some(number(&option, &value)),
            "--files" => options.files = Some(number(&option, &value)),
            "--show" => options.show = number(&option, &value) as usize,
            "--workers" => options.workers = number(&option, &value).max(1) as usize,
            "--kinds" => options.kinds = value.split(',').map(str::to_owned).collect(),
            "--answers" => options.programs.moves.project = value.into(),
            "--chain-answers" => options.programs.chains.project = value.into(),
            "--cover" => options.programs.cover = value.into(),
            "--rewrite" => options.programs.rewrite = value.into(),
            "--stretch" => options.programs.stretch = value.into(),
            "--oracle" => options.programs.moves.oracle = value.into(),
            "--chain-oracle" => options.programs.chains.oracle = value.into(),
            _ => give_up(&format!("no option {option}; --help lists them")),
        }
    }
    if let Some(kind) = options.kinds.iter().find(|kind| !KINDS.contains(&kind.as_str())) {
        give_up(&format!("no kind {kind}; --help lists them"));
    }
    options
}

/// Work for one worker: whole cases, so that fresh programs have every move and chain that is asked about.
enum Batch {
    Questions { kind: String, questions: Vec<u8>, built: u64 },
    Files { count: u64, seed: u64 },
}

const BATCH_BYTES: usize = 1 << 18;
const BATCH_FILES: u64 = 200;

fn are_chains(kind: &str) -> bool {
    matches!(kind, "chains" | "rigid" | "sets" | "texts" | "trials" | "joins" | "stretches" | "windows" | "days" | "rows" | "reach")
}

/// Cuts what `vectors` prints for a kind into batches: before a move, or anywhere as long as there was none; chains at the comment before a case.
fn cut_questions(options: &Options, kind: &str, send: impl Fn(Batch)) {
    let vectors = &options.programs.vectors;
    let cases = if are_chains(kind) { options.chains.unwrap_or(options.moves / 4) } else { options.moves };
    let mut child = Command::new(vectors)
        .args([kind, &cases.to_string(), &options.seed.to_string()])
        .stdout(Stdio::piped())
        .spawn()
        .unwrap_or_else(|e| give_up(&format!("{}: {e}", vectors.display())));
    let mut reader = BufReader::new(child.stdout.take().unwrap());
    let (mut batch, mut built, mut any_built) = (Vec::new(), 0, false);
    let mut line = Vec::new();
    while reader.read_until(b'\n', &mut line).unwrap_or_else(|e| give_up(&format!("vectors: {e}"))) > 0 {
        let is_built = answer::poses(line.strip_suffix(b"\n").unwrap_or(&line)).is_some();
        let may_cut = if are_chains(kind) { line == b"#\n" } else { is_built || !any_built };
        if batch.len() >= BATCH_BYTES && may_cut {
            send(Batch::Questions { kind: kind.to_owned(), questions: std::mem::take(&mut batch), built });
            built = 0;
        }
        any_built |= is_built;
        built += u64::from(is_built);
        batch.append(&mut line);
    }
    if !child.wait().is_ok_and(|status| status.success()) {
        give_up(&format!("vectors {kind} failed"));
    }
    send(Batch::Questions { kind: kind.to_owned(), questions: batch, built });
}

fn make_batches(options: &Options, batches: &SyncSender<Batch>) {
    let send = |batch| batches.send(batch).expect("the workers outlive their work");
    for kind in &options.kinds {
        if kind != "files" {
            cut_questions(options, kind, send);
            continue;
        }
        let files = options.files.unwrap_or(options.moves / 10);
        for first in (0..files).step_by(BATCH_FILES as usize) {
            // Each batch has a seed of its own, short enough for the name of a file.
            let seed = Random::new(options.seed, first).next() >> 32;
            send(Batch::Files { count: BATCH_FILES.min(files - first), seed });
        }
    }
}

fn compare(options: &Options, batch: &Batch, number: u64) -> Report {
    let programs = &options.programs;
    let mut report = Report::default();
    match batch {
        Batch::Files { count, seed } => files::compare(programs, *count as usize, *seed, &mut report),
        Batch::Questions { kind, questions, built } => {
            let count = if are_chains(kind) { &mut report.chains } else { &mut report.moves };
            let sides = if are_chains(kind) || kind == "arcs" { &programs.chains } else { &programs.moves };
            *count = *built;
            let runs = run_both(sides, questions);
            report.compare(questions, &runs, name_of);
            if kind == "texts" {
                texts::test(sides, questions, &runs[0].output, &mut report);
            } else if kind == "trials" {
                trials::test(sides, questions, &runs[0].output, &mut report);
            } else if kind == "windows" {
                windows::test(sides, questions, &runs[0].output, &mut Random::new(options.seed, number), &mut report);
            } else if kind == "reach" {
                reach::test(sides, questions, &runs[0].output, &mut Random::new(options.seed, number), &mut report);
            } else if kind == "days" {
                day::test(questions, &runs[0].output, &mut report);
            } else if kind == "covers" || are_chains(kind) {
                if kind == "joins" {
                    joins::test(questions, &runs[0].output, &mut report);
                }
                guarantee::test(sides, questions, &runs[0].output, &mut Random::new(options.seed, number), &mut report);
            }
        }
    }
    report
}

fn kind_of(batch: &Batch) -> &str {
    match batch {
        Batch::Questions { kind, .. } => kind,
        Batch::Files { .. } => "files",
    }
}

fn main() {
    let options = Arc::new(options());
    let began = Instant::now();
    let (batches, queue) = sync_channel(2 * options.workers);
    let queue = Arc::new(Mutex::new((queue, 0u64)));
    let (reports, finished) = channel();
    let maker = Arc::clone(&options);
    std::thread::spawn(move || make_batches(&maker, &batches));
    for _ in 0..options.workers {
        let (options, queue, reports) = (Arc::clone(&options), Arc::clone(&queue), reports.clone());
        std::thread::spawn(move || loop {
            let (batch, number) = {
                let mut queue = queue.lock().unwrap();
                let Ok(batch) = queue.0.recv() else { return };
                queue.1 += 1;
                (batch, queue.1)
            };
            let report = compare(&options, &batch, number);
            reports.send((number, kind_of(&batch).to_owned(), report)).expect("the reports are awaited");
        });
    }
    drop(reports);

    // Reports are taken in the order of their batches, so that the same cases tell the same.
    let (mut all, mut waiting, mut taken, mut shown) = (Report::default(), BTreeMap::new(), 0, 0);
    let mut kind = String::new();
    let mut told = Instant::now();
    loop {
        match finished.recv_timeout(Duration::from_secs(1)) {
            Ok((number, kind, report)) => drop(waiting.insert(number, (kind, report))),
            Err(RecvTimeoutError::Timeout) => (),
            Err(RecvTimeoutError::Disconnected) => break,
        }
        while let Some((now, mut report)) = waiting.remove(&(taken + 1)) {
            taken += 1;
            kind = now;
            for found in report.take_found() {
                if shown < options.show {
                    println!("{found}");
                }
                shown += 1;
            }
            all.merge(report);
        }
        if told.elapsed() > Duration::from_secs(4) {
            told = Instant::now();
            let [moves, chains, answers, different] = [all.moves, all.chains, all.answers(), all.different()].map(grouped);
            eprintln!("{:5} s  {kind}: {moves} moves, {chains} chains, {answers} answers, {different} different", began.elapsed().as_secs());
        }
    }
    if taken != queue.lock().unwrap().1 {
        give_up("a worker failed");
    }
    let [each, moves, chains] = [options.moves, all.moves, all.chains].map(grouped);
    println!("{each} moves of each kind, seed {}: {moves} moves and {chains} chains in all, {} s\n", options.seed, began.elapsed().as_secs());
    print!("{}", all.tables());
    println!("\n{} answers, {} different", grouped(all.answers()), grouped(all.different()));
    std::process::exit(if all.different() == 0 { 0 } else { 1 });
}
