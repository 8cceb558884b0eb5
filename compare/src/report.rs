//! What was compared and what was found, in numbers and in words.

use crate::answer::{answers_either_zero, lines, questions, same, text, words, Kept};
use crate::program::Run;
use std::fmt::Write;

/// One more than the greatest number of a refusal.
const REFUSALS: usize = 23;

/// The answers to one kind of question, as the oracle has them.
#[derive(Default)]
struct Count {
    answers: u64,
    refused: [u64; REFUSALS],
    malformed: u64,
    different: u64,
}

/// The points and the greater depths by which accepted covers were tested.
#[derive(Default)]
pub struct Guarantee {
    pub covers: u64,
    pub points: u64,
    /// Those with a pad above zero.
    pub padded: u64,
    /// On a face of the cover, which belongs to it.
    pub touching: u64,
    pub refused: u64,
    pub outside: u64,
    pub finer: u64,
    pub finer_refused: u64,
    pub finer_wider: u64,
    /// Covers of the same poses with pads of +0.
    pub without_pads: u64,
    pub without_pads_wider: u64,
}

impl Guarantee {
    fn add(&mut self, more: &Guarantee) {
        self.covers += more.covers;
        self.points += more.points;
        self.padded += more.padded;
        self.touching += more.touching;
        self.refused += more.refused;
        self.outside += more.outside;
        self.finer += more.finer;
        self.finer_refused += more.finer_refused;
        self.finer_wider += more.finer_wider;
        self.without_pads += more.without_pads;
        self.without_pads_wider += more.without_pads_wider;
    }

    fn row(&self, of: &str) -> String {
        let cells = [self.covers, self.points, self.padded, self.touching, self.refused, self.outside].map(grouped);
        format!("| {of} | {} |\n", cells.join(" | "))
    }

    fn different(&self) -> u64 {
        self.refused + self.outside + self.finer_refused + self.finer_wider + self.without_pads_wider
    }

    fn without_pads_line(&self, of: &str) -> String {
        let [covers, wider] = [self.without_pads, self.without_pads_wider].map(grouped);
        format!("covers of {of} with pads of +0 in place of theirs: {covers}, {} refused or wider\n", if wider == "0" { "none" } else { &wider })
    }

    fn finer_line(&self, of: &str) -> String {
        match (self.finer_refused, self.finer_wider) {
            (0, 0) => format!("finer covers of {of}: {}, none wider\n", grouped(self.finer)),
            (refused, wider) => format!("finer covers of {of}: {}, {} wider, {} refused\n", grouped(self.finer), grouped(wider), grouped(refused)),
        }
    }
}

#[derive(Default)]
pub struct Report {
    pub moves: u64,
    pub chains: u64,
    pub guarantee: Guarantee,
    /// That of chains.
    pub chain_guarantee: Guarantee,
    /// That of rigid chains and moves, but for sets.
    pub rigid_guarantee: Guarantee,
    /// That of sets of boxes: a cover for each box.
    pub set_guarantee: Guarantee,
    /// Accepted days of booms, and those of which a promise does not hold.
    pub days: u64,
    pub days_broken: u64,
    rows: Vec<(&'static str, Count)>,
    found: Vec<String>,
}

/// No report of one batch tells more than these.
const MOST_FOUND: usize = 100;

#[rustfmt::skip]
const NAMES: &[&str] = &[
    "move", "parts", "point", "interp", "motion", "pmotion", "cover", "zeros", "sin", "cos", "acos", "abs", "root", "least", "greatest", "lerp", "clamp", "whole",
    "inverse", "mul", "quat", "rotation", "dot", "normalize", "slerp", "decompose", "bounds",
    "chain", "lone", "join", "cpoint", "ctimes", "ccover", "cset", "cpad", "try", "cinterp", "cparts", "cmotion", "cpmotion", "acosn",
    "write", "read", "stretch", "windows", "wcover", "day", "rows", "reach", "cut",
];

/// The question's first word; every line that starts otherwise is `another line`.
pub fn name_of(question: &[u8]) -> &'static str {
    let first = words(question).next().unwrap_or(b"");
    NAMES.iter().find(|name| name.as_bytes() == first).unwrap_or(&"another line")
}

/// A number with commas.
pub fn grouped(n: u64) -> String {
    let digits = n.to_string();
    let mut out = String::new();
    for (i, digit) in digits.chars().enumerate() {
        if i > 0 && (digits.len() - i).is_multiple_of(3) {
            out.push(',');
        }
        out.push(digit);
    }
    out
}

impl Report {
    fn row(&mut self, name: &'static str) -> &mut Count {
        let place = self.rows.iter().position(|(row, _)| *row == name).unwrap_or_else(|| {
            self.rows.push((name, Count::default()));
            self.rows.len() - 1
        });
        &mut self.rows[place].1
    }

    /// One comparison more, with the oracle's answer.
    pub fn compared(&mut self, row: &'static str, answer: &[u8], is_same: bool) {
        let count = self.row(row);
        count.answers += 1;
        count.different += u64::from(!is_same);
        if answer == b"error" {
            count.malformed += 1;
        } else if let Some(number) = answer.strip_prefix(b"refused ").and_then(|n| text(n).parse::<usize>().ok()) {
            count.refused[number.min(REFUSALS - 1)] += 1;
        }
    }

    /// Something that should not be, with what it takes to ask again.
    pub fn found(&mut self, title: &str, parts: &[(&str, &[u8])]) {
        if self.found.len() < MOST_FOUND {
            let mut told = format!("DIFFERENT {title}\n");
            for (label, line) in parts.iter().filter(|(_, line)| !line.is_empty()) {
                let space = if label.is_empty() { "" } else { " " };
                writeln!(told, "{label}{space}{}", text(line)).unwrap();
            }
            self.found.push(told);
        }
    }

    /// Compares two programs' answers to the same questions, line by line. `row` tells the row of a question.
    pub fn compare(&mut self, asked: &[u8], [project, oracle]: &[Run; 2], row: fn(&[u8]) -> &'static str) {
        let mut kept = Kept::default();
        let (mut ours, mut theirs) = (lines(&project.output), lines(&oracle.output));
        for question in questions(asked) {
            let (name, row) = (name_of(question), row(question));
            let before = kept.before(question);
            let (Some(a), Some(b)) = (ours.next(), theirs.next()) else {
                self.row(row).different += 1;
                let end = |run: &Run| {
                    format!("{} answers and a status {}", lines(&run.output).count(), if run.ended_well { "of 0" } else { "that tells of a failure" })
                };
                let (a, b) = (end(project), end(oracle));
                self.found("no answer", &[("", before), ("", question), ("project:", a.as_bytes()), ("oracle:", b.as_bytes())]);
                return;
            };
            let is_same = same(answers_either_zero(question), a, b);
            if !is_same {
                self.found(name, &[("", before), ("", question), ("project:", a), ("oracle:", b)]);
            }
            self.compared(row, b, is_same);
            kept.note(question, b);
        }
        for (who, rest, run) in [("project", ours.next(), project), ("oracle", theirs.next(), oracle)] {
            if rest.is_some() || !run.ended_well {
                self.row("end of answers").different += 1;
                let why = if rest.is_some() { "has an answer too many" } else { "ends by a failure after its last answer" };
                self.found(&format!("the {who} {why}"), &[("", rest.unwrap_or(b""))]);
            }
        }
    }

    pub fn different(&self) -> u64 {
        let guarantees = [&self.guarantee, &self.chain_guarantee, &self.rigid_guarantee, &self.set_guarantee];
        self.rows.iter().map(|(_, count)| count.different).sum::<u64>() + guarantees.iter().map(|g| g.different()).sum::<u64>() + self.days_broken
    }

    pub fn answers(&self) -> u64 {
        self.rows.iter().map(|(_, count)| count.answers).sum()
    }

    /// What was found is told and forgotten.
    pub fn take_found(&mut self) -> Vec<String> {
        std::mem::take(&mut self.found)
    }

    pub fn merge(&mut self, other: Report) {
        for (name, count) in other.rows {
            let row = self.row(name);
            row.answers += count.answers;
            row.malformed += count.malformed;
            row.different += count.different;
            row.refused.iter_mut().zip(count.refused).for_each(|(all, more)| *all += more);
        }
        self.guarantee.add(&other.guarantee);
        self.chain_guarantee.add(&other.chain_guarantee);
        self.rigid_guarantee.add(&other.rigid_guarantee);
        self.set_guarantee.add(&other.set_guarantee);
        self.days += other.days;
        self.days_broken += other.days_broken;
        self.moves += other.moves;
        self.chains += other.chains;
    }

    /// The counts as tables of Markdown.
    pub fn tables(&self) -> String {
        let mut out = String::from("| question | answers | of them refused, by number | of them `error` | different |\n|---|---|---|---|---|\n");
        let mut rows: Vec<_> = self.rows.iter().collect();
        // Other rows than the questions' come last, in their own order.
        rows.sort_by_key(|(row, _)| NAMES.iter().position(|name| name == row).unwrap_or(NAMES.len()));
        for (name, count) in rows {
            let numbers: Vec<String> = (1..REFUSALS).filter(|n| count.refused[*n] > 0).map(|n| format!("{n}: {}", grouped(count.refused[n]))).collect();
            let (answers, malformed, different) = (grouped(count.answers), grouped(count.malformed), grouped(count.different));
            writeln!(out, "| {name} | {answers} | {} | {malformed} | {different} |", numbers.join(", ")).unwrap();
        }
        let all = [("moves", &self.guarantee), ("chains", &self.chain_guarantee), ("rigid chains", &self.rigid_guarantee), ("sets", &self.set_guarantee)];
        let tested: Vec<_> = all.into_iter().filter(|(_, g)| g.covers > 0).collect();
        if !tested.is_empty() {
            out += "\n| of | accepted covers | points of them, at a time | with a pad above zero | on a face of the cover | not answered | outside |\n|---|---|---|---|---|---|---|\n";
            tested.iter().for_each(|(of, g)| out += &g.row(of));
            out.push('\n');
            tested.iter().for_each(|(of, g)| out += &g.finer_line(of));
            tested.iter().filter(|(_, g)| g.without_pads > 0).for_each(|(of, g)| out += &g.without_pads_line(of));
        }
        if self.days > 0 {
            writeln!(out, "\naccepted days of booms: {}, {} with booms that meet or start late", grouped(self.days), grouped(self.days_broken)).unwrap();
        }
        out
    }
}
