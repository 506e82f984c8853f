//! How often the fault trial tried what: its table, and the checks that it tried enough.

use crate::causes::{ANSWERS, IN_ORDER};
use crate::inputs::{Input, Question, CALLS};
use std::fmt::Display;

/// The slices that a call may be lent.
const SLICES: [&str; 3] = ["book", "candidate or condition", "buffer"];

/// The calls that are lent each of them, in the order of `CALLS`.
const LENT: [[bool; CALLS.len()]; SLICES.len()] = [
    [true; CALLS.len()],
    [false, true, false, false, false, true, true],
    [false, false, true, true, false, true, false],
];

/// Answers that a call is granted with, in the order of `Tally::granted`.
const GRANTED: [&str; 17] = [
    "test yes",
    "test no",
    "list none",
    "list several",
    "place none",
    "place some",
    "place every",
    "layers off",
    "constraints",
    "test no by a constraint alone",
    "more facts than a byte numbers",
    "nearest is the candidate",
    "nearest differs",
    "count in none",
    "count in some",
    "count in every",
    "count 0 of 0",
];

#[derive(Default)]
pub struct Tally {
    pub inputs: u64,
    /// Calls made from one thread, and from four at once.
    pub alone: u64,
    pub at_once: u64,
    /// For each call and each cause, 0 for none: the questions, each counted once however often
    /// it was put.
    answers: [[u64; ANSWERS]; CALLS.len()],
    granted: [u64; GRANTED.len()],
    /// For each slice and each call: lent as NULL with length 0.
    nulls: [[u64; CALLS.len()]; SLICES.len()],
    /// For each slice: lent at each remainder of its address by 8.
    alignments: [[u64; 8]; SLICES.len()],
}

/// A check's name, and whether it holds.
pub type Check = (String, bool);

impl Tally {
    pub fn count_input(&mut self, input: &Input) {
        self.inputs += 1;
        for (question, wanted) in &input.questions {
            let cause = (wanted.answer & 0xFF) as usize;
            self.answers[question.call()][cause] += 1;
            if cause == 0 && question.call() != 0 {
                self.granted[7] += u64::from(input.drive.off != 0);
                self.granted[8] += u64::from(input.has_constraints());
                self.granted[10] += u64::from(input.is_wide());
            }
            if let Question::Test { candidate } = question {
                self.granted[9] += u64::from(input.forbids(candidate));
            }
            let upper = wanted.answer >> 16;
            let kind = match question.call() {
                _ if cause != 0 => continue,
                1 => 1 - upper as usize,
                2 if upper == 0 => 2,
                2 if upper > 1 => 3,
                4 => 4 + upper as usize,
                5 if upper == 0 => 11,
                5 => 12,
                6 => count_kind(upper),
                _ => continue,
            };
            self.granted[kind] += 1;
        }
    }

    /// Counts the slices that a call is lent, in the order of `SLICES`.
    pub fn count_lent(&mut self, call: usize, slices: [Option<&[u8]>; SLICES.len()]) {
        for (slice, lent) in slices.into_iter().enumerate() {
            match lent {
                _ if !LENT[slice][call] => (),
                Some(lent) => self.alignments[slice][lent.as_ptr() as usize % 8] += 1,
                None => self.nulls[slice][call] += 1,
            }
        }
    }

    /// How often each slice was NULL, with its name.
    fn nulls(&self) -> Vec<(String, u64)> {
        let mut nulls = Vec::new();
        for (slice, (name, lent)) in SLICES.iter().zip(&LENT).enumerate() {
            for (call, _) in lent.iter().enumerate().filter(|(_, &lent)| lent) {
                nulls.push((format!("{}'s {name}", CALLS[call]), self.nulls[slice][call]));
            }
        }
        nulls
    }

    /// How often each cause was given, 0 for none.
    fn total(&self, cause: usize) -> u64 {
        self.answers.iter().map(|answers| answers[cause]).sum()
    }

    pub fn print(&self) {
        println!(
            "{} inputs, {} calls from one thread, {} from four at once",
            self.inputs, self.alone, self.at_once
        );
        println!("questions by their answers, granted or refused by a cause:");
        let row = |name: &str, numbers: &mut dyn Iterator<Item = u64>| {
            let numbers: Vec<String> = numbers.map(|number| format!("{number:>7}")).collect();
            println!("{name:<7}{}", numbers.concat());
        };
        println!("call   granted{}", column_heads());
        for (call, answers) in CALLS.iter().zip(&self.answers) {
            row(call, &mut columns().map(|cause| answers[cause]));
        }
        row("all", &mut columns().map(|cause| self.total(cause)));
        println!("granted: {}", named(GRANTED.iter().zip(self.granted)));
        println!("NULL with length 0: {}", named(self.nulls()));
        for (name, alignments) in SLICES.iter().zip(&self.alignments) {
            println!("{name} at addresses 0 to 7 mod 8: {alignments:?}");
        }
    }

    /// Whether everything was tried `least` times at least.
    pub fn checks(&self, least: u64) -> Vec<Check> {
        let mut checks = Vec::new();
        let mut check = |name: String, times: u64| {
            let name = format!("{name}: {times} of {least} times at least");
            checks.push((name, times >= least));
        };
        for cause in columns().skip(1) {
            check(format!("refused {cause}"), self.total(cause));
        }
        for (name, answers) in CALLS.iter().zip(&self.answers) {
            check(format!("{name} granted"), answers[0]);
        }
        for (name, &times) in GRANTED.iter().zip(&self.granted) {
            check((*name).into(), times);
        }
        for (name, times) in self.nulls() {
            check(format!("NULL for {name}"), times);
        }
        for (name, alignments) in SLICES.iter().zip(&self.alignments) {
            for (address, &times) in alignments.iter().enumerate() {
                check(format!("{name} at address {address} mod 8"), times);
            }
        }
        checks
    }
}

/// The place in `GRANTED` of what `lesson_count` says above bit 15.
fn count_kind(upper: u64) -> usize {
    match (upper >> 24, upper & 0xFF_FFFF) {
        (0, 0) => 16,
        (0, _) => 13,
        (fitting, states) if fitting < states => 14,
        _ => 15,
    }
}

/// The answers in the table's order: granted, then the causes in the order of test.
fn columns() -> impl Iterator<Item = usize> {
    [0].into_iter().chain(IN_ORDER.map(|cause| cause as usize))
}

fn column_heads() -> String {
    columns()
        .skip(1)
        .map(|cause| format!("{cause:>7}"))
        .collect()
}

fn named(numbers: impl IntoIterator<Item = (impl Display, u64)>) -> String {
    let named = numbers.into_iter();
    let named: Vec<String> = named
        .map(|(name, number)| format!("{name} {number}"))
        .collect();
    named.join(", ")
}
