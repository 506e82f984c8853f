//! Counts of the states that fit a condition (document 02, e), beside the counting pass alone: a listing
//! into a buffer that is a byte too short, which counts all states and writes none. The condition is to
//! cost no more than that pass does.

use crate::{best_rounds, rng, shown, Program, SEED};
use lesson_tests::book::{width, BYTE_ATOMS};
use lesson_tests::conditions::{nested, read_for, DEEPEST, LONGEST};
use lesson_tests::expected::{fit_counts, BUFFER_TOO_SHORT};
use lesson_tests::ffi::Call;
use lesson_tests::known::{self, Known};
use std::hint::black_box;

/// A text of the most bytes: parts one behind the other, `!` in front of them, and a name.
fn longest(part: &str) -> String {
    let parts = (LONGEST - 1) / part.len();
    let text = part.repeat(parts) + "0";
    "!".repeat(LONGEST - text.len()) + &text
}

/// Conditions on the facts 0 to 9: two short ones, one with the deepest brackets, and the longest ones of
/// each kind. That of ors has the most names and operators that a condition can have.
fn every_condition() -> [(&'static str, String); 8] {
    let deep = String::from_utf8(nested(DEEPEST, b"0&!1|2")).expect("text");
    let deep = vec![deep; 6].join("&");
    [
        ("one name", "0".into()),
        ("the desk's", "3&!4|(2&5)".into()),
        ("16 deep", deep),
        ("nots", longest("!")),
        ("ors", longest("0|")),
        ("ands", longest("9&")),
        ("ands and ors", longest("0&!1|2&3|!")),
        ("brackets", longest("(0|!1)&(2|3)&!")),
    ]
}

/// Seconds for the count, for the counting pass and for plain Rust's count, which is left out of searches
/// that are long for it.
fn times(known: &Known, condition: &str, plain: bool) -> Vec<f64> {
    let (book, layer) = (known.book.bytes(), known.layer.into());
    let tree = read_for(condition.as_bytes(), known.book.atoms).expect("a lawful condition");
    let expected = fit_counts(known.branching, known.count, tree.fitting_of(known));
    let mut buffer = vec![0; 11 + known.count * width(known.book.atoms) - 1];
    let mut run = |at: usize| {
        let text = Some(condition.as_bytes());
        let (program, call, answer) = match at {
            0 => (Program::Engine, Call::Count(text), expected),
            1 => (
                Program::Engine,
                Call::List(Some(&mut buffer)),
                BUFFER_TOO_SHORT,
            ),
            _ => (Program::Plain, Call::Count(text), expected),
        };
        assert_eq!(
            program.answer(black_box(&book), layer, call),
            answer,
            "{condition}"
        );
    };
    best_rounds(if plain { 3 } else { 2 }, &mut run)
}

/// A row for each condition on a book.
fn rows(name: &str, known: &Known, plain: bool) {
    for (kind, condition) in every_condition() {
        let times = times(known, &condition, plain);
        let plain = times.get(2).map_or("-".into(), |&plain| shown(plain));
        println!(
            "| {name}, g = {}, k = {} | {kind} | {} | {} | {} | {:.2} | {plain} |",
            known.branching,
            known.count,
            condition.len(),
            shown(times[0]),
            shown(times[1]),
            times[0] / times[1],
        );
    }
}

pub fn table() {
    println!("Time of a call, best of the rounds, seed {SEED}.\n");
    println!("| Book | condition | bytes | count | counting pass | ratio | plain Rust |");
    println!("{}|", "|---".repeat(7));
    rows("choices", &known::free(20, 0, 40), false);
    rows("choices", &known::free(10, 0, 20), true);
    rows("pairs", &known::pairs(10, 0), true);
    rows("some facts free", &known::chosen(10, 20), false);
    let busy = known::busy(&mut rng("busy"), 14, BYTE_ATOMS);
    rows("largest lawful book", &busy, false);
}
