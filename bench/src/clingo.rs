//! The searches by clingo, a solver of the field, where it is installed. It gets a book at a driven
//! layer as a program of its own, and knows no g. A call's time takes in writing that program,
//! starting clingo, and reading what it prints. Asked for one state, it hands out any.

use lesson_tests::book::{Book, Literal, Rule};
use lesson_tests::expected::{counts, place_of, NO_STABLE_STATE};
use lesson_tests::ffi::Call;
use lesson_tests::{oracle, reader};
use std::io::Write;
use std::process::{Command, Stdio};

/// Whether it is installed.
pub fn installed() -> bool {
    let version = Command::new("clingo").arg("--version").output();
    version.is_ok_and(|output| output.status.success())
}

/// Its answer, as if g were 0.
pub fn answer(book: &[u8], layer: u32, call: Call) -> u64 {
    let book = reader::read(book).expect("the book is lawful");
    let text = program(&book, layer as u8);
    match call {
        Call::List(buffer) => {
            let mut records = states(&text, book.atoms, "0");
            records.sort();
            let listing = oracle::listing(book.atoms, &records);
            buffer.unwrap_or_default()[..listing.len()].copy_from_slice(&listing);
            counts(0, records.len())
        }
        Call::One(buffer) => match states(&text, book.atoms, "1").first() {
            Some(record) => {
                buffer.unwrap_or_default()[..record.len()].copy_from_slice(record);
                0
            }
            None => NO_STABLE_STATE,
        },
        Call::Place(fact) => {
            let some = |not| format!("{text}:- {not}f({fact}).\n");
            let [with, without] = ["not ", ""].map(|not| states(&some(not), book.atoms, "1").len());
            place_of(0, with, with + without)
        }
        Call::Check | Call::Test(_) | Call::Nearest(..) | Call::Count(_) => {
            unreachable!("no row asks clingo for it")
        }
    }
}

/// The program whose answer sets, seen over f, are the stable states: f(3) is "fact 3" and n(3) is
/// "not fact 3", s(3) says that a body with the head "fact 3" holds, and d that the rules of a layer
/// with a head are displaced. Where no rule says "not fact 3" it is reached just where fact 3 does not
/// stand, and there is no n(3).
fn program(book: &Book, layer: u8) -> String {
    let below = oracle::below(book);
    let below = |earlier: u8, later: u8| below[usize::from(earlier)][usize::from(later)];
    let counts = |rule: &&Rule| rule.layer == layer || below(rule.layer, layer);
    let relevant: Vec<&Rule> = book.rules.iter().filter(counts).collect();
    let mut contested = vec![false; book.atoms.into()];
    for rule in relevant.iter().filter(|rule| rule.head.negated) {
        contested[usize::from(rule.head.atom)] = true;
    }
    let mut text = String::from("#show f/1.\n");
    for atom in (0..book.atoms).filter(|&atom| contested[usize::from(atom)]) {
        text += &format!("n({atom}) :- not s({atom}).\n");
        text += &format!(":- f({atom}), n({atom}).\n:- not f({atom}), not n({atom}).\n");
    }
    for rule in relevant {
        if rule.is_constraint() {
            text += &clause("", held(&rule.body));
            continue;
        }
        text += &rule_clause(rule, &contested);
        if !contested[usize::from(rule.head.atom)] {
            continue;
        }
        if !rule.head.negated {
            text += &clause(&format!("s({})", rule.head.atom), held(&rule.body));
        }
        let displacing = !oracle::leans_on_itself(rule);
        for earlier in (0..book.layers).filter(|&earlier| displacing && below(earlier, rule.layer))
        {
            let displaced = displaced(rule.head.opposite(), earlier);
            text += &clause(&displaced, held(&rule.body));
        }
    }
    text
}

/// A rule whose body is of what is reached.
fn rule_clause(rule: &Rule, contested: &[bool]) -> String {
    let reached = |literal: &Literal| match literal.negated {
        false => format!("f({})", literal.atom),
        true if contested[usize::from(literal.atom)] => format!("n({})", literal.atom),
        true => format!("not f({})", literal.atom),
    };
    let mut body: Vec<String> = rule.body.iter().map(reached).collect();
    body.push(format!("not {}", displaced(rule.head, rule.layer)));
    clause(&reached(&rule.head), body)
}

fn displaced(head: Literal, layer: u8) -> String {
    format!("d({}, {}, {layer})", head.atom, u8::from(head.negated))
}

/// A body as the state has it, whether or not it is reached.
fn held(body: &[Literal]) -> Vec<String> {
    let held = |literal: &Literal| match literal.negated {
        false => format!("not not f({})", literal.atom),
        true => format!("not f({})", literal.atom),
    };
    body.iter().map(held).collect()
}

fn clause(head: &str, body: Vec<String>) -> String {
    format!("{head} :- {}.\n", body.join(", "))
}

/// The records of up to `most` states of a program in any order, or of all where `most` is 0.
fn states(program: &str, atoms: u16, most: &str) -> Vec<Vec<u8>> {
    let mut clingo = Command::new("clingo")
        .args(["-V0", "-Wnone", most, "-"])
        .stdin(Stdio::piped())
        .stdout(Stdio::piped())
        .spawn()
        .expect("clingo starts");
    let mut input = clingo.stdin.take().expect("it is piped");
    input.write_all(program.as_bytes()).expect("clingo reads");
    drop(input);
    let output = clingo.wait_with_output().expect("clingo ends");
    let printed = String::from_utf8(output.stdout).expect("clingo prints text");
    // A line for each state, and then whether there is one.
    let mut lines: Vec<&str> = printed.lines().collect();
    let found = lines.pop();
    assert!(
        matches!(found, Some("SATISFIABLE" | "UNSATISFIABLE")),
        "{found:?}"
    );
    lines.iter().map(|line| record(line, atoms)).collect()
}

/// The record of a state that is printed as its atoms.
fn record(line: &str, atoms: u16) -> Vec<u8> {
    let mut state = vec![false; atoms.into()];
    for atom in line.split_whitespace() {
        let number = atom
            .strip_prefix("f(")
            .and_then(|atom| atom.strip_suffix(')'));
        let number = number.and_then(|number| number.parse::<usize>().ok());
        state[number.expect("an atom of f")] = true;
    }
    oracle::record(&state)
}
