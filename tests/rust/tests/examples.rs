//! The shipped books in `examples/`: that they are what their texts say, and that the files of
//! expected output follow from documents 01 and 02, by the independent reader, oracle and search. The
//! gate compares the same files with what the engine does.

use lesson_tests::book::{Book, Literal};
use lesson_tests::drive::at;
use lesson_tests::oracle::{self, Driven};
use lesson_tests::plain;
use lesson_tests::reader;
use std::collections::BTreeSet;
use std::fs;
use std::path::{Path, PathBuf};

/// The most facts for which every state is tried.
const FEW: u16 = 16;

fn folder() -> PathBuf {
    Path::new(env!("CARGO_MANIFEST_DIR")).join("../../examples")
}

/// The names of the files with this ending.
fn names(ending: &str) -> BTreeSet<String> {
    let files = fs::read_dir(folder()).expect("there are examples");
    let names = files.map(|file| file.expect("a file").file_name().into_string());
    names
        .filter_map(|name| Some(name.ok()?.strip_suffix(ending)?.to_string()))
        .collect()
}

fn text(name: &str, ending: &str) -> String {
    fs::read_to_string(folder().join(name.to_string() + ending)).expect("a text")
}

/// A shipped book, and its bytes.
fn shipped(name: &str) -> (Book, Vec<u8>) {
    let bytes = fs::read(folder().join(name.to_string() + ".book")).expect("a book");
    let book = reader::read(&bytes).unwrap_or_else(|cause| panic!("{name}: refused {cause}"));
    (book, bytes)
}

/// The states at the last layer: every state is tried, or the plain search goes through the
/// branching facts and each state that it finds is tried.
fn states(book: &Book, bytes: &[u8]) -> Vec<Vec<bool>> {
    let driven = Driven::new(book, (book.layers - 1).into());
    if book.atoms <= FEW {
        return driven.stable_models();
    }
    let mut buffer = vec![0; 65_536];
    let answer = plain::list(bytes, (book.layers - 1).into(), &mut buffer);
    assert_eq!(answer & 0xFF, 0, "refused");
    let width = usize::from(book.atoms).div_ceil(8);
    let records = buffer[11..].chunks(width).take(oracle::count(&buffer));
    let states: Vec<Vec<bool>> = records
        .map(|record| oracle::state(record, book.atoms).expect("a record"))
        .collect();
    assert!(states.iter().all(|state| driven.stable(state)));
    states
}

fn digits(state: &[bool]) -> String {
    state
        .iter()
        .map(|&stands| if stands { '1' } else { '0' })
        .collect()
}

/// A text's book, by a reader of its own: no line of a shipped text is wrong, and so it checks
/// little.
fn book_of(text: &str) -> Book {
    let mut lines: Vec<String> = Vec::new();
    for line in text.lines() {
        let line = line.split('#').next().expect("there is a first part");
        match line.starts_with(' ') {
            true => lines.last_mut().expect("a line above").push_str(line),
            false => lines.push(line.to_string()),
        }
    }
    let (mut facts, mut layers): (Vec<&str>, Vec<&str>) = (Vec::new(), Vec::new());
    let mut book = Book::new(0, 0);
    for line in &lines {
        let number = |names: &[&str], name: &str| {
            let at = names.iter().position(|&known| known == name.trim());
            at.unwrap_or_else(|| panic!("{name} in {line}"))
        };
        let layer = |name: &str| number(&layers, name) as u8;
        let literal = |words: &str| match words.trim().strip_prefix("not ") {
            Some(name) => Literal {
                atom: number(&facts, name) as u16,
                negated: true,
            },
            None => Literal {
                atom: number(&facts, words) as u16,
                negated: false,
            },
        };
        let literals = |body: &str| -> Vec<Literal> {
            let body = body.split(',').filter(|words| !words.trim().is_empty());
            body.map(literal).collect()
        };
        let (keyword, rest) = line.split_once(' ').unwrap_or((line, ""));
        match keyword {
            "" => {}
            "facts" => facts.extend(rest.split_whitespace()),
            "layers" => layers.extend(rest.split_whitespace()),
            "arrow" => {
                let (earlier, later) = rest.split_once("->").expect("an arrow");
                book = book.arrow(layer(earlier), layer(later));
            }
            "rule" => {
                let (name, rule) = rest.split_once(':').expect("a layer");
                let (head, body) = rule.split_once(" if ").unwrap_or((rule, ""));
                book = book.rule(layer(name), literal(head), &literals(body));
            }
            "never" => {
                let (name, body) = rest.split_once(':').expect("a layer");
                book = book.never(layer(name), &literals(body));
            }
            _ => panic!("{line}"),
        }
    }
    Book {
        atoms: facts.len() as u16,
        layers: layers.len() as u8,
        ..book
    }
}

#[test]
fn every_shipped_book_has_its_text_and_expected_output() {
    let books = names(".book");
    assert!(books.len() >= 4, "{books:?}");
    for ending in [".txt", ".states", ".host"] {
        assert_eq!(names(ending), books, "{ending}");
    }
}

#[test]
fn shipped_books_are_what_their_texts_say() {
    for name in names(".book") {
        let (book, _) = shipped(&name);
        assert_eq!(book_of(&text(&name, ".txt")), book, "{name}");
    }
}

#[test]
fn shipped_states_are_those_of_documents_01_and_02() {
    for name in names(".book") {
        let (book, bytes) = shipped(&name);
        let states = states(&book, &bytes);
        let branching = Driven::new(&book, (book.layers - 1).into()).branching_count();
        let mut lines = vec![format!(
            "facts {} models {} branching {branching}",
            book.atoms,
            states.len()
        )];
        lines.extend(states.iter().map(|state| digits(state)));
        assert_eq!(text(&name, ".states"), lines.join("\n") + "\n", "{name}");
    }
}

#[test]
fn what_the_host_prints_follows_from_the_states() {
    for name in names(".book") {
        let (book, bytes) = shipped(&name);
        let states = states(&book, &bytes);
        let driven = Driven::new(&book, (book.layers - 1).into());
        let mut lines = vec!["accepted".to_string()];
        lines.push(format!(
            "states {}, branching facts {}",
            states.len(),
            driven.branching_count()
        ));
        lines.extend(states.iter().map(|state| digits(state)));
        let mut tested = states[0].clone();
        for (flipped, said) in [(false, "the first state"), (true, "fact 0 the other way")] {
            tested[0] ^= flipped;
            let stable = match driven.stable(&tested) {
                true => "stable",
                false => "not stable",
            };
            lines.push(format!("{said}: {stable}"));
        }
        let (facts, closest) = oracle::nearest(&states, &tested).expect("a state");
        let closest = digits(closest);
        lines.push(format!("closest to that: {closest}, differs in {facts}"));
        for atom in 0..usize::from(book.atoms) {
            let place = match states.iter().filter(|state| state[atom]).count() {
                0 => "none",
                standing if standing < states.len() => "some",
                _ => "every",
            };
            lines.push(format!("fact {atom}: {place}"));
        }
        assert_eq!(text(&name, ".host"), lines.join("\n") + "\n", "{name}");
    }
}

/// What the texts' comments say of the number of states.
#[test]
fn shipped_books_show_what_they_are_for() {
    let count = |name: &str| {
        let (book, bytes) = shipped(name);
        states(&book, &bytes).len()
    };
    assert_eq!(count("stalled-tram"), 1);
    // By the rules alone there is a second one, in which points 3 lie left and signal 14 is clear.
    let by_rules = Driven::new(&shipped("stalled-tram").0.without_constraints(), at(3));
    assert_eq!(by_rules.stable_models().len(), 2);
    // Three tracks, section 9 occupied or free, two directions; but not track 3 to the town while
    // section 9 is occupied.
    assert_eq!(count("depot-exit"), 3 * 2 * 2 - 1);
    // Section 5 and the hand signal allow three cases. Feeder 2 rules out route B under wire works
    // while the hand says go, whatever tram 12 does.
    assert_eq!(count("market-evening"), 3 * 2 * 2 * 2 - 2);
}

/// The states that `tests/examples` has the host print, with layers switched off.
#[test]
fn shipped_books_with_a_layer_off_have_the_states_of_the_oracle() {
    let states = |name: &str, off: u32| -> Vec<String> {
        let (book, _) = shipped(name);
        let models = Driven::new(&book, at(3).off(off)).stable_models();
        models.iter().map(|state| digits(state)).collect()
    };
    let (depot, lesson) = (1 << 2, 1 << 3);
    assert_eq!(states("stalled-tram", lesson), ["011000"]);
    let free = [
        "00001011110010",
        "00001101110100",
        "00010011111010",
        "00010101111000",
    ];
    assert_eq!(states("depot-exit", depot), free);
    assert_eq!(states("B", 0b1111), ["000"]);
}
