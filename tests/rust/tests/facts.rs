//! Facts whose numbers take more than a byte (document 02, l): what every call answers in the widest books,
//! of facts that agree in their low bytes, and around the bound.

use lesson_tests::book::{
    hex, not, plain, Book, Literal, BYTE_ATOMS, FALSITY, LONGEST_RECORD, MAX_ATOMS, WIDE,
};
use lesson_tests::drive::at;
use lesson_tests::every_call::{assert_known_book, assert_refused};
use lesson_tests::expected::{
    counts, differing, place_of, yes_or_no, BUFFER_TOO_SHORT, MAX_BRANCHING,
};
use lesson_tests::ffi;
use lesson_tests::known;
use lesson_tests::listed::{assert_outcome, outcome};
use lesson_tests::oracle::{self, Driven};
use lesson_tests::reader;
use lesson_tests::rng::{seed, Rng};
use lesson_tests::shapes::{self, Layering};
use std::slice::from_ref;

/// Facts whose numbers have the same low byte.
fn same_low_byte(low: u16) -> [u16; 4] {
    [0, 1, 2, 3].map(|part| low + part * BYTE_ATOMS)
}

/// The state in which of so many facts these stand.
fn standing(atoms: u16, facts: &[u16]) -> Vec<bool> {
    (0..atoms).map(|fact| facts.contains(&fact)).collect()
}

/// Without branching facts, the book has this one state by all calls.
fn assert_only_state(what: &str, book: &Book, facts: &[u16]) {
    let (bytes, drive) = (book.bytes(), at(u32::from(book.layers) - 1));
    let state = standing(book.atoms, facts);
    let driven = Driven::new(book, drive);
    assert!(driven.stable(&state), "{what}: the oracle says otherwise");
    let record = oracle::record(&state);
    let listing = oracle::listing(book.atoms, from_ref(&record));
    let buffer = [7; LONGEST_RECORD + 13];
    let expected = outcome(&listing, counts(0, 1), &buffer);
    assert_outcome(what, &bytes, drive, &buffer, &expected);
    assert_eq!(ffi::one(&bytes, drive, &record), (0, record.clone()));
    for fact in 0..book.atoms {
        let stands = state[usize::from(fact)];
        let place = ffi::place(&bytes, drive, fact.into());
        assert_eq!(place, place_of(0, stands.into(), 1), "{what}, {fact}");
        let mut other = state.clone();
        other[usize::from(fact)] = !stands;
        let other = oracle::record(&other);
        let test = ffi::test_in_place(&bytes, drive, &other);
        assert_eq!(test, yes_or_no(false), "{what}, {fact}");
        let mut nearest = vec![7; record.len()];
        let answer = ffi::nearest_in_place(&bytes, drive, &other, &mut nearest);
        let expected = (differing(0, 1), &record);
        assert_eq!((answer, &nearest), expected, "{what}, {fact}");
    }
    let test = ffi::test(&bytes, drive, &record);
    assert_eq!(test, yes_or_no(true), "{what}\n{}", hex(&bytes));
}

/// Each pair of facts that agree in their low bytes.
fn pairs_of_one_low_byte() -> Vec<(u16, u16)> {
    let lows = [0, 1, 127, 254, 255].into_iter().map(same_low_byte);
    let pairs = lows.flat_map(|facts| facts.map(|fact| (fact, facts)));
    pairs
        .flat_map(|(fact, facts)| facts.map(|other| (fact, other)))
        .filter(|(fact, other)| fact != other)
        .collect()
}

/// The fact stands, and what the book says of the other has nothing to do with it: as the head of a rule, in
/// a body, as the head of a rule that would displace, and in a constraint.
#[test]
fn facts_that_agree_in_their_low_bytes_are_different_facts() {
    let above = Book::new(MAX_ATOMS, 2).arrow(0, 1);
    for (fact, other) in pairs_of_one_low_byte() {
        let what = format!("fact {fact}, not {other}");
        let book = above.clone().rule(0, plain(fact), &[]);
        let follower = (other + 5) % MAX_ATOMS;
        for (said, more, facts) in [
            ("nothing", book.clone(), vec![fact]),
            (
                "a head",
                book.clone().rule(0, plain(other), &[]),
                vec![fact, other],
            ),
            (
                "a denying head",
                book.clone().rule(1, not(other), &[]),
                vec![fact],
            ),
            (
                "its denying head",
                book.clone().rule(1, not(fact), &[]),
                vec![],
            ),
            (
                "a body",
                book.clone().rule(0, plain(follower), &[plain(other)]),
                vec![fact],
            ),
            (
                "its body",
                book.clone().rule(0, plain(follower), &[plain(fact)]),
                vec![fact, follower],
            ),
            (
                "a constraint",
                book.clone().never(1, &[plain(other)]),
                vec![fact],
            ),
            (
                "its negation",
                book.clone().never(1, &[not(fact)]),
                vec![fact],
            ),
        ] {
            assert_only_state(&format!("{what}, {said}"), &more, &facts);
        }
        let banned = book.never(1, &[plain(fact)]).bytes();
        assert_eq!(ffi::place(&banned, at(1), fact.into()), 14, "{what}");
    }
}

/// "f if not h" and "h if not f", where f and h agree in their low bytes: cut to a byte, this would be one
/// fact that has no state.
#[test]
fn choices_between_facts_that_agree_in_their_low_bytes() {
    for low in [0, 7, 8, 255] {
        let facts = same_low_byte(low);
        for &f in &facts {
            for &h in facts.iter().filter(|&&h| h != f) {
                let book = Book::new(MAX_ATOMS, 1).rule(0, plain(f), &[not(h)]).rule(
                    0,
                    plain(h),
                    &[not(f)],
                );
                let mut records = [f, h].map(|fact| oracle::record(&standing(MAX_ATOMS, &[fact])));
                records.sort();
                let listing = oracle::listing(MAX_ATOMS, &records);
                let bytes = book.bytes();
                let buffer = vec![7; listing.len() + 1];
                let expected = outcome(&listing, counts(2, 2), &buffer);
                assert_outcome(&format!("{f} and {h}"), &bytes, at(0), &buffer, &expected);
                for fact in facts {
                    let standing = usize::from(fact == f || fact == h);
                    let place = ffi::place(&bytes, at(0), fact.into());
                    assert_eq!(place, place_of(2, standing, 2), "{f} and {h}, {fact}");
                }
            }
        }
    }
}

/// Whether its numbers cut to a byte would make another book of a small one: two facts that agree in these
/// have different values in a state, or both are spoken of in one rule.
fn told_apart(known: &known::Known) -> bool {
    let mut cut = known.book.clone();
    let low = |literal: &mut Literal| {
        if *literal != FALSITY {
            literal.atom %= BYTE_ATOMS;
        }
    };
    for rule in &mut cut.rules {
        low(&mut rule.head);
        rule.body.iter_mut().for_each(low);
    }
    let driven = Driven::new(&cut, known.layer.into());
    (0..known.count.min(4)).any(|number| !driven.stable(&known.planted(number).state))
        || driven.branching_count() != known.branching
}

#[test]
fn small_books_whose_facts_agree_in_their_low_bytes_have_the_oracles_states() {
    let seed = seed();
    let mut rng = Rng::named(seed, "facts, colliding");
    let (number, mut told) = (240, 0);
    for index in 0..number {
        let layering = rng.pick(&[Layering::Chain, Layering::Diamond, Layering::Any]);
        let small = match index % 4 {
            0 => shapes::crowded(&mut rng, layering),
            1 => shapes::leaning(&mut rng, layering),
            2 => shapes::constrained(&mut rng, layering),
            _ => shapes::layered(&mut rng, layering),
        };
        let layer = rng.below(small.layers.into()) as u8;
        let known = known::colliding(&mut rng, &small, layer);
        let what = format!("seed {seed}, facts, colliding, book {index}");
        assert_known_book(&what, &known);
        told += usize::from(told_apart(&known));
    }
    println!(
        "seed {seed}, facts, colliding: {number} books, {told} of them others by their low bytes"
    );
    assert!(told > number / 3, "{told}");
}

/// Every call, where the facts of known books have numbers all over.
#[test]
fn known_books_are_answered_under_any_numbers() {
    let seed = seed();
    let mut rng = Rng::named(seed, "facts, scattered");
    let mut books = 0;
    for atoms in WIDE {
        for known in [
            known::pairs(4, 1),
            known::displacing_pairs(4, 1),
            known::free(4, 0, 9),
            known::counted(11, 13),
            known::single(5, true),
            known::quarrelled(known::free(2, 0, 6)),
            known::constrained(known::free(3, 0, 6), &[vec![plain(3), not(4)]]),
        ] {
            let known = known::scattered(&mut rng, known, atoms);
            assert_known_book(&format!("seed {seed}, {atoms} facts, scattered"), &known);
            books += 1;
        }
    }
    println!("seed {seed}, facts, scattered: {books} books");
}

/// Document 02, (l): as many facts as the bound pass, and one more meets test 5.
#[test]
fn facts_up_to_the_bound_pass_every_call_and_one_more_is_refused_5() {
    for atoms in WIDE {
        assert_only_state(&format!("{atoms} facts"), &Book::new(atoms, 1), &[]);
    }
    for atoms in [
        MAX_ATOMS + 1,
        MAX_ATOMS + BYTE_ATOMS,
        2 * MAX_ATOMS,
        0x8001,
        0xFFFF,
    ] {
        let bytes = Book::new(atoms, 1).bytes();
        assert_eq!(ffi::check(&bytes), 5, "{atoms} facts");
        assert_refused(&format!("{atoms} facts"), &bytes, at(0), 5);
    }
}

/// In a head and in a body, with both signs, by every call. 32,767 stays lawful as a head.
#[test]
fn literals_at_the_bound_are_lawful_below_the_books_facts_alone() {
    let numbers = [MAX_ATOMS - 1, MAX_ATOMS, 32_766, 32_767];
    for atoms in WIDE {
        for literal in numbers
            .into_iter()
            .flat_map(|fact| [plain(fact), not(fact)])
        {
            let book = Book::new(atoms, 1);
            let lawful = literal.atom < atoms;
            for (what, book, lawful) in [
                (
                    "head",
                    book.clone().rule(0, literal, &[]),
                    lawful || literal == FALSITY,
                ),
                ("body", book.clone().rule(0, plain(0), &[literal]), lawful),
                ("constraint", book.never(0, &[not(0), literal]), lawful),
            ] {
                let bytes = book.bytes();
                let what = format!("{atoms} facts, {literal:?} in a {what}");
                let cause = if lawful { 0 } else { 6 };
                assert_eq!(ffi::check(&bytes), cause, "{what}\n{}", hex(&bytes));
                assert_eq!(u64::from(reader::first_cause(&bytes)), cause, "{what}");
                if !lawful {
                    assert_refused(&what, &bytes, at(0), cause);
                }
            }
        }
    }
    let last = MAX_ATOMS - 1;
    let reached =
        Book::new(MAX_ATOMS, 1)
            .rule(0, plain(last), &[])
            .rule(0, plain(last - 1), &[plain(last)]);
    assert_only_state("the last two", &reached, &[last - 1, last]);
}

/// The number that the header has for a name.
fn in_the_header(name: &str) -> usize {
    let header = include_str!("../../../include/lesson.h");
    let mut lines = header
        .lines()
        .filter_map(|line| line.trim().split_once(" = "));
    let (_, value) = lines.find(|(left, _)| *left == name).expect(name);
    value.trim_end_matches(',').parse().expect(name)
}

/// What `tests/c/bounds_host.c` finds the engine to say is also what the tests here go by.
#[test]
fn the_headers_bounds_follow_from_the_most_facts() {
    assert_eq!(in_the_header("LESSON_MOST_FACTS"), MAX_ATOMS.into());
    assert_eq!(in_the_header("LESSON_LONGEST_RECORD"), LONGEST_RECORD);
    let states = in_the_header("LESSON_MOST_STATES");
    assert_eq!(states, 1 << MAX_BRANCHING);
    let listing = oracle::listing(MAX_ATOMS, &[]).len() + states * LONGEST_RECORD;
    assert_eq!(in_the_header("LESSON_LARGEST_LISTING"), listing);
    let book = shapes::largest(&mut Rng::named(seed(), "facts, largest"), MAX_ATOMS);
    assert_eq!(in_the_header("LESSON_LARGEST_BOOK"), book.bytes().len());
}

/// A record of the widest book has all its bytes, in a buffer of its length and of one byte less.
#[test]
fn the_longest_record_needs_each_of_its_bytes() {
    let book = Book::new(MAX_ATOMS, 1).rule(0, plain(MAX_ATOMS - 1), &[]);
    let bytes = book.bytes();
    let record = oracle::record(&standing(MAX_ATOMS, &[MAX_ATOMS - 1]));
    let one = |length: usize| ffi::one(&bytes, at(0), &vec![7; length]);
    assert_eq!(one(LONGEST_RECORD), (0, record));
    let short = LONGEST_RECORD - 1;
    assert_eq!(one(short), (BUFFER_TOO_SHORT, vec![7; short]));
    assert_eq!(one(32), (BUFFER_TOO_SHORT, vec![7; 32]));
}
