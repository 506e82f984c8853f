//! All calls on a driven layer at once: on small books against the oracle, against states that are
//! known, and against misreadings, which must find others; and on large books whose states are known.

use crate::book::{hex, width, Book, BYTE_ATOMS, MAX_ATOMS};
use crate::conditions::{self, Tree};
use crate::drive::Drive;
use crate::expected::{counts, fit_counts, place_of, yes_or_no, Asked};
use crate::ffi;
use crate::known::{some_facts, Known};
use crate::listed::{
    assert_nearest, assert_nearest_in_place, assert_one, assert_outcome, nearest_of,
    nearest_outcome, one_outcome, outcome,
};
use crate::misreadings::{Misread, Misreading};
use crate::oracle;

/// What a buffer has before a call.
pub const FILLER: u8 = 0xA5;

/// Longer than any listing of 8 facts.
pub const ROOM: usize = 300;

/// Conditions with each operator on the first facts and the last ones, and one that is refused.
fn conditions_on(atoms: u16) -> [String; 6] {
    let (last, middle) = (atoms - 1, atoms / 2);
    [
        "0".into(),
        format!("!{last}"),
        format!("0&!{last}|{middle}"),
        format!("!(0|{middle})&!{last}"),
        format!("0|!0&{last}"),
        format!("0|{atoms}"),
    ]
}

/// Every state of so many facts.
pub fn states(atoms: u16) -> impl Iterator<Item = Vec<bool>> {
    (0..1u32 << atoms).map(move |number| (0..atoms).map(|atom| number >> atom & 1 == 1).collect())
}

/// All calls come to what the oracle says, for every state and every fact of a small book, and
/// in buffers with room and without. What `lesson_list` answers is returned.
pub fn assert_as_the_oracle(what: &str, book: &Book, drive: Drive) -> u64 {
    let bytes = book.bytes();
    let asked = Asked::new(&bytes, drive);
    let told = |call: &str| format!("{what}, {drive}, {call}\n{}", hex(&bytes));
    for state in states(book.atoms) {
        let record = oracle::record(&state);
        let expected = asked.test(&record);
        let engine = match expected == yes_or_no(true) {
            true => ffi::test(&bytes, drive, &record),
            false => ffi::test_in_place(&bytes, drive, &record),
        };
        assert_eq!(engine, expected, "{}", told(&hex(&record)));
        let nearest = asked.nearest(&record, &[FILLER; 2]);
        assert_nearest_in_place(what, &bytes, drive, [&record, &[FILLER; 2]], &nearest);
    }
    let (answer, _) = asked.list(&[FILLER; ROOM]);
    let exact = 11 + (answer >> 16) as usize;
    for length in [ROOM, exact, exact - 1] {
        let buffer = vec![FILLER; length];
        assert_outcome(what, &bytes, drive, &buffer, &asked.list(&buffer));
    }
    for length in 0..3 {
        let buffer = vec![FILLER; length];
        assert_one(what, &bytes, drive, &buffer, &asked.one(&buffer));
        for candidate in [&[0x00; 1][..], &[0x80], &[0x01], &[]] {
            let nearest = asked.nearest(candidate, &buffer);
            assert_nearest(what, &bytes, drive, [candidate, &buffer], &nearest);
        }
    }
    for fact in 0..=book.atoms.into() {
        let engine = ffi::place(&bytes, drive, fact);
        assert_eq!(engine, asked.place(fact), "{}", told("place"));
    }
    for condition in conditions_on(book.atoms) {
        let engine = ffi::count(&bytes, drive, condition.as_bytes());
        let expected = asked.count(condition.as_bytes());
        assert_eq!(engine, expected, "{}", told(&condition));
    }
    answer
}

/// By all calls, the stable states of a book of at most 8 facts are those of the one-byte
/// records, which rise, and g is this.
pub fn assert_known(what: &str, book: &Book, drive: Drive, records: &[u8], g: usize) {
    let bytes = book.bytes();
    let told = |call: &str| format!("{what}, {drive}, {call}\n{}", hex(&bytes));
    let listed: Vec<&[u8]> = records.chunks(1).collect();
    for state in states(book.atoms) {
        let record = oracle::record(&state);
        let expected = yes_or_no(records.contains(&record[0]));
        let engine = ffi::test(&bytes, drive, &record);
        assert_eq!(engine, expected, "{}", told(&hex(&record)));
        let nearest = nearest_outcome(nearest_of(&listed, &record), 1, g, &[FILLER; 2]);
        assert_nearest(what, &bytes, drive, [&record, &[FILLER; 2]], &nearest);
    }
    let listed: Vec<Vec<u8>> = records.iter().map(|&record| vec![record]).collect();
    let listing = oracle::listing(book.atoms, &listed);
    let buffer = [FILLER; ROOM];
    let expected = outcome(&listing, counts(g, records.len()), &buffer);
    assert_outcome(what, &bytes, drive, &buffer, &expected);
    let expected = one_outcome(listed.first().map(Vec::as_slice), 1, g, &[FILLER; 2]);
    assert_one(what, &bytes, drive, &[FILLER; 2], &expected);
    for fact in 0..book.atoms {
        let stands = |record: &&u8| *record >> (7 - fact) & 1 == 1;
        let standing = records.iter().filter(stands).count();
        let engine = ffi::place(&bytes, drive, fact.into());
        let expected = place_of(g, standing, records.len());
        assert_eq!(engine, expected, "{}", told("place"));
        let engine = ffi::count(&bytes, drive, fact.to_string().as_bytes());
        let expected = fit_counts(g, records.len(), standing);
        assert_eq!(engine, expected, "{}", told("count"));
    }
}

/// The same, and the oracle says so too.
pub fn assert_states(book: &Book, drive: Drive, records: &[u8], branching: usize) {
    assert_known("known", book, drive, records, branching);
    let answer = assert_as_the_oracle("known", book, drive);
    assert_eq!(answer, counts(branching, records.len()), "{drive}");
}

/// The same, and the misreading finds other states.
pub fn assert_trap(book: &Book, drive: Drive, records: &[u8], branching: usize, wrong: Misreading) {
    assert_states(book, drive, records, branching);
    let misread = Misread::new(book, drive, wrong);
    let misled =
        |state: &Vec<bool>| misread.stable(state) != records.contains(&oracle::record(state)[0]);
    let shown = states(book.atoms).any(|state| misled(&state));
    assert!(shown, "the book does not show {wrong:?} at {drive}");
}

/// All calls are refused, and leave every byte.
pub fn assert_refused(what: &str, bytes: &[u8], drive: Drive, cause: u64) {
    let buffers: [&[u8]; 3] = [&[], &[FILLER; 1], &[FILLER; 40]];
    for buffer in buffers {
        let refused = (cause, buffer.to_vec());
        assert_outcome(what, bytes, drive, buffer, &refused);
        let one = ffi::one(bytes, drive, buffer);
        assert_eq!(one, refused, "{what}, {drive}\n{}", hex(bytes));
        let test = ffi::test(bytes, drive, buffer);
        assert_eq!(test, cause, "{what}, {drive}\n{}", hex(bytes));
        for candidate in buffers {
            assert_nearest(what, bytes, drive, [candidate, buffer], &refused);
        }
        let count = ffi::count(bytes, drive, buffer);
        assert_eq!(count, cause, "{what}, {drive}\n{}", hex(bytes));
    }
    for fact in [0, 5, BYTE_ATOMS.into(), MAX_ATOMS.into(), u32::MAX] {
        let place = ffi::place(bytes, drive, fact);
        assert_eq!(place, cause, "{what}, {drive}\n{}", hex(bytes));
    }
}

/// All calls on a book of any size whose states are known, in buffers around the listing's length,
/// and with candidates that are stable and neighbours of these.
pub fn assert_known_book(what: &str, known: &Known) {
    let (bytes, drive) = (known.book.bytes(), known.layer.into());
    let listing = known.listing();
    for length in [listing.len() + 3, listing.len(), listing.len() - 1] {
        let buffer = vec![FILLER; length];
        let expected = outcome(&listing, known.answer(), &buffer);
        assert_outcome(what, &bytes, drive, &buffer, &expected);
    }
    let width = width(known.book.atoms);
    let records: Vec<&[u8]> = listing[11..].chunks(width).collect();
    let first = records.first().copied();
    for length in [width + 3, width, width - 1] {
        let buffer = vec![FILLER; length];
        let expected = one_outcome(first, width, known.branching, &buffer);
        assert_one(what, &bytes, drive, &buffer, &expected);
    }
    let places = known.places();
    for fact in some_facts(known.book.atoms) {
        let place = ffi::place(&bytes, drive, fact.into());
        assert_eq!(place, places[usize::from(fact)], "{what}, {fact}");
    }
    for condition in conditions_on(known.book.atoms) {
        let tree = conditions::read_for(condition.as_bytes(), known.book.atoms);
        let counted = |tree: Tree| fit_counts(known.branching, known.count, tree.fitting_of(known));
        let expected = tree.map_or_else(|cause| cause, counted);
        let engine = ffi::count(&bytes, drive, condition.as_bytes());
        assert_eq!(engine, expected, "{what}: {condition}");
    }
    let buffer = vec![FILLER; width + 1];
    let assert_candidate = |candidate: &[u8]| {
        let stable = records.contains(&candidate);
        let answer = ffi::test(&bytes, drive, candidate);
        assert_eq!(answer, yes_or_no(stable), "{what}: {}", hex(candidate));
        let nearest = nearest_of(&records, candidate);
        let expected = nearest_outcome(nearest, width, known.branching, &buffer);
        assert_nearest_in_place(what, &bytes, drive, [candidate, &buffer], &expected);
    };
    assert_candidate(&vec![0; width]);
    for record in records.iter().take(8) {
        assert_candidate(record);
        for bit in [0x80, 0x01] {
            let mut other = record.to_vec();
            other[0] ^= bit;
            assert_candidate(&other);
        }
    }
}
