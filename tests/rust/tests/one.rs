//! `lesson_one` of the compiled archive: the state that it hands out is the first of the listing, by the
//! oracle and by `lesson_list`, and everything else is as document 01 says. Which books have their first
//! state where a search does not look first is tried in `first`.

use lesson_tests::book::{
    hex, not, plain, width, Book, BYTE_ATOMS, LONGEST_RECORD, MAX_ATOMS, WIDE,
};
use lesson_tests::causes::{every_set, AnyBytes, ANSWERS};
use lesson_tests::drive::{at, Drive};
use lesson_tests::expected::branching;
use lesson_tests::ffi::{self, Outcome};
use lesson_tests::known::{self, Known};
use lesson_tests::listed::{assert_one, first_listed, one_of_known, one_outcome};
use lesson_tests::oracle;
use lesson_tests::rng::{seed, Rng};
use lesson_tests::shapes::{self, Layering, B, NO_LAYERS};
use lesson_tests::sweep;
use lesson_tests::truth::Truth;
use std::thread;

/// More bytes than any listing has with which a state is compared.
const ROOM: usize = 1 << 18;

/// The engine's outcome on fenced copies is the one expected; and where a state is handed out, it is the
/// first that `lesson_list` has for the same book, layer and set.
fn assert_outcome(what: &str, book: &[u8], drive: Drive, buffer: &[u8], expected: &Outcome) {
    assert_one(what, book, drive, buffer, expected);
    if expected.0 & 0xFF == 0 {
        let first = first_listed(book, drive, ROOM);
        let handed_out = &expected.1[..first.len()];
        assert_eq!(hex(&first), hex(handed_out), "{what}\n{}", hex(book));
    }
}

/// The engine refuses with this cause, and every byte is as it was.
fn assert_refused(what: &str, book: &[u8], drive: Drive, buffer: &[u8], cause: u64) {
    assert_one(what, book, drive, buffer, &(cause, buffer.to_vec()));
}

/// Engine and oracle agree, or engine and plain Rust on a book that is too large for the oracle. The
/// cause is returned, or 0.
fn agree(what: &str, book: &[u8], drive: Drive, buffer: &[u8]) -> u64 {
    let expected = Truth::new(book, drive).one(buffer);
    assert_outcome(what, book, drive, buffer, &expected);
    expected.0 & 0xFF
}

/// Compares engine and oracle at every layer of `number` books, with buffers from none to a record
/// and some bytes more.
fn sweep(shape: &str, number: usize, generate: impl Fn(&mut Rng) -> Book) {
    let mut tally = [0; ANSWERS];
    let tried = sweep::layers(shape, number, generate, |swept, rng| {
        let models = swept.driven.stable_models();
        let first = models.first().map(|model| oracle::record(model));
        let g = swept.driven.branching_count();
        for length in 0..4 {
            let buffer = rng.bytes(length);
            let expected = one_outcome(first.as_deref(), 1, g, &buffer);
            assert_outcome(swept.what, swept.bytes, swept.drive, &buffer, &expected);
            tally[(expected.0 & 0xFF) as usize] += 1;
        }
    });
    println!("{tried}, answers 0 to 19: {tally:?}");
    for answer in [0, 13, 14] {
        assert!(tally[answer] > 300, "{answer} is rare: {tally:?}");
    }
}

#[test]
fn states_handed_out_for_books_in_chains_are_the_first_listed() {
    sweep("one, chains", 2_000, |rng| {
        shapes::layered(rng, Layering::Chain)
    });
}

#[test]
fn states_handed_out_for_books_in_diamonds_are_the_first_listed() {
    sweep("one, diamonds", 2_000, |rng| {
        shapes::layered(rng, Layering::Diamond)
    });
}

#[test]
fn states_handed_out_for_books_in_unrelated_branches_are_the_first_listed() {
    sweep("one, branches", 2_000, |rng| {
        shapes::layered(rng, Layering::Branches)
    });
}

#[test]
fn states_handed_out_for_books_with_any_arrows_are_the_first_listed() {
    sweep("one, any arrows", 2_000, |rng| {
        shapes::layered(rng, Layering::Any)
    });
}

#[test]
fn states_handed_out_for_books_with_many_states_are_the_first_listed() {
    sweep("one, many states", 1_000, |rng| {
        shapes::crowded(rng, Layering::Diamond)
    });
}

/// A book whose states are known, in buffers from none to a record and some bytes more.
fn assert_known(what: &str, known: &Known) {
    let bytes = known.book.bytes();
    let width = width(known.book.atoms);
    let first = known.first();
    for length in 0..width + 4 {
        let buffer = Rng::new(length as u64).bytes(length);
        let expected = one_outcome(first.as_deref(), width, known.branching, &buffer);
        assert_outcome(what, &bytes, known.layer.into(), &buffer, &expected);
    }
}

#[test]
fn records_have_their_length_at_every_number_of_facts() {
    let seed = seed();
    let mut rng = Rng::named(seed, "one, spread");
    let mut empty = 0;
    let few = [8, 9, 16, 17, 64, 65, BYTE_ATOMS - 1, BYTE_ATOMS];
    let sizes: Vec<u16> = few.into_iter().chain(WIDE).collect();
    for &atoms in &sizes {
        for index in 0..20 {
            let small = match index % 2 {
                0 => shapes::crowded(&mut rng, Layering::Chain),
                _ => shapes::layered(&mut rng, Layering::Diamond),
            };
            let layer = rng.below(small.layers.into()) as u8;
            let known = known::spread(&mut rng, &small, layer, atoms);
            assert_known(&format!("seed {seed}, spread over {atoms} facts"), &known);
            empty += usize::from(known.count == 0);
        }
    }
    let number = 20 * sizes.len();
    println!("seed {seed}, one, spread: {number} books, {empty} without a state");
    assert!(empty > 5 && number - empty > 30);
}

#[test]
fn a_state_is_found_wherever_the_search_comes_to_it() {
    for branching in [0, 1, 2, 7, 10] {
        for stand in [true, false] {
            assert_known("single", &known::single(branching, stand));
        }
    }
    assert_known("no facts that branch", &known::pairs(0, 0));
    assert_known("pairs", &known::pairs(4, 1));
    assert_known("displacing pairs", &known::displacing_pairs(4, 1));
    assert_known("free", &known::free(6, 2, 17));
    for following in known::EVERY_FOLLOWING {
        assert_known("followed", &known::followed(4, 4, 20, following));
    }
    for count in [2, 3, 5, 17] {
        assert_known("counted", &known::counted(count, 12));
    }
}

/// One call, for long searches.
fn assert_known_once(what: &str, known: &Known) {
    let bytes = known.book.bytes();
    let width = width(known.book.atoms);
    let mut buffer = vec![0xA5; width + 2];
    let expected = one_of_known(known, &buffer);
    let answer = ffi::one_in_place(&bytes, known.layer.into(), &mut buffer);
    assert_eq!(
        (answer, hex(&buffer)),
        (expected.0, hex(&expected.1)),
        "{what}"
    );
}

#[test]
fn twenty_branching_facts_are_searched_to_the_end() {
    for stand in [true, false] {
        assert_known_once("single", &known::single(20, stand));
    }
    assert_known_once("ten pairs", &known::pairs(10, 0));
    let none = known::quarrelled(known::pairs(10, 0));
    assert_known_once("ten pairs and a quarrel", &none);
}

#[test]
fn more_than_twenty_branching_facts_are_refused_12() {
    for known in known::too_many_branching() {
        for length in [0, 1, 2, 3, 40, LONGEST_RECORD] {
            let what = format!("g = {}", known.branching);
            let buffer = vec![7; length];
            let bytes = known.book.bytes();
            assert_refused(&what, &bytes, known.layer.into(), &buffer, 12);
        }
    }
}

#[test]
fn a_book_without_states_is_refused_14_and_only_then() {
    let book = Book::new(1, 1).rule(0, plain(0), &[not(0)]);
    for length in 1..4 {
        let buffer = vec![7; length];
        assert_refused("p if not p", &book.bytes(), at(0), &buffer, 14);
    }
    let book = book.rule(0, plain(0), &[]);
    let expected = (branching(1), vec![0x80, 7, 7]);
    assert_outcome("and p", &book.bytes(), at(0), &[7; 3], &expected);
}

/// 13 whether or not there is a state.
#[test]
fn a_short_buffer_is_refused_13_before_14() {
    for known in [
        known::free(3, 5, 20),
        known::quarrelled(known::free(3, 5, 20)),
    ] {
        for length in 0..3 {
            let buffer = vec![7; length];
            let bytes = known.book.bytes();
            assert_refused("short", &bytes, at(1), &buffer, 13);
        }
    }
}

#[test]
fn book_b_at_its_layers() {
    for (layer, record, g) in [(1, 0xA0, 1), (2, 0x80, 2), (3, 0x20, 2)] {
        for length in [1, 5] {
            let buffer = vec![7; length];
            let expected = one_outcome(Some(&[record]), 1, g, &buffer);
            assert_outcome("B", &B, at(layer), &buffer, &expected);
        }
        assert_refused("B", &B, at(layer), &[], 13);
    }
}

#[test]
fn a_state_of_the_largest_lawful_books_is_handed_out() {
    let seed = seed();
    let mut rng = Rng::named(seed, "one, busy");
    for atoms in [BYTE_ATOMS, 700, MAX_ATOMS] {
        for branching in [1, 8, 11] {
            let known = known::busy(&mut rng, branching, atoms);
            let what = format!("seed {seed}, {atoms} facts, g = {branching}");
            assert_known_once(&what, &known);
            let scattered = known::scattered(&mut rng, known, atoms);
            assert_known_once(&format!("{what}, scattered"), &scattered);
        }
        assert_known_once("worst order for filling", &known::chained(1, atoms));
        for choices in [0, 4] {
            let what = format!("seed {seed}, junction of {atoms} facts, {choices} choices");
            assert_known_once(&what, &known::junction(&mut rng, choices, atoms));
        }
    }
}

#[test]
fn a_state_of_the_slowest_books_is_handed_out_where_there_is_one() {
    let seed = seed();
    let mut rng = Rng::named(seed, "one, slow");
    for atoms in [BYTE_ATOMS, MAX_ATOMS] {
        for (what, known) in known::every_slow(&mut rng, 5, atoms) {
            assert_known_once(&format!("seed {seed}, {atoms} facts, {what}"), &known);
        }
    }
}

/// L - 1 is the last, and L and 2^32 - 1 are among the others.
#[test]
fn layers_of_the_book_are_driven_and_all_others_are_refused_9() {
    for layers in [1, 2, 31, 32] {
        let bytes = shapes::state_in_each_layer(6, layers).bytes();
        for layer in 0..layers {
            let record = oracle::record(&shapes::state_of_layer(6, layer));
            let expected = one_outcome(Some(&record), 1, 0, &[7; 3]);
            assert_outcome("a layer", &bytes, layer.into(), &[7; 3], &expected);
        }
        for layer in NO_LAYERS.into_iter().chain([layers.into()]) {
            for length in [0, 1, 3] {
                assert_refused("no layer", &bytes, at(layer), &vec![7; length], 9);
            }
        }
    }
}

#[test]
fn any_bytes_come_to_what_reader_and_oracle_say() {
    let any_bytes = AnyBytes {
        name: "one, any call",
        large: 250,
        other: 1_500,
        given: &[0, 1, 2, 3, 4, 5, 6, 7, 8, 9, 12, 13, 14, 19],
        least: 50,
    };
    any_bytes.ask(shapes::quick, |rng, what, bytes| {
        let drive = shapes::any_drive(rng, bytes);
        let length = rng.pick(&[0, 1, 1, 2, 40, LONGEST_RECORD]);
        agree(what, bytes, drive, &rng.bytes(length))
    });
}

#[test]
fn of_several_causes_the_first_tested_is_given() {
    let seed = seed();
    let mut rng = Rng::named(seed, "one, first cause");
    for causes in every_set(&[1, 2, 3, 4, 5, 6, 7, 8, 9, 19, 12, 13, 14]) {
        let call = causes.one_record(&mut rng);
        let what = format!("seed {seed}, {causes}");
        let expected = match causes.first() {
            Some(cause) => (cause, call.buffer.clone()),
            None => one_of_known(&call.known, &call.buffer),
        };
        assert_outcome(&what, &call.book, call.drive, &call.buffer, &expected);
    }
}

/// The low half of the length must not be all that is looked at.
#[test]
fn buffer_of_more_than_4_gib_is_long_enough() {
    let mut buffer = vec![0; 1 << 32];
    assert_eq!(ffi::one_in_place(&B, at(3), &mut buffer), branching(2));
    assert_eq!(buffer[..4], [0x20, 0, 0, 0]);
}

#[test]
fn four_threads_on_one_book_get_the_same_state() {
    let seed = seed();
    let known = known::busy(&mut Rng::named(seed, "one, threads"), 8, MAX_ATOMS);
    let (bytes, drive) = (known.book.bytes(), known.layer.into());
    let buffer = vec![7; LONGEST_RECORD + 1];
    let expected = one_of_known(&known, &buffer);
    thread::scope(|scope| {
        for _ in 0..4 {
            scope.spawn(|| {
                for _ in 0..5 {
                    let mut after = buffer.clone();
                    let answer = ffi::one_in_place(&bytes, drive, &mut after);
                    assert!((answer, after) == expected, "seed {seed}\n{}", hex(&bytes));
                }
            });
        }
    });
}
