//! `lesson_place` of the compiled archive against the oracle, against books whose states are known,
//! and against document 01's numbers.

use lesson_tests::book::{hex, not, plain, Book, BYTE_ATOMS, MAX_ATOMS, WIDE};
use lesson_tests::causes::{every_set, fields, AnyBytes};
use lesson_tests::drive::{at, Drive};
use lesson_tests::expected::{place_of, NO_STABLE_STATE, NO_SUCH_FACT};
use lesson_tests::ffi;
use lesson_tests::known::{self, Known, EVERY_FOLLOWING};
use lesson_tests::rng::{seed, Rng};
use lesson_tests::shapes::{self, Layering, B, NO_LAYERS};
use lesson_tests::sweep;
use lesson_tests::truth::Truth;
use std::thread;

/// What to add to a fact's number so that only a part of it is the fact.
const PARTS: [u32; 5] = [BYTE_ATOMS as u32, MAX_ATOMS as u32, 32_768, 65_536, 1 << 31];

/// The engine's answer on a fenced copy is the one expected.
fn assert_answer(what: &str, book: &[u8], drive: Drive, fact: u32, expected: u64) {
    let engine = ffi::place(book, drive, fact);
    assert!(
        engine == expected,
        "{what}, {drive}, fact {fact}: engine {engine:#X}, expected {expected:#X}\n{}",
        hex(book)
    );
}

/// Compares engine and oracle for every fact at every layer of `number` books.
fn sweep(shape: &str, number: usize, generate: impl Fn(&mut Rng) -> Book) {
    let (mut places, mut without) = ([0; 3], 0);
    let tried = sweep::layers(shape, number, generate, |swept, rng| {
        let (driven, drive) = (&swept.driven, swept.drive);
        let atoms = u32::from(swept.book.atoms);
        let (models, branching) = (driven.stable_models(), driven.branching_count());
        for fact in 0..atoms {
            let standing = models.iter().filter(|model| model[fact as usize]).count();
            let expected = place_of(branching, standing, models.len());
            assert_answer(swept.what, swept.bytes, drive, fact, expected);
            match expected {
                NO_STABLE_STATE => without += 1,
                granted => places[(granted >> 16) as usize] += 1,
            }
        }
        let part = rng.pick(&PARTS) + rng.below(atoms as usize) as u32;
        for fact in [atoms, part, u32::MAX] {
            assert_answer(swept.what, swept.bytes, drive, fact, NO_SUCH_FACT);
        }
    });
    println!("{tried}, in none, some, every state: {places:?}, no state: {without}");
    assert!(places.iter().all(|&times| times > 200), "{places:?}");
    assert!(without > 300, "only {without} without a state");
}

#[test]
fn places_in_books_in_chains_are_the_oracles() {
    sweep("place, chains", 3_000, |rng| {
        shapes::layered(rng, Layering::Chain)
    });
}

#[test]
fn places_in_books_in_diamonds_are_the_oracles() {
    sweep("place, diamonds", 2_000, |rng| {
        shapes::layered(rng, Layering::Diamond)
    });
}

#[test]
fn places_in_books_in_unrelated_branches_are_the_oracles() {
    sweep("place, branches", 2_000, |rng| {
        shapes::layered(rng, Layering::Branches)
    });
}

#[test]
fn places_in_books_with_any_arrows_are_the_oracles() {
    sweep("place, any arrows", 2_500, |rng| {
        shapes::layered(rng, Layering::Any)
    });
}

#[test]
fn places_in_books_with_many_states_are_the_oracles() {
    sweep("place, many states", 700, |rng| {
        shapes::crowded(rng, Layering::Diamond)
    });
}

/// Every fact of a book whose states are known, and numbers that are none.
fn assert_known(what: &str, known: &Known) {
    let bytes = known.book.bytes();
    let drive = known.layer.into();
    let atoms = u32::from(known.book.atoms);
    for (fact, place) in (0..atoms).zip(known.places()) {
        assert_answer(what, &bytes, drive, fact, place);
    }
    for fact in [atoms, u32::MAX].into_iter().chain(PARTS) {
        assert_answer(what, &bytes, drive, fact.max(atoms), NO_SUCH_FACT);
    }
}

#[test]
fn each_fact_is_placed_at_every_number_of_facts() {
    let seed = seed();
    let mut rng = Rng::named(seed, "place, spread");
    let few = [8, 9, 16, 17, 64, 65, BYTE_ATOMS - 1, BYTE_ATOMS];
    let sizes: Vec<u16> = few.into_iter().chain(WIDE).collect();
    for &atoms in &sizes {
        for _ in 0..6 {
            let small = shapes::crowded(&mut rng, Layering::Chain);
            let layer = rng.below(small.layers.into()) as u8;
            let known = known::spread(&mut rng, &small, layer, atoms);
            assert_known(&format!("seed {seed}, spread over {atoms} facts"), &known);
        }
    }
    println!("seed {seed}, place, spread: {} books", 6 * sizes.len());
    let few = [2, 7, 8, 9, BYTE_ATOMS - 1, BYTE_ATOMS];
    for atoms in few.into_iter().chain(WIDE) {
        assert_known("last fact free", &known::free(1, atoms - 2, atoms));
    }
    let few = [3, 8, 9, BYTE_ATOMS - 1, BYTE_ATOMS];
    for atoms in few.into_iter().chain(WIDE) {
        assert_known("no state", &known::quarrelled(known::free(1, 0, atoms - 1)));
    }
}

/// In books of any number of states, some facts stand in all states but one, and some in one.
#[test]
fn the_last_state_found_may_decide() {
    for count in [2, 3, 5, 9, 16, 17, 33] {
        assert_known(&format!("{count} states"), &known::counted(count, 13));
    }
    for following in EVERY_FOLLOWING {
        let known = known::followed(4, 4, 12, following);
        assert_known(&format!("{following:?}"), &known);
    }
    for branching in [1, 2, 7] {
        for stand in [true, false] {
            assert_known("single", &known::single(branching, stand));
        }
    }
}

/// One call, for long searches.
fn assert_known_once(what: &str, known: &Known, fact: u16, expected: u64) {
    let answer = ffi::place_in_place(&known.book.bytes(), known.layer.into(), fact.into());
    assert!(
        answer == expected,
        "{what}, fact {fact}: engine {answer:#X}, expected {expected:#X}"
    );
}

#[test]
fn twenty_branching_facts_are_searched_to_the_end() {
    let single = known::single(20, true);
    assert_known_once("all stand", &single, 7, place_of(20, 1, 1));
    assert_known_once("and one does not", &single, 20, place_of(20, 0, 1));
    let single = known::single(20, false);
    assert_known_once("none stands", &single, 7, place_of(20, 0, 1));
    let pairs = known::pairs(10, 0);
    assert_known_once("one of two", &pairs, 19, place_of(20, 512, 1_024));
    let none = known::quarrelled(pairs);
    assert_known_once("a quarrel", &none, 0, NO_STABLE_STATE);
}

#[test]
fn more_than_twenty_branching_facts_are_refused_12_and_no_fact_11_before() {
    for known in known::too_many_branching() {
        let bytes = known.book.bytes();
        let drive = known.layer.into();
        let atoms = u32::from(known.book.atoms);
        let what = format!("g = {}", known.branching);
        for fact in [0, atoms - 1] {
            assert_answer(&what, &bytes, drive, fact, 12);
        }
        for fact in [atoms, u32::MAX] {
            assert_answer(&what, &bytes, drive, fact, 11);
        }
    }
}

#[test]
fn a_book_without_states_is_refused_14_for_each_fact_and_only_then() {
    let book = Book::new(3, 1)
        .rule(0, plain(0), &[not(0)])
        .rule(0, plain(1), &[]);
    for fact in 0..3 {
        assert_answer("p if not p", &book.bytes(), at(0), fact, 14);
    }
    let book = book.rule(0, plain(0), &[]);
    for (fact, standing) in [(0, 1), (1, 1), (2, 0)] {
        let place = place_of(1, standing, 1);
        assert_answer("and p", &book.bytes(), at(0), fact, place);
    }
}

/// In each layer other facts stand.
#[test]
fn layers_of_the_book_are_driven_and_all_others_are_refused_9() {
    for layers in [1, 2, 31, 32] {
        let bytes = shapes::state_in_each_layer(5, layers).bytes();
        for layer in 0..layers {
            for fact in 0..5 {
                let stands = shapes::stands_in_layer(layer, fact);
                let place = place_of(0, stands.into(), 1);
                assert_answer("a layer", &bytes, layer.into(), fact.into(), place);
            }
        }
        for layer in NO_LAYERS.into_iter().chain([layers.into()]) {
            for fact in [0, 4, 5, u32::MAX] {
                assert_answer("no layer", &bytes, at(layer), fact, 9);
            }
        }
    }
}

#[test]
fn book_b_at_its_layers() {
    for (layer, standing, g) in [(1, [1, 0, 1], 1), (2, [1, 0, 0], 2), (3, [0, 0, 1], 2)] {
        for (fact, standing) in (0..3).zip(standing) {
            assert_answer("B", &B, at(layer), fact, place_of(g, standing, 1));
        }
    }
}

#[test]
fn facts_of_the_largest_lawful_books_are_placed() {
    let seed = seed();
    let mut rng = Rng::named(seed, "place, busy");
    for atoms in [BYTE_ATOMS, 700, MAX_ATOMS] {
        for branching in [1, 8] {
            let known = known::busy(&mut rng, branching, atoms);
            let known = known::scattered(&mut rng, known, atoms);
            let places = known.places();
            for fact in (0..atoms).step_by(15) {
                let what = format!("seed {seed}, {atoms} facts, g = {branching}");
                assert_known_once(&what, &known, fact, places[usize::from(fact)]);
            }
        }
        let chained = known::chained(2, atoms);
        assert_known_once("a chain", &chained, atoms - 2, place_of(3, 4, 4));
        assert_known_once("its end", &chained, atoms - 1, place_of(3, 0, 4));
        let junction = known::junction(&mut rng, 3, atoms);
        let places = junction.places();
        for fact in (0..atoms).step_by(101) {
            let what = format!("seed {seed}, junction of {atoms} facts");
            assert_known_once(&what, &junction, fact, places[usize::from(fact)]);
        }
    }
}

#[test]
fn facts_of_the_slowest_books_are_placed() {
    let seed = seed();
    let mut rng = Rng::named(seed, "place, slow");
    for atoms in [BYTE_ATOMS, MAX_ATOMS] {
        for (what, known) in known::every_slow(&mut rng, 3, atoms) {
            let places = known.places();
            for fact in (0..8).chain([100, 200]).chain(atoms - 5..atoms) {
                let place = places[usize::from(fact)];
                assert_known_once(&format!("seed {seed}, {what}"), &known, fact, place);
            }
        }
    }
}

#[test]
fn any_bytes_are_answered_as_by_reader_and_oracle() {
    let any_bytes = AnyBytes {
        name: "place, any call",
        large: 250,
        other: 1_500,
        given: &[0, 1, 2, 3, 4, 5, 6, 7, 8, 9, 11, 12, 14, 19],
        least: 50,
    };
    any_bytes.ask(shapes::quick, |rng, what, bytes| {
        let drive = shapes::any_drive(rng, bytes);
        let (facts, _) = fields(bytes);
        let fact = match rng.chance(80) {
            true => rng.below(facts.max(1)) as u32,
            false => facts as u32 + rng.pick(&[0, 1, MAX_ATOMS.into(), 65_536]),
        };
        let expected = Truth::new(bytes, drive).place(fact);
        assert_answer(what, bytes, drive, fact, expected);
        expected & 0xFF
    });
}

#[test]
fn of_several_causes_the_first_tested_is_given() {
    let seed = seed();
    let mut rng = Rng::named(seed, "place, first cause");
    for causes in every_set(&[1, 2, 3, 4, 5, 6, 7, 8, 9, 19, 11, 12, 14]) {
        let mut known = match causes.has(12) {
            true => known::displacing_pairs(10, 1),
            false => known::displacing_pairs(2, 0),
        };
        if causes.has(14) {
            known = known::quarrelled(known);
        }
        let bytes = shapes::broken(&mut rng, &known.book, causes.of_the_book());
        let drive = causes.drive(&mut rng, known.book.layers, known.layer);
        let fact = match causes.has(11) {
            true => rng.pick(&[known.book.atoms.into(), MAX_ATOMS.into(), 65_536, u32::MAX]),
            false => rng.below(4) as u32,
        };
        let granted = || known.places()[fact as usize];
        let expected = causes.first().unwrap_or_else(granted);
        let what = format!("seed {seed}, {causes}");
        assert_answer(&what, &bytes, drive, fact, expected);
    }
}

#[test]
fn four_threads_on_one_book_get_the_same_answers() {
    let seed = seed();
    let known = known::busy(&mut Rng::named(seed, "place, threads"), 8, MAX_ATOMS);
    let bytes = known.book.bytes();
    let places = known.places();
    thread::scope(|scope| {
        for _ in 0..4 {
            scope.spawn(|| {
                for fact in [0, 3, 8, 100, 200, 300, 600, 1_000] {
                    let answer = ffi::place_in_place(&bytes, known.layer.into(), fact);
                    assert_eq!(answer, places[fact as usize], "seed {seed}, fact {fact}");
                }
            });
        }
    });
}
