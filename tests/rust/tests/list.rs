//! `lesson_list` of the compiled archive against the oracle, against books whose states are known,
//! and against document 01's numbers.

use lesson_tests::book::{hex, not, plain, width, Book, BYTE_ATOMS, MAX_ATOMS, WIDE};
use lesson_tests::causes::{every_set, AnyBytes};
use lesson_tests::drive::{at, Drive};
use lesson_tests::examples;
use lesson_tests::expected::{counts, yes_or_no};
use lesson_tests::ffi;
use lesson_tests::known::{self, Following, Known, EVERY_FOLLOWING};
use lesson_tests::listed::{assert_outcome, outcome};
use lesson_tests::oracle::{self, Driven};
use lesson_tests::rng::{seed, Rng};
use lesson_tests::shapes::{self, Layering, B, NO_LAYERS};
use lesson_tests::sweep;
use lesson_tests::truth::Truth;
use std::thread;

const P: u16 = 0;
const Q: u16 = 1;

/// How often the cases came up for which random books are there.
#[derive(Debug, Default)]
struct Tally {
    /// Listings of none, one, two or three, and more states.
    listings: [usize; 4],
    /// Listings with two states that agree on the negated facts and so are one to a search that
    /// branches on these alone.
    lost: usize,
    calls: usize,
}

/// Compares engine and oracle at every layer of `number` books, each with buffers around the
/// listing's length.
fn sweep(shape: &str, number: usize, generate: impl Fn(&mut Rng) -> Book) -> Tally {
    let mut tally = Tally::default();
    let tried = sweep::layers(shape, number, generate, |swept, rng| {
        let driven = &swept.driven;
        let models = driven.stable_models();
        let listing = driven.listing();
        let answer = counts(driven.branching_count(), models.len());
        let exact = listing.len();
        let lengths: Vec<usize> = match swept.index % 16 {
            0 => (0..exact + 4).collect(),
            _ => vec![
                exact,
                exact - 1,
                exact + rng.range(1, 20),
                rng.below(exact + 10),
            ],
        };
        for &length in &lengths {
            let buffer = rng.bytes(length);
            let expected = outcome(&listing, answer, &buffer);
            assert_outcome(swept.what, swept.bytes, swept.drive, &buffer, &expected);
        }
        tally.calls += lengths.len();
        count(&mut tally, driven, &models);
    });
    println!("{tried}, {tally:?}");
    tally
}

fn count(tally: &mut Tally, driven: &Driven, models: &[Vec<bool>]) {
    tally.listings[match models.len() {
        0 => 0,
        1 => 1,
        2..=3 => 2,
        _ => 3,
    }] += 1;
    let negated = driven.negated_in_a_body();
    let agree = |(one, two): (&Vec<bool>, &Vec<bool>)| {
        (0..negated.len()).all(|atom| !negated[atom] || one[atom] == two[atom])
    };
    let mut neighbours = models.iter().zip(models.iter().skip(1));
    tally.lost += usize::from(neighbours.any(agree));
}

/// Random books are worth their time only if none, one and several states come up, and states that
/// only the second ground for branching tells apart.
fn assert_telling(tally: &Tally, listings: [usize; 4], lost: usize) {
    let enough = tally.listings.iter().zip(listings).all(|(a, b)| *a >= b);
    assert!(enough && tally.lost >= lost, "{tally:?}");
}

#[test]
fn listings_of_books_in_chains_are_the_oracles() {
    let tally = sweep("list, chains", 6_000, |rng| {
        shapes::layered(rng, Layering::Chain)
    });
    assert_telling(&tally, [500, 1_000, 100, 0], 10);
}

#[test]
fn listings_of_books_in_diamonds_are_the_oracles() {
    let tally = sweep("list, diamonds", 3_000, |rng| {
        shapes::layered(rng, Layering::Diamond)
    });
    assert_telling(&tally, [500, 1_000, 100, 0], 10);
}

#[test]
fn listings_of_books_in_unrelated_branches_are_the_oracles() {
    let tally = sweep("list, branches", 3_500, |rng| {
        shapes::layered(rng, Layering::Branches)
    });
    assert_telling(&tally, [500, 1_000, 100, 0], 10);
}

#[test]
fn listings_of_books_with_any_arrows_are_the_oracles() {
    let tally = sweep("list, any arrows", 6_000, |rng| {
        shapes::layered(rng, Layering::Any)
    });
    assert_telling(&tally, [500, 1_000, 100, 0], 10);
}

#[test]
fn listings_of_books_with_many_states_are_the_oracles() {
    for layering in [Layering::Chain, Layering::Diamond, Layering::Branches] {
        let shape = format!("list, many states, {layering:?}");
        let tally = sweep(&shape, 700, |rng| shapes::crowded(rng, layering));
        assert_telling(&tally, [20, 50, 50, 200], 40);
    }
}

/// Books without the motifs of `layered`.
#[test]
fn listings_of_plain_random_books_are_the_oracles() {
    let tally = sweep("list, small", 1_000, shapes::small);
    assert_telling(&tally, [200, 1_000, 0, 0], 0);
}

/// A book whose states are known is listed so in buffers around the listing's length, and each of
/// its records passes the test.
fn assert_known(what: &str, known: &Known) {
    let bytes = known.book.bytes();
    let drive = known.layer.into();
    let listing = known.listing();
    let mut rng = Rng::new(0);
    for length in [listing.len(), listing.len() - 1, listing.len() + 9] {
        let buffer = rng.bytes(length);
        let expected = outcome(&listing, known.answer(), &buffer);
        assert_outcome(what, &bytes, drive, &buffer, &expected);
    }
    for record in listing[11..].chunks(width(known.book.atoms)) {
        let answer = ffi::test_in_place(&bytes, drive, record);
        assert_eq!(answer, yes_or_no(true), "{what}: {}", hex(record));
    }
}

/// The same for long searches: one call, on a buffer with five bytes more than the listing takes.
fn assert_known_once(what: &str, known: &Known) {
    let listing = known.listing();
    let mut buffer = vec![0xA5; listing.len() + 5];
    let bytes = known.book.bytes();
    let answer = ffi::list_in_place(&bytes, known.layer.into(), &mut buffer);
    let (written, rest) = buffer.split_at(listing.len());
    assert!(
        answer == known.answer(),
        "{what}: engine {answer:#X}, expected {:#X}",
        known.answer()
    );
    let differs = written.iter().zip(&listing).position(|(a, b)| a != b);
    assert_eq!(differs, None, "{what}: first byte that differs");
    assert_eq!(rest, [0xA5; 5], "{what}");
}

#[test]
fn records_are_right_at_every_length_of_theirs() {
    let seed = seed();
    let mut rng = Rng::named(seed, "spread");
    let mut several = 0;
    let few = [8, 9, 16, 17, 24, 63, 64, 65, 128, 129, 248, 249];
    let few = few.into_iter().chain([BYTE_ATOMS - 1, BYTE_ATOMS]);
    let sizes: Vec<u16> = few.chain(WIDE).collect();
    for &atoms in &sizes {
        for index in 0..60 {
            let small = match index % 3 {
                0 => shapes::crowded(&mut rng, Layering::Chain),
                1 => shapes::crowded(&mut rng, Layering::Diamond),
                _ => shapes::layered(&mut rng, Layering::Any),
            };
            let layer = rng.below(small.layers.into()) as u8;
            let known = known::spread(&mut rng, &small, layer, atoms);
            assert_known(&format!("seed {seed}, spread over {atoms} facts"), &known);
            several += usize::from(known.count > 1);
        }
    }
    println!(
        "seed {seed}, spread: {} books, {several} with several states",
        60 * sizes.len()
    );
    assert!(several > 200, "only {several} with several states");
}

#[test]
fn no_branching_fact_at_all() {
    let few = [1, 7, 8, 9, 17, 64, BYTE_ATOMS - 1, BYTE_ATOMS];
    for atoms in few.into_iter().chain(WIDE) {
        let mut book = Book::new(atoms, 1);
        assert_known_book("no rules", &book, &[vec![false; atoms.into()]]);
        for atom in 0..atoms {
            book = book.rule(0, plain(atom), &[plain(atom.saturating_sub(1))]);
        }
        assert_known_book("a circle", &book, &[vec![false; atoms.into()]]);
        book.rules[0].body.clear();
        assert_known_book("a chain", &book, &[vec![true; atoms.into()]]);
        // The bound on rules may leave no room for one more.
        book.rules.truncate(1_023);
        let book = book.rule(0, not(P), &[]);
        assert_known_book("a quarrel", &book, &[]);
    }
}

/// A book of one layer without branching facts.
fn assert_known_book(what: &str, book: &Book, states: &[Vec<bool>]) {
    let records: Vec<Vec<u8>> = states.iter().map(|state| oracle::record(state)).collect();
    let listing = oracle::listing(book.atoms, &records);
    let buffer = vec![0xA5; listing.len() + 3];
    let expected = outcome(&listing, counts(0, states.len()), &buffer);
    assert_outcome(what, &book.bytes(), at(0), &buffer, &expected);
}

#[test]
fn one_branching_fact() {
    assert_known("p if not q", &known::pairs(0, 1));
    assert_known("not p if q, above p", &known::displacing_pairs(0, 1));
    assert_known("one free fact", &known::free(1, 0, 2));
    for atoms in [BYTE_ATOMS].into_iter().chain(WIDE) {
        let what = format!("one free fact, the last of {atoms}");
        assert_known(&what, &known::free(1, atoms - 2, atoms));
    }
    let none = Book::new(1, 1).rule(0, plain(P), &[not(P)]);
    let expected = outcome(&oracle::listing(1, &[]), counts(1, 0), &[7; 11]);
    assert_outcome("p if not p", &none.bytes(), at(0), &[7; 11], &expected);
}

#[test]
fn nineteen_branching_facts() {
    assert_known_once("nine pairs and one", &known::pairs(9, 1));
}

/// Document 01: g of 20 is searched.
#[test]
fn twenty_branching_facts_are_searched() {
    assert_known_once("ten pairs", &known::pairs(10, 0));
}

#[test]
fn twenty_branching_facts_on_the_second_ground_alone_are_searched() {
    assert_known_once("ten pairs", &known::displacing_pairs(10, 0));
}

/// Document 01: 21 is 12. Numbers whose low byte is small must not pass.
#[test]
fn more_than_twenty_branching_facts_are_refused_12() {
    let books = [
        known::pairs(10, 1),
        known::pairs(11, 0),
        known::displacing_pairs(10, 1),
        known::displacing_pairs(0, 21),
        known::pairs(0, 64),
        known::pairs(BYTE_ATOMS / 2 - 1, 1),
        known::pairs(BYTE_ATOMS / 2, 0),
        known::pairs(BYTE_ATOMS / 2, 1),
        known::pairs(MAX_ATOMS / 2 - 1, 1),
        known::pairs(MAX_ATOMS / 2, 0),
    ];
    for known in books {
        let drive = known.layer.into();
        let driven = Driven::new(&known.book, drive);
        assert_eq!(driven.branching_count(), known.branching);
        for length in [0, 10, 11, 12, 1_000] {
            let buffer = vec![0xA5; length];
            let what = format!("g = {}", known.branching);
            let refused = (12, buffer.clone());
            assert_outcome(&what, &known.book.bytes(), drive, &buffer, &refused);
        }
    }
}

/// What is not relevant at the driven layer does not count, and no fact counts twice.
#[test]
fn branching_facts_are_those_of_the_driven_layer_each_counted_once() {
    let mut book = Book::new(30, 3).arrow(0, 1);
    for atom in 0..29 {
        // All of them in layer 2, which nothing is below and which is below nothing.
        book = book.rule(2, plain(29), &[not(atom), not(atom)]);
    }
    for atom in 0..4 {
        book = book
            .rule(0, plain(29), &[not(atom), not(3 - atom), not(atom)])
            .rule(1, plain(28), &[not(atom), not(atom + 1)]);
    }
    let bytes = book.bytes();
    for (layer, branching) in [(0, 4), (1, 5)] {
        let mut buffer = vec![0; 100];
        let answer = ffi::list_in_place(&bytes, at(layer), &mut buffer);
        assert_eq!(answer, counts(branching, 1), "layer {layer}");
    }
    let refused = (12, vec![7; 30]);
    assert_outcome("layer 2", &bytes, at(2), &[7; 30], &refused);
}

#[test]
fn trap_branching_only_on_negated_facts_loses_states() {
    let book = Book::new(2, 2)
        .arrow(0, 1)
        .rule(0, plain(P), &[])
        .rule(0, plain(Q), &[])
        .rule(1, not(P), &[plain(Q)])
        .rule(1, not(Q), &[plain(P)]);
    let driven = Driven::new(&book, at(1));
    assert_eq!(driven.negated_in_a_body(), [false, false]);
    let listing = [1, 0, 0, 0, 13, 0, 2, 0, 0, 0, 2, 0x40, 0x80];
    let expected = outcome(&listing, counts(2, 2), &[7; 20]);
    assert_outcome(
        "no body is negated",
        &book.bytes(),
        at(1),
        &[7; 20],
        &expected,
    );
    assert_known("five times", &known::displacing_pairs(5, 0));
}

/// Whatever the order in which the branching facts are set, and whichever value comes first, one
/// of the four has its records in the reverse of the order in which they are found.
#[test]
fn trap_records_rise_whatever_the_order_of_the_search() {
    for following in EVERY_FOLLOWING {
        for (choices, atoms) in [(3, 9), (4, 13), (5, BYTE_ATOMS), (5, MAX_ATOMS), (10, 30)] {
            let known = known::followed(choices, choices, atoms, following);
            let what = format!("{choices} choices, {atoms} facts, {following:?}");
            assert_known(&what, &known);
        }
    }
}

/// Under either setting of p the candidate is the empty state, and it is stable.
#[test]
fn a_state_that_two_settings_lead_to_is_listed_once() {
    let book = Book::new(1, 2)
        .arrow(0, 1)
        .rule(0, plain(P), &[])
        .rule(1, not(P), &[plain(P)])
        .rule(1, not(P), &[]);
    let listing = [1, 0, 0, 0, 12, 0, 1, 0, 0, 0, 1, 0x00];
    for length in 9..16 {
        let buffer = vec![7; length];
        let expected = outcome(&listing, counts(1, 1), &buffer);
        assert_outcome("once", &book.bytes(), at(1), &buffer, &expected);
    }
}

/// The number of states does not fit into 16 bits, nor the listing's length into 16 or 18.
#[test]
fn more_than_65_536_states_are_listed() {
    assert_known_once("17 free facts", &known::free(17, 0, 34));
}

/// g = 20 and k = 2^20, the most there can be.
#[test]
fn as_many_states_as_there_can_be_are_listed() {
    let falling = Following {
        turned_round: false,
        opposite: true,
    };
    for atoms in [60, MAX_ATOMS] {
        let known = known::followed(20, 20, atoms, falling);
        assert_eq!(known.count, 1 << 20);
        assert_known_once(&format!("20 free facts of {atoms}"), &known);
    }
}

#[test]
fn any_number_of_states_is_listed() {
    for count in [2, 3, 5, 31, 255, 256, 257, 1_000] {
        assert_known(&format!("{count} states"), &known::counted(count, 21));
    }
}

#[test]
fn largest_lawful_books_are_listed() {
    let seed = seed();
    let mut rng = Rng::named(seed, "busy");
    for atoms in [BYTE_ATOMS, 700, MAX_ATOMS] {
        for branching in [1, 4, 9, 10, 11] {
            let known = known::busy(&mut rng, branching, atoms);
            let what = format!("seed {seed}, {atoms} facts, g = {branching}");
            assert_known(&what, &known);
            let scattered = known::scattered(&mut rng, known, atoms);
            assert_known(&format!("{what}, scattered"), &scattered);
        }
        let chained = known::chained(2, atoms);
        assert_known_once(&format!("{atoms} facts, worst order"), &chained);
        for choices in [0, 3, 10] {
            let junction = known::junction(&mut rng, choices, atoms);
            let what = format!("seed {seed}, junction of {atoms} facts, {choices} choices");
            assert_known_once(&what, &junction);
        }
    }
}

#[test]
fn slowest_books_are_listed() {
    let seed = seed();
    let mut rng = Rng::named(seed, "slow");
    for atoms in [BYTE_ATOMS, MAX_ATOMS] {
        for (what, known) in known::every_slow(&mut rng, 5, atoms) {
            assert_known(&format!("seed {seed}, {atoms} facts, {what}"), &known);
        }
    }
}

/// Equal rules, repeated literals, the order of rules and of arrows and the numbers of layers
/// change nothing.
#[test]
fn books_that_say_the_same_have_equal_listings() {
    let seed = seed();
    let mut rng = Rng::named(seed, "the same");
    for index in 0..500 {
        let small = shapes::layered(&mut rng, Layering::Any);
        let layer = rng.below(small.layers.into()) as u8;
        let atoms = rng.pick(&[8, 9, 17, BYTE_ATOMS, 700, MAX_ATOMS]);
        let known = known::spread(&mut rng, &small, layer, atoms);
        let mut renamed: Vec<u8> = (0..32).collect();
        rng.shuffle(&mut renamed);
        let mut same = Book::new(atoms, 32);
        for arrow in &known.book.arrows {
            same = same.arrow(
                renamed[usize::from(arrow.earlier)],
                renamed[usize::from(arrow.later)],
            );
        }
        for rule in &known.book.rules {
            for _ in 0..rng.range(1, 2) {
                let mut body = rule.body.clone();
                body.extend_from_slice(&rule.body[..rng.range(0, rule.body.len())]);
                rng.shuffle(&mut body);
                same = same.rule(renamed[usize::from(rule.layer)], rule.head, &body);
            }
        }
        rng.shuffle(&mut same.arrows);
        rng.shuffle(&mut same.rules);
        let listing = known.listing();
        let buffer = rng.bytes(listing.len() + 2);
        let expected = outcome(&listing, known.answer(), &buffer);
        let what = format!("seed {seed}, the same, book {index}");
        let drive = renamed[usize::from(layer)].into();
        assert_outcome(&what, &same.bytes(), drive, &buffer, &expected);
    }
    println!("seed {seed}, the same: 500 books");
}

/// Document 01: B with arrow count 5 is refused 4.
#[test]
fn example_b_with_arrow_count_5() {
    let mut bytes = B;
    bytes[13] = 5;
    assert_outcome("B", &bytes, at(3), &[7; 40], &(4, vec![7; 40]));
}

/// Document 01: B in 11 bytes of listing buffer is 13, in 12 it is granted.
#[test]
fn example_b_in_11_and_in_12_bytes() {
    let listing = [1, 0, 0, 0, 12, 0, 3, 0, 0, 0, 1, 0x20];
    for length in 0..=11 {
        let buffer = vec![7; length];
        assert_outcome("B", &B, at(3), &buffer, &(13, buffer.clone()));
    }
    let granted = (counts(2, 1), listing.to_vec());
    assert_outcome("B", &B, at(3), &[7; 12], &granted);
}

/// Document 01: one fact, one layer, no records has 20 bytes and the record `00`; its first 19
/// bytes are 1.
#[test]
fn example_one_fact_one_layer_no_records() {
    let bytes = shapes::smallest().bytes();
    assert_eq!(bytes.len(), 20);
    let listing = [1, 0, 0, 0, 12, 0, 1, 0, 0, 0, 1, 0x00];
    let granted = (counts(0, 1), listing.to_vec());
    assert_outcome("smallest", &bytes, at(0), &[7; 12], &granted);
    assert_outcome("19 bytes", &bytes[..19], at(0), &[7; 12], &(1, vec![7; 12]));
}

/// Document 01: an arrow from a layer to itself is 8. Document 02, (l): as many facts as the bound pass, one
/// more is 5.
#[test]
fn example_self_arrow_and_facts_past_the_bound() {
    let refused = |book: Book, cause: u64| {
        let buffer = [7; 60];
        assert_outcome(
            "refused",
            &book.bytes(),
            at(0),
            &buffer,
            &(cause, buffer.to_vec()),
        );
    };
    refused(Book::new(1, 2).arrow(0, 0), 8);
    refused(Book::new(MAX_ATOMS + 1, 1), 5);
    let most = Book::new(MAX_ATOMS, 1);
    assert_known_book("the most facts", &most, &[vec![false; MAX_ATOMS.into()]]);
}

/// The starred examples, whose listings are proved of the definitions, by the compiled call.
#[test]
fn starred_examples_have_the_listings_of_documents_01_and_02() {
    for (at, example) in examples::starred().iter().enumerate() {
        let records: Vec<Vec<u8>> = example.records.iter().map(|&byte| vec![byte]).collect();
        let listing = oracle::listing(example.book.atoms, &records);
        let answer = counts(example.branching, records.len());
        let expected = outcome(&listing, answer, &[7; 20]);
        let (bytes, drive) = (example.book.bytes(), example.layer.into());
        let what = format!("starred example {at}");
        assert_outcome(&what, &bytes, drive, &[7; 20], &expected);
    }
}

#[test]
fn any_bytes_come_to_what_reader_and_oracle_say() {
    let any_bytes = AnyBytes {
        name: "list, any call",
        large: 250,
        other: 2_000,
        given: &[0, 1, 2, 3, 4, 5, 6, 7, 8, 9, 12, 13, 19],
        least: 100,
    };
    any_bytes.ask(shapes::quick, |rng, what, bytes| {
        let drive = shapes::any_drive(rng, bytes);
        let length = rng.pick(&[0, 11, 12, 13, 20, 50, 200]);
        let buffer = rng.bytes(length);
        let expected = Truth::new(bytes, drive).list(&buffer);
        assert_outcome(what, bytes, drive, &buffer, &expected);
        expected.0 & 0xFF
    });
}

#[test]
fn of_several_causes_the_first_tested_is_given() {
    let seed = seed();
    let mut rng = Rng::named(seed, "list, first cause");
    let few = known::displacing_pairs(2, 0);
    let many = known::displacing_pairs(10, 1);
    for causes in every_set(&[1, 2, 3, 4, 5, 6, 7, 8, 9, 19, 12, 13]) {
        for _ in 0..3 {
            let known = if causes.has(12) { &many } else { &few };
            let bytes = shapes::broken(&mut rng, &known.book, causes.of_the_book());
            let drive = causes.drive(&mut rng, known.book.layers, known.layer);
            let listing = few.listing();
            let length = match causes.has(13) {
                true => rng.below(listing.len()),
                false => listing.len() + rng.below(9),
            };
            let buffer = rng.bytes(length);
            let expected = match causes.first() {
                Some(first) => (first, buffer.clone()),
                None => outcome(&listing, few.answer(), &buffer),
            };
            let what = format!("seed {seed}, {causes}");
            assert_outcome(&what, &bytes, drive, &buffer, &expected);
        }
    }
}

#[test]
fn layers_of_the_book_are_listed_and_all_others_are_refused_9() {
    for layers in [1, 2, 31, 32] {
        let bytes = shapes::state_in_each_layer(6, layers).bytes();
        for layer in 0..layers {
            let state = shapes::state_of_layer(6, layer);
            let listing = oracle::listing(6, &[oracle::record(&state)]);
            let expected = outcome(&listing, counts(0, 1), &[7; 14]);
            assert_outcome("a layer", &bytes, layer.into(), &[7; 14], &expected);
        }
        for layer in NO_LAYERS.into_iter().chain([layers.into(), 256 + 1]) {
            assert_outcome("no layer", &bytes, at(layer), &[7; 14], &(9, vec![7; 14]));
        }
    }
}

/// The low half of the length must not be all that is looked at.
#[test]
fn buffer_of_more_than_4_gib_is_long_enough() {
    let mut buffer = vec![0; (1 << 32) + 5];
    let answer = ffi::list_in_place(&B, at(3), &mut buffer);
    assert_eq!(answer, counts(2, 1));
    assert_eq!(hex(&buffer[..13]), "010000000C0003000000012000");
}

#[test]
fn four_threads_on_one_book_get_the_same_listing() {
    let seed = seed();
    let known = known::busy(&mut Rng::named(seed, "list, threads"), 8, MAX_ATOMS);
    let bytes = known.book.bytes();
    let listing = known.listing();
    let (drive, answer) = (Drive::from(known.layer), known.answer());
    thread::scope(|scope| {
        for _ in 0..4 {
            scope.spawn(|| {
                for _ in 0..5 {
                    let mut buffer = vec![7; listing.len()];
                    let short = listing.len() - 1;
                    assert_eq!(ffi::list_in_place(&bytes, drive, &mut buffer[..short]), 13);
                    assert_eq!(buffer, vec![7; listing.len()]);
                    let listed = ffi::list_in_place(&bytes, drive, &mut buffer);
                    assert_eq!(listed, answer, "seed {seed}");
                    assert_eq!(buffer, listing, "seed {seed}");
                }
            });
        }
    });
}
