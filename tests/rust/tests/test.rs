//! `lesson_test` of the compiled archive against the oracle and against document 01's numbers.

use lesson_tests::book::{
    edge_sizes, hex, not, plain, width, Book, Literal, BYTE_ATOMS, LONGEST_RECORD, MAX_ATOMS,
};
use lesson_tests::causes::{every_set, fields, AnyBytes};
use lesson_tests::drive::{at, Drive};
use lesson_tests::examples;
use lesson_tests::expected::{self, yes_or_no};
use lesson_tests::ffi;
use lesson_tests::misreadings::{self, Misread, Misreading, Misreading::*};
use lesson_tests::oracle::{self, Driven};
use lesson_tests::plain as plain_rust;
use lesson_tests::reader;
use lesson_tests::rng::{seed, Rng};
use lesson_tests::shapes::{self, Layering, NO_LAYERS};
use lesson_tests::sweep;
use std::thread;

const P: u16 = 0;
const Q: u16 = 1;

/// Every state of so many facts.
fn states(atoms: u16) -> impl Iterator<Item = Vec<bool>> {
    (0..1u32 << atoms).map(move |number| (0..atoms).map(|atom| number >> atom & 1 == 1).collect())
}

/// Engine and oracle give the same answer, which is returned. The slices are fenced.
fn agree(what: &str, book: &[u8], drive: Drive, candidate: &[u8]) -> u64 {
    let engine = ffi::test(book, drive, candidate);
    let oracle = expected::test(book, drive, candidate);
    assert!(
        engine == oracle,
        "{what}, {drive}, candidate {}: engine {engine:#X}, oracle {oracle:#X}\n{}",
        hex(candidate),
        hex(book)
    );
    engine
}

/// Engine and oracle both give `answer`.
fn assert_answer(what: &str, book: &[u8], drive: Drive, candidate: &[u8], answer: u64) {
    let given = agree(what, book, drive, candidate);
    assert!(
        given == answer,
        "{what}, {drive}, candidate {}: expected {answer:#X}, engine and oracle {given:#X}\n{}",
        hex(candidate),
        hex(book)
    );
}

/// How often the cases came up for which random books are there.
#[derive(Default)]
struct Tally {
    yes: usize,
    no: usize,
    /// For each misreading, the states on which it is wrong.
    told_apart: Vec<usize>,
}

/// Compares engine and oracle on every state of `number` books, at every layer.
fn sweep(shape: &str, number: usize, generate: impl Fn(&mut Rng) -> Book) -> Tally {
    let mut tally = Tally {
        told_apart: vec![0; misreadings::EVERY.len()],
        ..Tally::default()
    };
    let tried = sweep::layers(shape, number, generate, |swept, rng| {
        let (book, bytes, drive) = (swept.book, swept.bytes, swept.drive);
        let chosen = rng.below(1 << book.atoms);
        for (at, state) in states(book.atoms).enumerate() {
            let record = oracle::record(&state);
            let stable = swept.driven.stable(&state);
            let engine = match stable || at == chosen {
                true => ffi::test(bytes, drive, &record),
                false => ffi::test_in_place(bytes, drive, &record),
            };
            assert!(
                engine == yes_or_no(stable),
                "{}, {drive}, candidate {}: engine {engine:#X}, oracle {stable}\n{}",
                swept.what,
                hex(&record),
                hex(bytes)
            );
            match stable {
                true => tally.yes += 1,
                false => tally.no += 1,
            }
        }
        if book.atoms <= 4 {
            count_told_apart(&mut tally, book, drive);
        }
    });
    println!(
        "{tried}, {} states stable, {} not; told apart: {:?}",
        tally.yes, tally.no, tally.told_apart
    );
    tally
}

fn count_told_apart(tally: &mut Tally, book: &Book, drive: Drive) {
    let driven = Driven::new(book, drive);
    for (misreading, told_apart) in misreadings::EVERY.iter().zip(&mut tally.told_apart) {
        let misread = Misread::new(book, drive, *misreading);
        *told_apart += states(book.atoms)
            .filter(|state| misread.stable(state) != driven.stable(state))
            .count();
    }
}

/// Random books are worth their time only if both answers come up, and if they tell all the
/// misreadings from the right reading, but those named and those of rules that lean on themselves,
/// which have books of their own.
fn assert_telling(tally: &Tally, but: &[Misreading]) {
    assert!(tally.yes > 1_000, "few stable states: {}", tally.yes);
    assert!(tally.no > 1_000, "few that are not: {}", tally.no);
    for (misreading, &times) in misreadings::EVERY.iter().zip(&tally.told_apart) {
        let told_elsewhere = misreadings::OF_LEANING.contains(misreading);
        assert!(
            times >= 5 || told_elsewhere || but.contains(misreading),
            "{misreading:?} is told apart only {times} times"
        );
    }
}

#[test]
fn every_state_of_books_in_chains_is_answered_as_by_the_oracle() {
    let tally = sweep("test, chains", 3_000, |rng| {
        shapes::layered(rng, Layering::Chain)
    });
    assert_telling(&tally, &[UnrelatedLayers]);
}

#[test]
fn every_state_of_books_in_diamonds_is_answered_as_by_the_oracle() {
    let tally = sweep("test, diamonds", 3_000, |rng| {
        shapes::layered(rng, Layering::Diamond)
    });
    assert_telling(&tally, &[]);
}

#[test]
fn every_state_of_books_in_unrelated_branches_is_answered_as_by_the_oracle() {
    let tally = sweep("test, branches", 6_000, |rng| {
        shapes::layered(rng, Layering::Branches)
    });
    assert_telling(&tally, &[]);
}

#[test]
fn every_state_of_books_with_any_arrows_is_answered_as_by_the_oracle() {
    let tally = sweep("test, any arrows", 3_000, |rng| {
        shapes::layered(rng, Layering::Any)
    });
    assert_telling(&tally, &[PathsCut]);
}

/// Books without the motifs of `layered`.
#[test]
fn every_state_of_plain_random_books_is_answered_as_by_the_oracle() {
    let tally = sweep("test, small", 600, shapes::small);
    assert_telling(&tally, &misreadings::EVERY);
    let tally = sweep("test, choices", 600, shapes::choices);
    assert_telling(&tally, &misreadings::EVERY);
}

/// The stable states of a book of at most 8 facts are those of the one-byte records, and none
/// else, for engine and oracle. The misreading finds others.
fn assert_trap(book: &Book, drive: Drive, records: &[u8], misreading: Misreading) {
    let bytes = book.bytes();
    let misread = Misread::new(book, drive, misreading);
    let mut misled = false;
    for state in states(book.atoms) {
        let record = oracle::record(&state);
        let stable = records.contains(&record[0]);
        let what = format!("{misreading:?}");
        assert_answer(&what, &bytes, drive, &record, yes_or_no(stable));
        misled |= misread.stable(&state) != stable;
    }
    assert!(misled, "the book does not show {misreading:?}");
}

#[test]
fn trap_rules_of_one_layer_do_not_displace_each_other() {
    let quarrel = Book::new(2, 3).rule(0, plain(P), &[]).rule(0, not(P), &[]);
    // Only one of the two is displaced, and the other stands.
    let settled = quarrel
        .clone()
        .arrow(0, 1)
        .rule(0, plain(Q), &[plain(P)])
        .rule(1, plain(P), &[plain(Q)]);
    assert_trap(&settled, at(1), &[0xC0], WithinALayer);
    // Neither is displaced, and no third rule helps.
    let unsettled = quarrel.arrow(0, 2).arrow(1, 2).rule(1, plain(P), &[]);
    assert_trap(&unsettled, at(2), &[], WithinALayer);
}

#[test]
fn trap_rules_of_unrelated_layers_do_not_displace_each_other() {
    let quarrel = Book::new(2, 3)
        .arrow(0, 2)
        .arrow(1, 2)
        .rule(0, plain(P), &[])
        .rule(1, not(P), &[]);
    assert_trap(&quarrel, at(2), &[], LayersByNumber);
    let settled = quarrel
        .rule(0, plain(Q), &[plain(P)])
        .rule(2, plain(P), &[plain(Q)]);
    assert_trap(&settled, at(2), &[0xC0], UnrelatedLayers);
}

#[test]
fn trap_displaced_rules_count_against_defaults() {
    let book = Book::new(2, 2)
        .arrow(0, 1)
        .rule(0, plain(P), &[])
        .rule(0, plain(Q), &[])
        .rule(1, not(P), &[not(Q)])
        .rule(1, not(Q), &[not(P)]);
    assert_trap(&book, at(1), &[0xC0], DefaultsWithoutDisplaced);
}

#[test]
fn trap_a_circle_of_plain_bodies_reaches_nothing() {
    let alone = Book::new(1, 1).rule(0, plain(P), &[plain(P)]);
    assert_trap(&alone, at(0), &[0x00], CirclesReach);
    let two = Book::new(2, 1)
        .rule(0, plain(P), &[plain(Q)])
        .rule(0, plain(Q), &[plain(P)]);
    assert_trap(&two, at(0), &[0x00], CirclesReach);
}

#[test]
fn a_long_circle_of_plain_bodies_reaches_nothing() {
    for atoms in [BYTE_ATOMS, MAX_ATOMS] {
        let mut book = Book::new(atoms, 1);
        for atom in 0..atoms {
            book = book.rule(0, plain(atom), &[plain((atom + 1) % atoms)]);
        }
        let bytes = book.bytes();
        let none = vec![0; width(atoms)];
        assert_answer("none stands", &bytes, at(0), &none, yes_or_no(true));
        let all = vec![0xFF; width(atoms)];
        assert_answer("all stand", &bytes, at(0), &all, yes_or_no(false));
    }
}

#[test]
fn a_displaced_rule_still_displaces() {
    let book = Book::new(2, 3)
        .arrow(0, 1)
        .arrow(1, 2)
        .rule(0, plain(P), &[])
        .rule(0, plain(Q), &[plain(P)])
        .rule(1, not(P), &[])
        .rule(2, plain(P), &[plain(Q)]);
    assert_trap(&book, at(2), &[0x00], DisplacedDisplaceNothing);
}

#[test]
fn later_layers_displace_earlier_ones_and_not_the_other_way_round() {
    let book = Book::new(1, 2)
        .arrow(1, 0)
        .rule(1, plain(P), &[])
        .rule(0, not(P), &[]);
    assert_trap(&book, at(0), &[0x00], ArrowsBackwards);
    assert_trap(&book, at(0), &[0x00], LayersByNumber);
}

#[test]
fn layers_along_a_path_are_relevant_and_displaced_and_no_others() {
    let book = Book::new(2, 4)
        .arrow(0, 1)
        .arrow(1, 2)
        .rule(0, plain(P), &[])
        .rule(0, plain(Q), &[])
        .rule(2, not(P), &[])
        .rule(3, not(Q), &[]);
    assert_trap(&book, at(2), &[0x40], NoPaths);
    assert_trap(&book, at(2), &[0x40], AllLayersRelevant);
    assert_trap(&book, at(2), &[0x40], DrivenLayerOnly);
}

#[test]
fn filling_goes_on_until_nothing_is_added() {
    let book = Book::new(2, 1)
        .rule(0, plain(Q), &[plain(P)])
        .rule(0, plain(P), &[]);
    assert_trap(&book, at(0), &[0xC0], OnePass);
}

#[test]
fn a_fact_reached_with_both_signs_is_in_no_stable_state() {
    let book = Book::new(1, 1).rule(0, plain(P), &[]).rule(0, not(P), &[]);
    assert_trap(&book, at(0), &[], BothSigns);
    // The negation is reached by a default.
    let book = Book::new(2, 1)
        .rule(0, plain(P), &[not(Q)])
        .rule(0, plain(Q), &[plain(P)])
        .rule(0, not(P), &[plain(Q)]);
    assert_trap(&book, at(0), &[], BothSigns);
}

#[test]
fn starred_examples_have_the_states_of_documents_01_and_02_and_no_others() {
    for (number, example) in examples::starred().iter().enumerate() {
        let (bytes, drive) = (example.book.bytes(), example.layer.into());
        for state in states(example.book.atoms) {
            let record = oracle::record(&state);
            let answer = yes_or_no(example.records.contains(&record[0]));
            let what = format!("starred example {number}");
            assert_answer(&what, &bytes, drive, &record, answer);
        }
    }
}

#[test]
fn candidates_of_another_length_are_refused_10() {
    for atoms in edge_sizes() {
        let bytes = Book::new(atoms, 1).bytes();
        let right = width(atoms);
        let longer = [2 * right, LONGEST_RECORD, LONGEST_RECORD + 1, 1_000];
        let by_a_part = [256 + right, 65_536 + right];
        for length in (0..=right + 3).chain(longer).chain(by_a_part) {
            let answer = match length == right {
                true => yes_or_no(true),
                false => expected::BAD_CANDIDATE,
            };
            let what = format!("{atoms} facts, {length} bytes");
            assert_answer(&what, &bytes, at(0), &vec![0; length], answer);
        }
    }
}

/// The low half of a longer length must not be enough.
#[test]
fn candidate_of_more_than_4_gib_is_refused_10() {
    let bytes = Book::new(9, 1).bytes();
    let candidate = vec![0; (1 << 32) + 2];
    assert_eq!(ffi::test_in_place(&bytes, at(0), &candidate), 10);
}

#[test]
fn candidates_with_a_spare_bit_set_are_refused_10_and_no_others() {
    for atoms in edge_sizes() {
        let bytes = Book::new(atoms, 1).bytes();
        let right = width(atoms);
        for bit in 0..8 * right {
            let mut candidate = vec![0; right];
            candidate[bit / 8] |= 0x80 >> (bit % 8);
            let answer = match bit < usize::from(atoms) {
                true => yes_or_no(false),
                false => expected::BAD_CANDIDATE,
            };
            let what = format!("{atoms} facts, bit {bit}");
            assert_answer(&what, &bytes, at(0), &candidate, answer);
            // With all facts standing beside it.
            for atom in 0..usize::from(atoms) {
                candidate[atom / 8] |= 0x80 >> (atom % 8);
            }
            let answer = if bit < usize::from(atoms) { 0 } else { 10 };
            assert_answer(&what, &bytes, at(0), &candidate, answer);
        }
    }
}

#[test]
fn each_fact_of_a_candidate_counts() {
    for atoms in edge_sizes() {
        let none = Book::new(atoms, 1);
        let mut all = none.clone();
        for atom in 0..atoms {
            all = all.rule(0, plain(atom), &[]);
        }
        let state = |book: &Book, flipped: Option<u16>| {
            let stands = !book.rules.is_empty();
            let state: Vec<bool> = (0..atoms)
                .map(|atom| stands != (flipped == Some(atom)))
                .collect();
            oracle::record(&state)
        };
        for book in [none, all] {
            let bytes = book.bytes();
            let what = format!("{atoms} facts, {} rules", book.rules.len());
            assert_answer(&what, &bytes, at(0), &state(&book, None), yes_or_no(true));
            for atom in 0..atoms {
                let flipped = state(&book, Some(atom));
                assert_answer(&what, &bytes, at(0), &flipped, yes_or_no(false));
            }
        }
    }
}

#[test]
fn layers_of_the_book_are_driven_and_all_others_are_refused_9() {
    for layers in [1, 2, 4, 31, 32] {
        let bytes = shapes::state_in_each_layer(5, layers).bytes();
        for layer in 0..layers {
            let own = shapes::state_of_layer(5, layer);
            let other: Vec<bool> = own.iter().map(|stands| !stands).collect();
            for (state, answer) in [(own, yes_or_no(true)), (other, yes_or_no(false))] {
                let record = oracle::record(&state);
                assert_answer("a layer", &bytes, layer.into(), &record, answer);
            }
        }
        for layer in [layers.into(), u32::from(layers) + 1]
            .into_iter()
            .chain(NO_LAYERS)
            .filter(|&layer| layer >= layers.into())
        {
            assert_answer("no layer", &bytes, at(layer), &[0], 9);
        }
    }
}

#[test]
fn any_bytes_are_answered_as_by_reader_and_oracle() {
    let any_bytes = AnyBytes {
        name: "any call",
        large: 100,
        other: 3_000,
        given: &[0, 1, 2, 3, 4, 5, 6, 7, 8, 9, 10, 19],
        least: 100,
    };
    let (mut yes, mut no) = (0, 0);
    any_bytes.ask(
        |rng, generate| generate(rng),
        |rng, what, bytes| {
            let (facts, _) = fields(bytes);
            let drive = shapes::any_drive(rng, bytes);
            let candidate = shapes::any_candidate(rng, facts);
            let answer = agree(what, bytes, drive, &candidate);
            yes += usize::from(answer == yes_or_no(true));
            no += usize::from(answer == yes_or_no(false));
            answer & 0xFF
        },
    );
    assert!(yes >= 100 && no >= 100, "yes {yes} times, no {no} times");
}

#[test]
fn of_several_causes_the_first_tested_is_given() {
    let seed = seed();
    let mut rng = Rng::named(seed, "test, first cause");
    for causes in every_set(&[1, 2, 3, 4, 5, 6, 7, 8, 9, 19, 10]).skip(1) {
        let first = causes.first().expect("a cause");
        for _ in 0..10 {
            let bytes = shapes::with_causes(&mut rng, causes.of_the_book());
            let what = format!("seed {seed}, {causes}");
            let (atoms, layers) =
                reader::read(&bytes).map_or((3, 1), |book| (book.atoms, book.layers));
            let right = width(atoms);
            let drive = causes.drive(&mut rng, layers, 0);
            let candidate = match (causes.has(10), atoms % 8) {
                (false, _) => vec![0; right],
                (true, 0) => vec![0; right + 1],
                _ => rng.pick(&[&[][..], &[0xFF], &[0; 9]]).to_vec(),
            };
            assert_answer(&what, &bytes, drive, &candidate, first);
        }
    }
}

#[test]
fn large_books_are_answered_as_by_the_oracle_and_by_plain_rust() {
    let seed = seed();
    let mut rng = Rng::named(seed, "planted");
    let number = 150;
    let mut others = 0;
    for index in 0..number {
        let planted = shapes::planted(&mut rng);
        let bytes = planted.book.bytes();
        let what = format!("seed {seed}, planted book {index}");
        let drive = planted.layer.into();
        let record = oracle::record(&planted.state);
        assert_answer(&what, &bytes, drive, &record, yes_or_no(true));
        for _ in 0..20 {
            let mut state = planted.state.clone();
            for _ in 0..rng.range(1, 2) {
                let atom = rng.below(state.len());
                state[atom] = !state[atom];
            }
            let record = oracle::record(&state);
            let engine = ffi::test(&bytes, drive, &record);
            let plain = plain_rust::test(&bytes, drive, &record);
            assert!(
                engine == plain,
                "{what}, {drive}, candidate {}: engine {engine:#X}, plain Rust {plain:#X}\n{}",
                hex(&record),
                hex(&bytes)
            );
            others += 1;
        }
        let layers = planted.book.layers;
        let other = at(rng.below(layers.into()) as u32).off(shapes::some_layers(&mut rng, layers));
        agree(&what, &bytes, other, &record);
    }
    println!("seed {seed}, planted: {number} books, {others} states beside the planted ones");
}

#[test]
fn largest_lawful_books_are_answered_as_by_the_oracle() {
    let seed = seed();
    let mut rng = Rng::named(seed, "planted largest");
    for index in 0..10 {
        let atoms = [BYTE_ATOMS, MAX_ATOMS][index % 2];
        let planted = shapes::planted_largest(&mut rng, atoms);
        let bytes = planted.book.bytes();
        assert_eq!(bytes.len(), 38_372);
        let what = format!("seed {seed}, largest");
        let record = oracle::record(&planted.state);
        let drive = planted.layer.into();
        assert_answer(&what, &bytes, drive, &record, yes_or_no(true));
        let last = planted.state.len() - 1;
        for atom in [0, 127, 128, 255, last / 2, last - 1, last] {
            let mut state = planted.state.clone();
            state[atom] = !state[atom];
            agree(&what, &bytes, drive, &oracle::record(&state));
        }
    }
}

/// The last of 1,024 rules, and the last of 16 literals, decide.
#[test]
fn no_rule_and_no_literal_is_left_out() {
    for number in [1, 255, 256, 257, 511, 512, 513, 1_023, 1_024] {
        let mut book = Book::new(2, 1);
        for _ in 1..number {
            book = book.rule(0, plain(P), &[plain(P)]);
        }
        let bytes = book.rule(0, plain(Q), &[]).bytes();
        let what = format!("{number} rules");
        assert_answer(&what, &bytes, at(0), &[0x40], yes_or_no(true));
        assert_answer(&what, &bytes, at(0), &[0x00], yes_or_no(false));
    }
    for length in 1..=16 {
        for literal in [plain(P), not(Q)] {
            // The body holds but for its last literal.
            let mut body = vec![literal.opposite(); length - 1];
            body.push(literal);
            let book = Book::new(3, 1);
            let book = match literal.negated {
                false => book,
                true => book.rule(0, plain(Q), &[]),
            };
            let bytes = book.rule(0, plain(2), &body).bytes();
            let without = if literal.negated { 0x40 } else { 0x00 };
            let what = format!("{length} literals");
            assert_answer(&what, &bytes, at(0), &[without], yes_or_no(true));
            assert_answer(&what, &bytes, at(0), &[without | 0x20], yes_or_no(false));
        }
    }
}

/// As many passes as there are facts but one before nothing is added.
#[test]
fn rules_in_the_worst_order_are_filled_to_the_end() {
    for atoms in [BYTE_ATOMS, MAX_ATOMS] {
        let worst = shapes::worst_order(atoms);
        let bytes = worst.book.bytes();
        let record = oracle::record(&worst.state);
        assert_answer("all but the last", &bytes, at(0), &record, yes_or_no(true));
        let last = usize::from(atoms) - 1;
        for atom in [0, 1, 100, last - 2, last - 1, last] {
            let mut state = worst.state.clone();
            state[atom] = !state[atom];
            let record = oracle::record(&state);
            assert_answer("one flipped", &bytes, at(0), &record, yes_or_no(false));
        }
    }
}

/// Up to half as many choices between two as there are facts: no number of branching facts is too large for
/// this call.
#[test]
fn candidates_are_tested_at_any_g() {
    let seed = seed();
    let mut rng = Rng::named(seed, "any g");
    let [one_of_each, both_or_none] =
        ["one of each", "both or none"].map(|what| format!("seed {seed}, {what}"));
    for choices in [
        10,
        11,
        64,
        BYTE_ATOMS / 2,
        BYTE_ATOMS / 2 + 1,
        MAX_ATOMS / 2,
    ] {
        let mut book = Book::new(2 * choices, 1);
        for at in 0..choices {
            let (f, h) = (2 * at, 2 * at + 1);
            book = book
                .rule(0, plain(f), &[not(h)])
                .rule(0, plain(h), &[not(f)]);
        }
        let bytes = book.bytes();
        assert_eq!(
            Driven::new(&book, at(0)).branching_count(),
            2 * usize::from(choices)
        );
        for _ in 0..10 {
            let firsts: Vec<bool> = (0..choices).map(|_| rng.chance(50)).collect();
            let mut state: Vec<bool> = firsts.iter().flat_map(|&first| [first, !first]).collect();
            let record = oracle::record(&state);
            assert_answer(&one_of_each, &bytes, at(0), &record, yes_or_no(true));
            let atom = rng.below(state.len());
            state[atom] = !state[atom];
            let record = oracle::record(&state);
            assert_answer(&both_or_none, &bytes, at(0), &record, yes_or_no(false));
        }
    }
}

/// 32 layers in a line, each of which says the opposite of the one before: the driven one decides.
#[test]
fn each_of_32_layers_displaces_those_before_it() {
    for rising in [true, false] {
        let layer_at = |place: u8| if rising { place } else { 31 - place };
        let mut book = Book::new(1, 32);
        for place in 0..32 {
            let head = Literal {
                atom: P,
                negated: place % 2 == 1,
            };
            book = book.rule(layer_at(place), head, &[]);
            if place > 0 {
                book = book.arrow(layer_at(place - 1), layer_at(place));
            }
        }
        let bytes = book.bytes();
        for place in 0..32 {
            let drive = layer_at(place).into();
            let stands = place % 2 == 0;
            assert_answer("stands", &bytes, drive, &[0x80], yes_or_no(stands));
            assert_answer("does not", &bytes, drive, &[0x00], yes_or_no(!stands));
        }
    }
}

#[test]
fn four_threads_on_one_book_get_the_same_answers() {
    let seed = seed();
    let planted = shapes::planted_largest(&mut Rng::named(seed, "threads"), MAX_ATOMS);
    let bytes = planted.book.bytes();
    let drive = planted.layer.into();
    let right = oracle::record(&planted.state);
    thread::scope(|scope| {
        for _ in 0..4 {
            scope.spawn(|| {
                for _ in 0..50 {
                    let answer = ffi::test_in_place(&bytes, drive, &right);
                    assert_eq!(answer, yes_or_no(true), "seed {seed}");
                    assert_eq!(ffi::test_in_place(&bytes, at(32), &right), 9);
                    assert_eq!(ffi::test_in_place(&bytes, drive, &right[1..]), 10);
                    assert_eq!(
                        ffi::test_in_place(&shapes::B, at(3), &[0x20]),
                        yes_or_no(true)
                    );
                    assert_eq!(
                        ffi::test_in_place(&shapes::B, at(3), &[0xA0]),
                        yes_or_no(false)
                    );
                }
            });
        }
    });
}
