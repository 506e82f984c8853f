//! The benchmark's opponent, a search with bit sets, against the oracle and the engine: every call,
//! on every layer of many small books, and on books whose states are known.

use lesson_tests::bitset;
use lesson_tests::book::{hex, width, Book, BYTE_ATOMS, MAX_ATOMS, WIDE};
use lesson_tests::causes::{fields, ANSWERS};
use lesson_tests::drive::Drive;
use lesson_tests::expected::{self, counts, place_of, yes_or_no};
use lesson_tests::ffi;
use lesson_tests::known::{self, Known, Left, EVERY_FOLLOWING};
use lesson_tests::listed::{
    nearest_of, nearest_of_models, nearest_outcome, one_of_known, one_outcome,
};
use lesson_tests::oracle::{self, Driven};
use lesson_tests::orders::{Order, Ordered};
use lesson_tests::rng::{seed, Rng};
use lesson_tests::shapes::{self, Layering};
use lesson_tests::sweep;
use lesson_tests::truth::Truth;

const FILLER: u8 = 0xA5;

/// A drive of a book in bytes, with words for messages.
struct Case<'a> {
    what: &'a str,
    book: &'a [u8],
    drive: Drive,
}

impl Case<'_> {
    /// The bit sets' answer and the engine's are the one expected.
    fn assert_answers(&self, call: &str, [bits, engine]: [u64; 2], expected: u64) {
        assert!(
            [bits, engine] == [expected; 2],
            "{}, {}, {call}: bit sets {bits:#X}, engine {engine:#X}, expected {expected:#X}\n{}",
            self.what,
            self.drive,
            hex(self.book)
        );
    }

    fn test(&self, record: &[u8], expected: u64) {
        let answers = [
            bitset::test(self.book, self.drive, record),
            ffi::test_in_place(self.book, self.drive, record),
        ];
        self.assert_answers(&format!("test of {}", hex(record)), answers, expected);
    }

    /// Both write what is expected in front of the untouched rest, or leave every byte.
    fn written(
        &self,
        call: &str,
        expected: (u64, &[u8]),
        bits: impl FnOnce(&mut [u8]) -> u64,
        engine: impl FnOnce(&mut [u8]) -> u64,
    ) {
        let before = vec![FILLER; expected.1.len()];
        let [mut by_bits, mut by_engine] = [before.clone(), before];
        let answers = [bits(&mut by_bits), engine(&mut by_engine)];
        self.assert_answers(call, answers, expected.0);
        for buffer in [by_bits, by_engine] {
            let right = buffer == expected.1;
            assert!(right, "{}: {}\n{}", self.what, hex(&buffer), hex(self.book));
        }
    }

    fn list(&self, expected: (u64, &[u8])) {
        let bits = |buffer: &mut [u8]| bitset::list(self.book, self.drive, buffer);
        let engine = |buffer: &mut [u8]| ffi::list_in_place(self.book, self.drive, buffer);
        self.written("list", expected, bits, engine);
    }

    fn one(&self, (answer, after): &ffi::Outcome) {
        let bits = |buffer: &mut [u8]| bitset::one(self.book, self.drive, buffer);
        let engine = |buffer: &mut [u8]| ffi::one_in_place(self.book, self.drive, buffer);
        self.written("one", (*answer, after), bits, engine);
    }

    fn nearest(&self, record: &[u8], (answer, after): &ffi::Outcome) {
        let (book, drive) = (self.book, self.drive);
        let bits = |buffer: &mut [u8]| bitset::nearest(book, drive, record, buffer);
        let engine = |buffer: &mut [u8]| ffi::nearest_in_place(book, drive, record, buffer);
        let call = format!("nearest to {}", hex(record));
        self.written(&call, (*answer, after), bits, engine);
    }

    fn place(&self, fact: u32, expected: u64) {
        let answers = [
            bitset::place(self.book, self.drive, fact),
            ffi::place_in_place(self.book, self.drive, fact),
        ];
        self.assert_answers(&format!("place of {fact}"), answers, expected);
    }
}

/// Compares all calls at one layer of a small book; the number of its stable states.
fn assert_layer(case: &Case, driven: &Driven) -> usize {
    let atoms = driven.atoms();
    let width = width(atoms);
    let g = driven.branching_count();
    let models = driven.stable_models();
    for number in 0..1u32 << atoms {
        let state: Vec<bool> = (0..atoms).map(|fact| number >> fact & 1 == 1).collect();
        let stable = models.contains(&state);
        let record = oracle::record(&state);
        case.test(&record, yes_or_no(stable));
        let buffer = vec![FILLER; width + number as usize % 2];
        case.nearest(&record, &nearest_of_models(&models, &state, g, &buffer));
    }
    let listing = driven.listing();
    let rest = [FILLER; 5];
    let listed = [&listing[..], &rest].concat();
    case.list((counts(g, models.len()), &listed));
    let short = vec![FILLER; listing.len() - 1];
    case.list((expected::BUFFER_TOO_SHORT, &short));
    let first = models.first().map(|model| oracle::record(model));
    for length in [0, width, width + 2] {
        let buffer = vec![FILLER; length];
        case.one(&one_outcome(first.as_deref(), width, g, &buffer));
    }
    for fact in 0..atoms {
        let standing = models.iter().filter(|model| model[usize::from(fact)]);
        let place = place_of(g, standing.count(), models.len());
        case.place(fact.into(), place);
    }
    case.place(atoms.into(), expected::NO_SUCH_FACT);
    models.len()
}

/// Compares all calls at all layers of `number` books.
fn sweep(shape: &str, number: usize, generate: impl Fn(&mut Rng) -> Book) {
    let mut states = [0; 3];
    let tried = sweep::layers(shape, number, generate, |swept, _| {
        let case = Case {
            what: swept.what,
            book: swept.bytes,
            drive: swept.drive,
        };
        states[assert_layer(&case, &swept.driven).min(2)] += 1;
    });
    println!("{tried}, layers with 0, 1, more states: {states:?}");
    assert!(states.iter().all(|&times| times > 100), "{states:?}");
}

#[test]
fn every_call_in_books_with_choices_is_the_oracles_and_the_engines() {
    sweep("bit sets, choices", 1_500, shapes::choices);
}

#[test]
fn every_call_in_books_in_chains_is_the_oracles_and_the_engines() {
    sweep("bit sets, chains", 2_500, |rng| {
        shapes::layered(rng, Layering::Chain)
    });
}

#[test]
fn every_call_in_books_in_diamonds_is_the_oracles_and_the_engines() {
    sweep("bit sets, diamonds", 2_000, |rng| {
        shapes::layered(rng, Layering::Diamond)
    });
}

#[test]
fn every_call_in_books_with_any_arrows_is_the_oracles_and_the_engines() {
    sweep("bit sets, any arrows", 2_500, |rng| {
        shapes::layered(rng, Layering::Any)
    });
}

#[test]
fn every_call_in_books_with_leaning_rules_is_the_oracles_and_the_engines() {
    sweep("bit sets, leaning", 5_000, |rng| {
        let layering = rng.pick(&[Layering::Chain, Layering::Diamond, Layering::Any]);
        shapes::leaning(rng, layering)
    });
}

#[test]
fn every_call_in_books_with_constraints_is_the_oracles_and_the_engines() {
    sweep("bit sets, constraints", 2_500, |rng| {
        let layering = rng.pick(&[Layering::Chain, Layering::Diamond, Layering::Any]);
        shapes::constrained(rng, layering)
    });
}

#[test]
fn every_call_in_books_with_many_states_is_the_oracles_and_the_engines() {
    sweep("bit sets, many states", 400, |rng| {
        shapes::crowded(rng, Layering::Diamond)
    });
}

/// All calls on a book whose states are known, with more than 64 facts too.
fn assert_known(what: &str, known: &Known) {
    let bytes = known.book.bytes();
    let case = Case {
        what,
        book: &bytes,
        drive: known.layer.into(),
    };
    let listing = known.listing();
    let width = width(known.book.atoms);
    let records: Vec<&[u8]> = listing[11..].chunks(width).collect();
    case.list((known.answer(), &listing));
    case.one(&one_of_known(known, &vec![FILLER; width]));
    let places = known.places();
    for fact in known::some_facts(known.book.atoms) {
        case.place(fact.into(), places[usize::from(fact)]);
    }
    let mut other = vec![0; width];
    for record in records.iter().take(8) {
        other.copy_from_slice(record);
        other[0] ^= 0x80;
        for candidate in [record, &other[..]] {
            case.test(candidate, yes_or_no(records.contains(&candidate)));
        }
    }
    // Far from the last of them too.
    other[width - 1] ^= 0x80;
    for candidate in [&vec![0; width], &other] {
        let nearest = nearest_of(&records, candidate);
        let buffer = vec![FILLER; width];
        let expected = nearest_outcome(nearest, width, known.branching, &buffer);
        case.nearest(candidate, &expected);
    }
}

#[test]
fn known_states_of_larger_books_are_found_by_both() {
    let seed = seed();
    let mut rng = Rng::named(seed, "bit sets, known");
    assert_known("pairs", &known::pairs(4, 1));
    assert_known("displacing pairs", &known::displacing_pairs(4, 1));
    assert_known("free", &known::free(6, 58, 72));
    assert_known("a quarrel", &known::quarrelled(known::free(4, 125, 140)));
    assert_known("counted", &known::counted(37, 14));
    for following in EVERY_FOLLOWING {
        let what = format!("{following:?}");
        assert_known(&what, &known::followed(5, 5, 200, following));
    }
    for order in Order::ALL {
        let ordered = Ordered {
            order,
            choices: 6,
            idle: 1,
            cuts: 2,
            atoms: 70,
            at_the_end: true,
        };
        let what = format!("seed {seed}, {order:?}");
        assert_known(&what, &ordered.known(&mut rng));
    }
    let few = [63, 64, 65, 128, 129, 192, BYTE_ATOMS - 1, BYTE_ATOMS];
    for atoms in few.into_iter().chain(WIDE) {
        let small = shapes::crowded(&mut rng, Layering::Any);
        let layer = rng.below(small.layers.into()) as u8;
        let known = known::spread(&mut rng, &small, layer, atoms);
        assert_known(&format!("seed {seed}, spread"), &known);
    }
    for atoms in [BYTE_ATOMS, MAX_ATOMS] {
        let busy = known::busy(&mut rng, 7, atoms);
        let busy = known::scattered(&mut rng, busy, atoms);
        assert_known(&format!("seed {seed}, busy"), &busy);
        let leaning = known::leaning(&mut rng, 5, atoms - 10, atoms);
        assert_known(&format!("seed {seed}, leaning"), &leaning);
        for constraints in [3, 40, 900] {
            let random = known::randomly_constrained(&mut rng, 5, constraints, atoms);
            assert_known(&format!("seed {seed}, random constraints"), &random);
        }
        assert_known("worst order", &known::chained(2, atoms));
        for (what, known) in known::every_slow(&mut rng, 1, atoms) {
            assert_known(&format!("seed {seed}, {what}"), &known);
        }
    }
    for over_helpers in [true, false] {
        for left in [Left::AllAlike, Left::AtMostOne, Left::HalvesAlike] {
            let few_left = known::few_left(6, left, over_helpers);
            assert_known(&format!("{left:?}"), &few_left);
        }
    }
}

#[test]
fn largest_planted_states_pass_both_and_their_neighbours_fail_both() {
    let seed = seed();
    let mut rng = Rng::named(seed, "bit sets, planted");
    for _ in 0..200 {
        let planted = shapes::planted(&mut rng);
        let book = planted.book.bytes();
        let case = Case {
            what: &format!("seed {seed}, planted"),
            book: &book,
            drive: planted.layer.into(),
        };
        case.test(&oracle::record(&planted.state), yes_or_no(true));
        let driven = Driven::new(&planted.book, planted.layer.into());
        let mut other = planted.state.clone();
        let fact = rng.below(other.len());
        other[fact] = !other[fact];
        case.test(&oracle::record(&other), yes_or_no(driven.stable(&other)));
    }
}

#[test]
fn any_bytes_are_refused_by_both_with_the_same_cause() {
    let seed = seed();
    let mut rng = Rng::named(seed, "bit sets, any bytes");
    let mut tally = [0; ANSWERS];
    for (shape, generate) in shapes::EVERY_SHAPE {
        for index in 0..300 {
            let bytes = shapes::quick(&mut rng, generate);
            let case = Case {
                what: &format!("seed {seed}, {shape}, book {index}"),
                book: &bytes,
                drive: shapes::any_drive(&mut rng, &bytes),
            };
            let checked = [bitset::check(&bytes), ffi::check_in_place(&bytes)];
            case.assert_answers("check", checked, checked[1]);
            let (facts, _) = fields(&bytes);
            let fact = match rng.chance(80) {
                true => rng.below(facts.max(1)) as u32,
                false => rng.below(facts + 300) as u32,
            };
            let placed = ffi::place_in_place(&bytes, case.drive, fact);
            case.place(fact, placed);
            let width = rng.range(1, 2);
            let candidate = rng.bytes(width);
            case.test(&candidate, expected::test(&bytes, case.drive, &candidate));
            let nearest = Truth::new(&bytes, case.drive).nearest(&candidate, &[FILLER; 2]);
            case.nearest(&candidate, &nearest);
            tally[(placed & 0xFF) as usize] += 1;
        }
    }
    let books = 300 * shapes::EVERY_SHAPE.len();
    println!("seed {seed}, bit sets, any bytes: {books} books, answers 0 to 19: {tally:?}");
    for cause in [0, 1, 2, 3, 4, 5, 6, 7, 8, 9, 11, 12, 19] {
        assert!(tally[cause] >= 10, "{cause} is rare: {tally:?}");
    }
}
