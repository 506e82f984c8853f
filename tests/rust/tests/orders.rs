//! `lesson_list` where the records come to the search in another order than they are listed in, in
//! buffers around the room for every setting and around the listing's length.

use lesson_tests::book::{self, BYTE_ATOMS, LONGEST_RECORD, MAX_ATOMS};
use lesson_tests::expected::{counts, BUFFER_TOO_SHORT};
use lesson_tests::ffi;
use lesson_tests::known::{self, Known};
use lesson_tests::listed::{assert_outcome, outcome};
use lesson_tests::oracle::{self, Driven};
use lesson_tests::orders::{fewest_facts, Order, Ordered};
use lesson_tests::rng::{seed, Rng};

/// The bytes of a listing's head.
const HEAD: usize = 11;

fn width(known: &Known) -> usize {
    book::width(known.book.atoms)
}

/// Lengths of buffers: room for a record of every setting and for one record or one byte less, for
/// exactly the stable states and for one record or one byte less, for a part of a record more, for
/// the head alone, and for less.
fn lengths(known: &Known) -> Vec<usize> {
    let room = |records: usize| HEAD + records * width(known);
    let (settings, states) = (1 << known.branching, known.count);
    let mut lengths = vec![
        room(settings) + 7,
        room(settings),
        room(settings) - 1,
        room(settings - 1),
        room(states) + width(known) - 1,
        room(states),
        room(states) - 1,
        room(states.saturating_sub(1)),
        HEAD,
        HEAD - 1,
        0,
    ];
    lengths.sort();
    lengths.dedup();
    lengths
}

/// How often the cases came up for which the books are there.
#[derive(Debug, Default)]
struct Tally {
    books: usize,
    /// Listings of none, one, and more states.
    listings: [usize; 3],
    /// Of as many states as settings, and of less than a sixteenth of these.
    shares: [usize; 2],
    /// Calls that were refused, and granted.
    calls: [usize; 2],
}

impl Tally {
    fn count(&mut self, known: &Known) {
        let settings = 1 << known.branching;
        self.books += 1;
        self.listings[known.count.min(2)] += 1;
        self.shares[0] += usize::from(known.count == settings);
        self.shares[1] += usize::from(16 * known.count < settings);
    }

    /// Random books are worth their time only if all of this came up so often.
    fn assert_telling(&self, least: usize) {
        let mut all = self.listings.iter().chain(&self.shares);
        assert!(all.all(|&times| times >= least), "{self:?}");
    }
}

/// The book is listed so in every buffer, and bytes past the listing, or all where there is no room
/// for it, stay as they were.
fn assert_listed(what: &str, known: &Known, listing: &[u8], rng: &mut Rng, tally: &mut Tally) {
    let (bytes, drive) = (known.book.bytes(), known.layer.into());
    tally.count(known);
    for length in lengths(known) {
        let buffer = rng.bytes(length);
        let expected = outcome(listing, known.answer(), &buffer);
        assert_outcome(what, &bytes, drive, &buffer, &expected);
        tally.calls[usize::from(expected.0 != BUFFER_TOO_SHORT)] += 1;
    }
}

/// The same for listings that are too long to copy and to print: on the buffer itself.
fn assert_long_listed(what: &str, known: &Known, listing: &[u8], length: usize) {
    let filler = |at: usize| (at % 251) as u8 ^ 0xA5;
    let mut buffer: Vec<u8> = (0..length).map(filler).collect();
    let expected = outcome(listing, known.answer(), &buffer);
    let answer = ffi::list_in_place(&known.book.bytes(), known.layer.into(), &mut buffer);
    assert!(
        answer == expected.0,
        "{what}, buffer of {length} bytes: engine {answer:#X}, expected {:#X}",
        expected.0
    );
    let differs = buffer.iter().zip(&expected.1).position(|(a, b)| a != b);
    assert_eq!(
        differs, None,
        "{what}, buffer of {length} bytes: first byte that differs"
    );
}

/// A book of any sizes with so many choices at most, among so many facts. In a quarter of them or
/// more each setting has a state.
fn any(rng: &mut Rng, order: Order, choices: u16, atoms: u16) -> Ordered {
    let most = (0..=choices).rfind(|&choices| fewest_facts(choices) <= atoms);
    let choices = rng.range(0, most.unwrap_or(0).into()) as u16;
    let mut left = usize::from(atoms - fewest_facts(choices));
    let cuts = match left > 0 && rng.chance(50) {
        true => rng.range(1, 4) as u16,
        false => 0,
    };
    left -= usize::from(cuts > 0);
    Ordered {
        order,
        choices,
        idle: match rng.chance(50) {
            true => rng.range(0, left.min(4)) as u16,
            false => 0,
        },
        cuts,
        atoms,
        at_the_end: rng.chance(50),
    }
}

/// Every state of these is tried.
#[test]
fn small_listings_in_every_order_are_the_oracles() {
    let seed = seed();
    let mut rng = Rng::named(seed, "list, orders, small");
    let mut tally = Tally::default();
    for order in Order::ALL {
        for _ in 0..40 {
            let atoms = rng.range(1, 11) as u16;
            let ordered = any(&mut rng, order, 5, atoms);
            let known = ordered.known(&mut rng);
            let driven = Driven::new(&known.book, known.layer.into());
            let listing = driven.listing();
            let what = format!("seed {seed}, {ordered:?}");
            let answer = counts(driven.branching_count(), oracle::count(&listing));
            assert_eq!(known.answer(), answer, "{what}");
            assert_listed(&what, &known, &listing, &mut rng, &mut tally);
        }
    }
    println!(
        "seed {seed}, list, orders, small: {} books, {tally:?}",
        tally.books
    );
    tally.assert_telling(5);
}

#[test]
fn records_of_every_length_are_listed_in_every_order() {
    let seed = seed();
    let mut rng = Rng::named(seed, "list, orders, widths");
    let mut tally = Tally::default();
    let longest = LONGEST_RECORD as u16;
    for width in (1..=34).chain([longest - 1, longest]) {
        for order in Order::ALL {
            // Choices, their helpers and what follows from them in the last byte alone.
            let last_byte = Ordered {
                at_the_end: true,
                ..Ordered::new(order, 2, 8 * width)
            };
            let mut of_any_sizes = |choices| {
                let atoms = 8 * width - rng.below(8) as u16;
                any(&mut rng, order, choices, atoms)
            };
            for ordered in [last_byte, of_any_sizes(3), of_any_sizes(8)] {
                let known = ordered.known(&mut rng);
                let what = format!("seed {seed}, {ordered:?}");
                let listing = known.listing();
                assert_listed(&what, &known, &listing, &mut rng, &mut tally);
            }
        }
    }
    println!(
        "seed {seed}, list, orders, widths: {} books, {tally:?}",
        tally.books
    );
    tally.assert_telling(10);
}

#[test]
fn thousands_of_records_are_listed_in_every_order() {
    let seed = seed();
    let mut rng = Rng::named(seed, "list, orders, thousands");
    let mut tally = Tally::default();
    for order in Order::ALL {
        for (choices, idle, cuts, atoms) in [
            (12, 0, 0, 24),
            (11, 1, 0, 40),
            (12, 1, 4, BYTE_ATOMS),
            (11, 1, 4, MAX_ATOMS),
        ] {
            let ordered = Ordered {
                order,
                choices,
                idle,
                cuts,
                atoms,
                at_the_end: rng.chance(50),
            };
            let known = ordered.known(&mut rng);
            let what = format!("seed {seed}, {ordered:?}");
            let listing = known.listing();
            assert_listed(&what, &known, &listing, &mut rng, &mut tally);
        }
    }
    println!(
        "seed {seed}, list, orders, thousands: {} books, {tally:?}",
        tally.books
    );
}

#[test]
fn as_many_as_65_536_records_in_no_order_are_listed() {
    let seed = seed();
    let ordered = Ordered::new(Order::Shuffled, 16, 40);
    let known = ordered.known(&mut Rng::named(seed, "list, orders, 65,536"));
    assert_eq!(known.count, 1 << 16);
    let what = format!("seed {seed}, {ordered:?}");
    let listing = known.listing();
    for length in [listing.len(), listing.len() - 1, listing.len() - 5] {
        assert_long_listed(&what, &known, &listing, length);
    }
}

/// 2^20 settings and few states, with room for a record of every setting and for one less.
#[test]
fn few_states_of_many_settings_are_listed_in_every_order() {
    let seed = seed();
    let mut rng = Rng::named(seed, "list, orders, few");
    for order in Order::ALL {
        let ordered = Ordered {
            idle: 16,
            ..Ordered::new(order, 4, 32)
        };
        let known = ordered.known(&mut rng);
        assert_eq!((known.branching, known.count), (20, 16));
        let what = format!("seed {seed}, {ordered:?}");
        let listing = known.listing();
        for length in lengths(&known) {
            assert_long_listed(&what, &known, &listing, length);
        }
    }
}

#[test]
fn no_state_is_listed_as_a_head_alone() {
    let seed = seed();
    let mut rng = Rng::named(seed, "list, orders, none");
    let mut tally = Tally::default();
    for order in Order::ALL {
        let ordered = any(&mut rng, order, 6, 20);
        let known = known::quarrelled(ordered.known(&mut rng));
        let listing = known.listing();
        assert_eq!(listing.len(), HEAD);
        let what = format!("seed {seed}, {ordered:?}");
        assert_listed(&what, &known, &listing, &mut rng, &mut tally);
    }
    println!(
        "seed {seed}, list, orders, none: {} books, {tally:?}",
        tally.books
    );
}
