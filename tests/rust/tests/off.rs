//! Layers that are switched off for one drive (document 02, h), in the four calls that take the set:
//! against the oracle, which has the set from that document; against books whose states are known;
//! and against books from which the rules of those layers were taken.

use lesson_tests::book::{hex, not, plain, Book, Literal, BYTE_ATOMS, MAX_ATOMS};
use lesson_tests::drive::{all_layers, at, Drive};
use lesson_tests::every_call::{
    assert_as_the_oracle, assert_known, assert_refused, assert_states, assert_trap, states, FILLER,
    ROOM,
};
use lesson_tests::expected::{branching, counts, place_of, yes_or_no};
use lesson_tests::ffi;
use lesson_tests::known;
use lesson_tests::listed::{assert_outcome, outcome};
use lesson_tests::misreadings::{Misread, Misreading::*, OF_THE_SET};
use lesson_tests::oracle::{self, Driven};
use lesson_tests::plain as plain_rust;
use lesson_tests::rng::{seed, Rng};
use lesson_tests::shapes::{self, Layering, NO_LAYERS};
use lesson_tests::sweep::{self, many_sets};

const P: u16 = 0;
const Q: u16 = 1;
const R: u16 = 2;

/// How often the cases came up for which random books are there.
#[derive(Debug, Default)]
struct Tally {
    drives: usize,
    /// Drives with no, one and more states, something being switched off.
    states: [usize; 3],
    /// Drives whose listing is another than without the set.
    moved: usize,
    /// For each misreading of the set, the states on which it is wrong.
    told_apart: [usize; OF_THE_SET.len()],
}

impl Tally {
    fn count(&mut self, book: &Book, drive: Drive, answer: u64) {
        let driven = Driven::new(book, drive);
        self.drives += 1;
        if drive.off != 0 {
            self.states[((answer >> 16) as usize).min(2)] += 1;
            let nothing_off = Driven::new(book, drive.off(0));
            self.moved += usize::from(driven.listing() != nothing_off.listing());
        }
        if book.atoms <= 4 {
            for (misreading, told_apart) in OF_THE_SET.iter().zip(&mut self.told_apart) {
                let misread = Misread::new(book, drive, *misreading);
                *told_apart += states(book.atoms)
                    .filter(|state| misread.stable(state) != driven.stable(state))
                    .count();
            }
        }
    }
}

/// Compares all calls with the oracle at every layer of `number` books, under every set of the small
/// ones.
fn sweep(shape: &str, number: usize, generate: impl Fn(&mut Rng) -> Book) -> Tally {
    let mut tally = Tally::default();
    let tried = sweep::drives(shape, number, generate, many_sets, |what, book, drive| {
        let answer = assert_as_the_oracle(what, book, drive);
        tally.count(book, drive, answer);
    });
    println!("{tried}, {tally:?}");
    tally
}

/// Random books are worth their time only if none, one and several states come up so often, and if
/// they tell all the misreadings from the right reading.
fn assert_telling(tally: &Tally, states: [usize; 3], told_apart: usize) {
    let enough = tally.states.iter().zip(states).all(|(a, b)| *a >= b);
    let told = tally.told_apart.iter().all(|&times| times >= told_apart);
    assert!(enough && told && tally.moved >= 1_000, "{tally:?}");
}

#[test]
fn every_set_of_books_in_chains_comes_to_what_the_oracle_says() {
    let tally = sweep("off, chains", 600, |rng| {
        shapes::layered(rng, Layering::Chain)
    });
    assert_telling(&tally, [500, 5_000, 0], 20);
}

#[test]
fn every_set_of_books_in_diamonds_comes_to_what_the_oracle_says() {
    let tally = sweep("off, diamonds", 200, |rng| {
        shapes::layered(rng, Layering::Diamond)
    });
    assert_telling(&tally, [500, 5_000, 0], 20);
}

#[test]
fn every_set_of_books_in_unrelated_branches_comes_to_what_the_oracle_says() {
    let tally = sweep("off, branches", 400, |rng| {
        shapes::layered(rng, Layering::Branches)
    });
    assert_telling(&tally, [500, 5_000, 0], 20);
}

#[test]
fn every_set_of_books_with_any_arrows_comes_to_what_the_oracle_says() {
    let tally = sweep("off, any arrows", 600, |rng| {
        shapes::layered(rng, Layering::Any)
    });
    assert_telling(&tally, [500, 5_000, 0], 20);
}

#[test]
fn every_set_of_books_with_many_states_comes_to_what_the_oracle_says() {
    let tally = sweep("off, many states", 100, |rng| {
        let layering = rng.pick(&[Layering::Chain, Layering::Diamond, Layering::Branches]);
        shapes::crowded(rng, layering)
    });
    assert_telling(&tally, [100, 500, 50], 0);
}

/// p in layer 0, and above it not p, and q.
fn two_layers() -> Book {
    Book::new(2, 2)
        .arrow(0, 1)
        .rule(0, plain(P), &[])
        .rule(1, not(P), &[])
        .rule(1, plain(Q), &[])
}

#[test]
fn trap_the_driven_layer_may_be_off() {
    let book = two_layers();
    assert_states(&book, at(1), &[0x40], 0);
    assert_trap(&book, at(1).off(0b10), &[0x80], 0, DrivenLayerNeverOff);
    assert_trap(&book, at(0).off(0b01), &[0x00], 0, DrivenLayerNeverOff);
}

#[test]
fn trap_bit_i_switches_layer_i_off() {
    let book = two_layers().rule(0, plain(Q), &[]);
    for wrong in [SetIgnored, SetOfThoseThatStay, SetTurnedRound] {
        assert_trap(&book, at(1).off(0b10), &[0xC0], 0, wrong);
    }
    assert_states(&book, at(1).off(0b01), &[0x40], 0);
}

/// "not p if r" of layer 2 displaces p of layer 0 across layer 1, whose "not r" keeps it from that
/// as long as it counts.
#[test]
fn trap_rules_on_both_sides_of_an_off_layer_displace_across_it() {
    let book = Book::new(3, 3)
        .arrow(0, 1)
        .arrow(1, 2)
        .rule(0, plain(P), &[])
        .rule(0, plain(R), &[])
        .rule(1, plain(Q), &[])
        .rule(1, not(R), &[])
        .rule(2, not(P), &[plain(R)]);
    assert_states(&book, at(2), &[0xC0], 1);
    for wrong in [SetIgnored, PathsCut, OffWithAllBelow] {
        assert_trap(&book, at(2).off(0b010), &[0x20], 1, wrong);
    }
}

/// Layer 0 counts by an arrow of its own, and lies below layer 2 only through layer 1.
#[test]
fn trap_what_lies_beyond_an_off_layer_keeps_its_rank() {
    let book = Book::new(1, 4)
        .arrow(0, 1)
        .arrow(1, 2)
        .arrow(2, 3)
        .arrow(0, 3)
        .rule(0, plain(P), &[])
        .rule(2, not(P), &[]);
    assert_states(&book, at(3), &[0x00], 0);
    assert_trap(&book, at(3).off(0b0010), &[0x00], 0, PathsCut);
    assert_states(&book, at(3).off(0b0100), &[0x80], 0);
    assert_states(&book, at(3).off(0b0001), &[0x00], 0);
}

/// Two branches below layer 2: switching one off leaves the other.
#[test]
fn an_off_branch_leaves_the_others() {
    let book = Book::new(3, 3)
        .arrow(0, 2)
        .arrow(1, 2)
        .rule(0, plain(P), &[])
        .rule(1, not(P), &[])
        .rule(1, plain(Q), &[])
        .rule(2, plain(R), &[not(Q)]);
    assert_states(&book, at(2), &[], 1);
    assert_states(&book, at(2).off(0b001), &[0x40], 1);
    assert_states(&book, at(2).off(0b010), &[0xA0], 1);
    assert_states(&book, at(2).off(0b100), &[], 0);
    assert_states(&book, at(0).off(0b110), &[0x80], 0);
}

#[test]
fn trap_rules_of_an_off_layer_neither_displace_nor_take_defaults_nor_branch() {
    let displacing = Book::new(2, 2)
        .arrow(0, 1)
        .rule(0, plain(P), &[])
        .rule(1, not(P), &[not(Q)]);
    assert_states(&displacing, at(1), &[0x00], 1);
    assert_trap(&displacing, at(1).off(0b10), &[0x80], 0, OffStillDisplace);
    let speaking = Book::new(1, 2).arrow(0, 1).rule(0, plain(P), &[]);
    assert_trap(&speaking, at(1).off(0b01), &[0x00], 0, OffAgainstDefaults);
    // "not p if q" has nothing to displace once layer 0 is off, and q does not branch.
    let nothing_below =
        Book::new(2, 2)
            .arrow(0, 1)
            .rule(0, plain(P), &[])
            .rule(1, not(P), &[plain(Q)]);
    assert_states(&nothing_below, at(1), &[0x80], 1);
    assert_states(&nothing_below, at(1).off(0b01), &[0x00], 0);
}

/// p, not p and "q if p", and above them "p if q": without the upper layer there is no state, and
/// without the lower one there is no quarrel.
#[test]
fn a_quarrel_comes_back_when_what_settles_it_is_off() {
    let book = Book::new(2, 2)
        .arrow(0, 1)
        .rule(0, plain(P), &[])
        .rule(0, not(P), &[])
        .rule(0, plain(Q), &[plain(P)])
        .rule(1, plain(P), &[plain(Q)]);
    assert_states(&book, at(1), &[0xC0], 1);
    assert_states(&book, at(1).off(0b10), &[], 0);
    assert_states(&book, at(1).off(0b01), &[0x00], 0);
}

/// Book B at 3 under each of its 16 sets, by hand: a if not b (t), c (u), not a if c (v).
#[test]
fn book_b_under_each_set() {
    let book = shapes::book_b();
    for off in 0..16 {
        let on = |layer: u32| off >> layer & 1 == 0;
        let a = on(0) && !(on(1) && on(2));
        let record = u8::from(a) << 7 | u8::from(on(1)) << 5;
        // b by the first ground; c in a body that can displace.
        let g = usize::from(on(0)) + usize::from(on(0) && on(2));
        assert_states(&book, at(3).off(off), &[record], g);
    }
}

/// Checks that all calls find one state, the empty one, and g = 0.
fn assert_empty_state(what: &str, book: &Book, drive: Drive) {
    let bytes = book.bytes();
    let width = usize::from(book.atoms).div_ceil(8);
    let listing = oracle::listing(book.atoms, &[vec![0; width]]);
    let buffer = vec![FILLER; listing.len() + 3];
    let expected = outcome(&listing, counts(0, 1), &buffer);
    assert_outcome(what, &bytes, drive, &buffer, &expected);
    let buffer = vec![FILLER; width + 3];
    let handed_out = [vec![0; width], vec![FILLER; 3]].concat();
    let one = ffi::one(&bytes, drive, &buffer);
    assert_eq!(one, (branching(0), handed_out), "{what}, {drive}");
    for fact in [0, book.atoms / 2, book.atoms - 1] {
        let place = ffi::place(&bytes, drive, fact.into());
        assert_eq!(place, place_of(0, 0, 1), "{what}, {drive}, fact {fact}");
        let mut state = vec![false; book.atoms.into()];
        let none = ffi::test(&bytes, drive, &oracle::record(&state));
        assert_eq!(none, yes_or_no(true), "{what}, {drive}");
        state[usize::from(fact)] = true;
        let one = ffi::test(&bytes, drive, &oracle::record(&state));
        assert_eq!(one, yes_or_no(false), "{what}, {drive}, fact {fact}");
    }
}

/// Whatever the book says: also where it has no state, or too many branching facts.
#[test]
fn with_every_layer_off_the_empty_state_alone_is_stable_and_g_is_0() {
    let seed = seed();
    let mut rng = Rng::named(seed, "off, all");
    let known = [
        known::pairs(MAX_ATOMS / 2, 0),
        known::displacing_pairs(10, 1),
        known::quarrelled(known::free(3, 0, MAX_ATOMS - 1)),
        known::busy(&mut rng, 20, BYTE_ATOMS),
        known::busy(&mut rng, 20, MAX_ATOMS),
        known::chained(5, MAX_ATOMS),
    ];
    let mut books: Vec<Book> = known.into_iter().map(|known| known.book).collect();
    books.extend((0..300).map(|_| shapes::small(&mut rng)));
    books.extend((0..100).map(|_| shapes::large(&mut rng)));
    books.push(shapes::largest(&mut rng, MAX_ATOMS));
    for (index, book) in books.iter().enumerate() {
        let what = format!("seed {seed}, off, all, book {index}");
        let layer = rng.below(book.layers.into()) as u32;
        let drive = at(layer).off(all_layers(book.layers));
        assert_empty_state(&what, book, drive);
    }
    println!("seed {seed}, off, all: {} books", books.len());
}

/// What is refused without the set is granted where the set leaves less, and only then.
#[test]
fn branching_facts_of_off_layers_do_not_count() {
    let mut book = Book::new(42, 2).arrow(0, 1);
    for atom in 0..21 {
        book = book.rule((atom % 2) as u8, plain(41), &[not(atom)]);
    }
    let bytes = book.bytes();
    for (off, branching) in [(0b00, 21), (0b01, 10), (0b10, 11), (0b11, 0)] {
        let drive = at(1).off(off);
        assert_eq!(Driven::new(&book, drive).branching_count(), branching);
        let record = oracle::record(
            &(0..42)
                .map(|atom| atom == 41 && off != 3)
                .collect::<Vec<_>>(),
        );
        let listing = oracle::listing(42, &[record]);
        let buffer = [FILLER; ROOM];
        let expected = match branching > 20 {
            true => (12, buffer.to_vec()),
            false => outcome(&listing, counts(branching, 1), &buffer),
        };
        assert_outcome("21 facts", &bytes, drive, &buffer, &expected);
    }
}

/// Sets around the bits at L - 1, L and 31, and each bit alone.
fn edge_sets(layers: u8) -> Vec<u32> {
    let all = all_layers(layers);
    let last = 1 << (layers - 1);
    let first_absent = if layers < 32 { 1 << layers } else { 0 };
    let mut sets = vec![
        0,
        all,
        all & !last,
        last | 1,
        all | first_absent,
        last | first_absent,
        !all,
        last | 1 << 31,
        all | 1 << 31,
        u32::MAX,
        u32::MAX >> 1,
        u32::MAX << 1,
        !last,
    ];
    sets.extend((0..32).map(|bit| 1 << bit));
    sets
}

/// In each layer another state is stable, unless the layer is off.
#[test]
fn sets_of_the_books_layers_are_lawful_and_all_others_are_refused_19() {
    for layers in [1, 2, 4, 31, 32] {
        let book = shapes::state_in_each_layer(5, layers);
        let bytes = book.bytes();
        let mut refusals = 0;
        for off in edge_sets(layers) {
            let lawful = (layers..32).all(|absent| off >> absent & 1 == 0);
            for layer in [0, layers / 2, layers - 1] {
                let drive = Drive::from(layer).off(off);
                let what = format!("{layers} layers");
                if !lawful {
                    assert_refused(&what, &bytes, drive, 19);
                    refusals += 1;
                } else if drive.is_off(layer) {
                    assert_states(&book, drive, &[0x00], 0);
                } else {
                    let state = oracle::record(&shapes::state_of_layer(5, layer));
                    assert_states(&book, drive, &state, 0);
                }
            }
        }
        assert_eq!(refusals == 0, layers == 32, "{layers} layers");
    }
}

/// 32 layers in a line, each of which says the opposite of the one before: of those that are on and
/// not above the driven one, the last decides.
#[test]
fn of_32_layers_in_a_line_the_last_that_is_on_decides() {
    let seed = seed();
    let mut rng = Rng::named(seed, "off, 32 layers");
    for rising in [true, false] {
        let layer_at = |place: u8| if rising { place } else { 31 - place };
        let mut book = Book::new(1, 32);
        for place in 0..32 {
            let head = Literal {
                atom: P,
                negated: place % 2 == 1,
            };
            book = book.rule(layer_at(place), head, &[]);
            if place > 0 {
                book = book.arrow(layer_at(place - 1), layer_at(place));
            }
        }
        for place in 0..32 {
            let mut sets = edge_sets(32);
            sets.extend((0..20).map(|_| rng.word() as u32 | rng.word() as u32));
            for off in sets {
                let drive = Drive::from(layer_at(place)).off(off);
                let last = (0..=place).rev().find(|&at| !drive.is_off(layer_at(at)));
                let stands = last.is_some_and(|last| last % 2 == 0);
                assert_states(&book, drive, &[u8::from(stands) << 7], 0);
            }
        }
    }
    println!("seed {seed}, off, 32 layers: 2 books");
}

/// What concerns the driven layer comes before the set, and the set before all else.
#[test]
fn nine_comes_before_19_and_19_before_10_to_14() {
    let without_state = known::quarrelled(known::pairs(3, 0)).book;
    for book in [known::pairs(10, 1).book, without_state, Book::new(9, 31)] {
        let bytes = book.bytes();
        let layers = u32::from(book.layers);
        for off in [
            1 << layers,
            1 << 31,
            u32::MAX,
            1 | 1 << 31,
            u32::MAX << layers,
        ] {
            // No buffer, no candidate and no fact is right, some fit, and most have too many
            // branching facts or no state.
            assert_refused("19 with others", &bytes, at(layers - 1).off(off), 19);
            for layer in NO_LAYERS.into_iter().chain([layers]) {
                assert_refused("9 and 19", &bytes, at(layer).off(off), 9);
            }
        }
    }
}

/// Document 01's reading knows no set: its states are those where nothing is switched off.
#[test]
fn with_the_set_0_every_answer_is_document_01s() {
    let seed = seed();
    let mut rng = Rng::named(seed, "off, none");
    let number = 2_000;
    let mut stable = 0;
    for index in 0..number {
        let layering = [Layering::Chain, Layering::Diamond, Layering::Branches];
        let book = shapes::layered(&mut rng, layering[index % 3]);
        for layer in 0..book.layers {
            let drive = Drive::from(layer);
            let off = rng.word() as u32 & all_layers(book.layers);
            let document_01 = Misread::new(&book, drive.off(off), SetIgnored);
            let mut records: Vec<u8> = states(book.atoms)
                .filter(|state| document_01.stable(state))
                .map(|state| oracle::record(&state)[0])
                .collect();
            records.sort();
            let what = format!("seed {seed}, off, none, book {index}");
            let branching = Driven::new(&book, drive).branching_count();
            assert_known(&what, &book, drive, &records, branching);
            stable += records.len();
        }
    }
    println!("seed {seed}, off, none: {number} books, {stable} states");
    assert!(stable > 1_000, "only {stable} states");
}

/// The book without the rules of a set's layers.
fn without(book: &Book, off: u32) -> Book {
    let mut book = book.clone();
    book.rules.retain(|rule| off >> rule.layer & 1 == 0);
    book
}

/// The engine comes to the same on two drives: all calls, with equal candidates, buffers and facts.
/// Whether a search was granted is returned.
fn assert_alike(what: &str, rng: &mut Rng, drives: [(&[u8], Drive); 2], atoms: u16) -> bool {
    let told = |call: &str| {
        let [(one, drive), (other, second)] = drives;
        format!(
            "{what}, {drive} and {second}, {call}\n{}\n{}",
            hex(one),
            hex(other)
        )
    };
    let alike = |call: &str, outcome: &dyn Fn(&[u8], Drive) -> ffi::Outcome| {
        let [one, other] = drives.map(|(book, drive)| outcome(book, drive));
        assert!(one == other, "{}", told(call));
        one
    };
    let width = usize::from(atoms).div_ceil(8);
    let length = 11 + rng.range(0, 40) * width;
    let buffer = rng.bytes(length);
    let listed = alike("list", &|book, drive| ffi::list(book, drive, &buffer));
    let buffer = rng.bytes(width + 2);
    let one = alike("one", &|book, drive| ffi::one(book, drive, &buffer));
    let fact = rng.below(atoms.into()) as u32;
    alike("place", &|book, drive| {
        (ffi::place(book, drive, fact), Vec::new())
    });
    let any: Vec<bool> = (0..atoms).map(|_| rng.chance(50)).collect();
    for candidate in [oracle::record(&any), one.1[..width].to_vec()] {
        alike("test", &|book, drive| {
            (ffi::test(book, drive, &candidate), Vec::new())
        });
    }
    if listed.0 & 0xFF == 0 && listed.0 >> 16 != 0 {
        let handed_out = [&listed.1[11..11 + width], &buffer[width..]].concat();
        assert!(one.1 == handed_out, "{}", told("one, the first listed"));
    }
    listed.0 & 0xFF == 0
}

/// Books of any size.
fn sized(rng: &mut Rng, index: usize) -> Book {
    match index % 4 {
        0 => shapes::layered(rng, Layering::Any),
        1 => {
            let small = shapes::crowded(rng, Layering::Diamond);
            let layer = rng.below(small.layers.into()) as u8;
            let atoms = rng.pick(&[9, 64, 65, BYTE_ATOMS - 1, BYTE_ATOMS, 700, MAX_ATOMS]);
            known::spread(rng, &small, layer, atoms).book
        }
        2 => {
            let branching = rng.range(1, 9) as u16;
            let atoms = rng.pick(&[BYTE_ATOMS, MAX_ATOMS]);
            known::busy(rng, branching, atoms).book
        }
        _ => shapes::large(rng),
    }
}

/// A drive of a book of any size, under a set of its layers, whose search is short.
fn any_drive(rng: &mut Rng, index: usize) -> (Book, Drive) {
    loop {
        let book = sized(rng, index);
        let layer = rng.below(book.layers.into()) as u32;
        let drive = at(layer).off(rng.word() as u32 & all_layers(book.layers));
        match plain_rust::branching_count(&book.bytes(), drive) {
            Ok(11..) => continue,
            _ => return (book, drive),
        }
    }
}

/// Asserts that of so many drives some were searched and some refused.
fn assert_both(what: &str, number: usize, granted: usize) {
    println!("{what}: {number} books, {granted} searches granted");
    assert!(granted >= 100 && number - granted >= 20, "{granted}");
}

/// Arrows, facts and the driven layer being the same.
#[test]
fn a_layer_that_is_off_is_a_layer_without_its_rules() {
    let seed = seed();
    let mut rng = Rng::named(seed, "off, without rules");
    let (number, mut granted) = (800, 0);
    for index in 0..number {
        let (book, drive) = any_drive(&mut rng, index);
        let (bytes, rest) = (book.bytes(), without(&book, drive.off).bytes());
        let drives = [(&bytes[..], drive), (&rest[..], drive.off(0))];
        let what = format!("seed {seed}, off, without rules, book {index}");
        granted += usize::from(assert_alike(&what, &mut rng, drives, book.atoms));
    }
    assert_both(&format!("seed {seed}, off, without rules"), number, granted);
}

#[test]
fn layers_that_are_neither_driven_nor_below_change_nothing_when_off() {
    let seed = seed();
    let mut rng = Rng::named(seed, "off, not relevant");
    let (number, mut granted) = (800, 0);
    for index in 0..number {
        let (book, drive) = any_drive(&mut rng, index);
        let below = oracle::below(&book);
        let driven = drive.layer as usize;
        let relevant = (0..usize::from(book.layers))
            .filter(|&layer| layer == driven || below[layer][driven])
            .fold(0, |set, layer| set | 1 << layer);
        let other = drive.off & relevant | rng.word() as u32 & all_layers(book.layers) & !relevant;
        let bytes = book.bytes();
        let drives = [(&bytes[..], drive), (&bytes[..], drive.off(other))];
        let what = format!("seed {seed}, off, not relevant, book {index}");
        granted += usize::from(assert_alike(&what, &mut rng, drives, book.atoms));
    }
    assert_both(&format!("seed {seed}, off, not relevant"), number, granted);
}
