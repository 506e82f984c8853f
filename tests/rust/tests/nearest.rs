//! `lesson_nearest` of the compiled archive: the state that it hands out is the stable one that differs from
//! the candidate in the fewest facts, among equals the first of the listing, by the oracle, by known books
//! and by `lesson_list`; and everything else is as documents 01 and 02 say. A search that leaves out too
//! much, or compares states otherwise, hands out another one of these books.

use lesson_tests::book::{
    edge_sizes, hex, not, plain, width, Book, BYTE_ATOMS, LONGEST_RECORD, MAX_ATOMS, WIDE,
};
use lesson_tests::causes::{every_set, fields, AnyBytes, ANSWERS};
use lesson_tests::drive::{at, Drive};
use lesson_tests::every_call::{states, FILLER};
use lesson_tests::expected::{differing, yes_or_no, BAD_CANDIDATE, TOO_MANY_BRANCHING};
use lesson_tests::ffi::{self, Outcome};
use lesson_tests::known::{self, Front, Known, EVERY_FOLLOWING};
use lesson_tests::listed::{
    assert_nearest, assert_nearest_in_place, nearest_listed, nearest_of_models, nearest_outcome,
};
use lesson_tests::oracle::{self, Driven};
use lesson_tests::orders::{Order, Ordered};
use lesson_tests::rng::{seed, Rng};
use lesson_tests::shapes::{self, choice, Layering, B, NO_LAYERS};
use lesson_tests::sweep;
use lesson_tests::truth::Truth;
use std::thread;

/// More bytes than any listing has with which a state is compared.
const ROOM: usize = 1 << 18;

/// The engine's outcome on fenced copies is the one expected. Where a state is handed out, it is the closest
/// that `lesson_list` has for the same book, layer and set; and it is the candidate, with no fact that
/// differs, exactly where `lesson_test` finds that stable.
fn assert_outcome(what: &str, book: &[u8], drive: Drive, lent: [&[u8]; 2], expected: &Outcome) {
    assert_nearest(what, book, drive, lent, expected);
    if expected.0 & 0xFF != 0 {
        return;
    }
    let candidate = lent[0];
    let (facts, listed) = nearest_listed(book, drive, ROOM, candidate);
    let handed_out = &expected.1[..listed.len()];
    let told = format!("{what}, {drive}, {}\n{}", hex(candidate), hex(book));
    assert_eq!((expected.0 >> 16) as usize, facts, "{told}");
    assert_eq!(hex(handed_out), hex(&listed), "{told}");
    let stable = ffi::test_in_place(book, drive, candidate) == yes_or_no(true);
    assert_eq!([facts == 0, handed_out == candidate], [stable; 2], "{told}");
}

/// The engine refuses with this cause, and every byte is as it was.
fn assert_refused(what: &str, book: &[u8], drive: Drive, lent: [&[u8]; 2], cause: u64) {
    assert_nearest(what, book, drive, lent, &(cause, lent[1].to_vec()));
}

/// Wrong readings of which state is closest.
#[derive(Clone, Copy, Debug, PartialEq, Eq)]
enum Wrong {
    /// Of equals the last of the listing.
    LastOfEquals,
    /// Of equals the first that a search meets which sets the branching facts one after the other, each as
    /// standing or as not standing first.
    FirstMet {
        standing: bool,
    },
    Farthest,
    /// The first of the listing, whatever the candidate is.
    FirstListed,
    /// The branching facts alone are compared.
    BranchingAlone,
    /// The others alone are.
    OthersAlone,
    /// Those alone that stand in the candidate.
    Missing,
    /// Those alone that do not.
    Added,
    /// How many facts stand is compared, and not which.
    HowMany,
    /// The state that is alike for longest, from fact 0 on.
    LongestAlike,
}

const EVERY_WRONG: [Wrong; 11] = [
    Wrong::LastOfEquals,
    Wrong::FirstMet { standing: false },
    Wrong::FirstMet { standing: true },
    Wrong::Farthest,
    Wrong::FirstListed,
    Wrong::BranchingAlone,
    Wrong::OthersAlone,
    Wrong::Missing,
    Wrong::Added,
    Wrong::HowMany,
    Wrong::LongestAlike,
];

/// The settings of the branching facts, in the order of their facts.
fn setting<'a>(state: &'a [bool], branches: &'a [bool]) -> impl Iterator<Item = usize> + 'a {
    let facts = state.iter().zip(branches);
    facts.filter(|at| *at.1).map(|at| usize::from(*at.0))
}

impl Wrong {
    /// By what it compares states: the one with the least is handed out, of equal ones the first listed.
    fn key(self, state: &[bool], candidate: &[bool], branches: &[bool]) -> Vec<usize> {
        let count = |counts: &dyn Fn(usize) -> bool| {
            let facts = 0..state.len();
            facts.filter(|&fact| counts(fact)).count()
        };
        let differs = |fact: usize| state[fact] != candidate[fact];
        let distance = count(&differs);
        let standing = |state: &[bool]| state.iter().filter(|&&stands| stands).count();
        match self {
            Wrong::LastOfEquals => {
                let falling = state.iter().map(|&stands| usize::from(!stands));
                [distance].into_iter().chain(falling).collect()
            }
            Wrong::FirstMet { standing } => {
                let met = setting(state, branches).map(|stands| stands ^ usize::from(standing));
                [distance].into_iter().chain(met).collect()
            }
            Wrong::Farthest => vec![state.len() - distance],
            Wrong::FirstListed => vec![],
            Wrong::BranchingAlone => vec![count(&|fact| differs(fact) && branches[fact])],
            Wrong::OthersAlone => vec![count(&|fact| differs(fact) && !branches[fact])],
            Wrong::Missing => vec![count(&|fact| differs(fact) && candidate[fact])],
            Wrong::Added => vec![count(&|fact| differs(fact) && !candidate[fact])],
            Wrong::HowMany => vec![standing(state).abs_diff(standing(candidate))],
            Wrong::LongestAlike => (0..state.len()).map(|fact| differs(fact).into()).collect(),
        }
    }

    /// Whether it comes to another state than the closest of the stable ones, which are as listed.
    fn is_shown(self, models: &[Vec<bool>], candidate: &[bool], branches: &[bool]) -> bool {
        let key = |model: &&Vec<bool>| self.key(model, candidate, branches);
        let chosen = models.iter().min_by_key(key);
        let right = oracle::nearest(models, candidate);
        chosen.map(Vec::as_slice) != right.map(|(_, model)| model)
    }
}

/// For this candidate of a book of at most 8 facts so many facts differ from the state of this record, by
/// the oracle too; and each of the wrong readings comes to another state.
fn assert_trap(book: &Book, candidate: u8, facts: usize, record: u8, wrong: &[Wrong]) {
    let (bytes, drive) = (book.bytes(), at(0));
    let driven = Driven::new(book, drive);
    let (models, g) = (driven.stable_models(), driven.branching_count());
    let state = oracle::state(&[candidate], book.atoms).expect("a candidate");
    let buffer = [FILLER; 3];
    let expected = nearest_outcome(Some((facts, [record])), 1, g, &buffer);
    let by_oracle = nearest_of_models(&models, &state, g, &buffer);
    assert_eq!(by_oracle, expected, "oracle, {candidate:#X}");
    assert_outcome("trap", &bytes, drive, [&[candidate], &buffer], &expected);
    for wrong in wrong {
        let shown = wrong.is_shown(&models, &state, &driven.branching());
        assert!(shown, "{candidate:#X} does not show {wrong:?}");
    }
}

#[test]
fn trap_of_equals_the_first_of_the_listing_is_handed_out() {
    let last = [Wrong::LastOfEquals, Wrong::FirstMet { standing: true }];
    let book = choice(Book::new(2, 1), 0, 0, 1);
    assert_trap(&book, 0x00, 1, 0x40, &last);
    assert_trap(&book, 0xC0, 1, 0x40, &last);
    // Fact 0 follows q and fact 3 follows p: a search that sets p as not standing first meets the last one.
    let book = choice(Book::new(4, 1), 0, 1, 2)
        .rule(0, plain(0), &[plain(2)])
        .rule(0, plain(3), &[plain(1)]);
    let first_met = [Wrong::LastOfEquals, Wrong::FirstMet { standing: false }];
    for candidate in [0x00, 0xF0, 0xC0, 0x30, 0x90, 0x60] {
        assert_trap(&book, candidate, 2, 0x50, &first_met);
    }
}

#[test]
fn trap_neither_the_farthest_nor_the_first_listed_is_handed_out() {
    let book = choice(Book::new(2, 1), 0, 0, 1);
    assert_trap(&book, 0x40, 0, 0x40, &[Wrong::Farthest]);
    assert_trap(&book, 0x80, 0, 0x80, &[Wrong::Farthest, Wrong::FirstListed]);
}

/// p alone, or q and three facts that follow it.
#[test]
fn trap_facts_that_do_not_branch_count_as_much() {
    let mut book = choice(Book::new(6, 1), 0, 0, 1);
    for follower in 2..5 {
        book = book.rule(0, plain(follower), &[plain(1)]);
    }
    let branching_alone = [Wrong::BranchingAlone, Wrong::LongestAlike];
    assert_trap(&book, 0b1011_1000, 2, 0b0111_1000, &branching_alone);
    // The last fact never stands; p does.
    assert_trap(&book, 0b1000_0100, 1, 0b1000_0000, &[Wrong::FirstListed]);
    let others_alone = [Wrong::OthersAlone];
    let book = choice(Book::new(3, 1), 0, 0, 1);
    assert_trap(&book, 0b1010_0000, 1, 0b1000_0000, &others_alone);
}

#[test]
fn trap_facts_count_that_are_missing_and_that_are_added() {
    let followers = |followed: u16| {
        choice(Book::new(4, 1), 0, 0, 1)
            .rule(0, plain(2), &[plain(followed)])
            .rule(0, plain(3), &[plain(followed)])
    };
    // q and both others, or p.
    assert_trap(&followers(1), 0x00, 1, 0x80, &[Wrong::Missing]);
    // q, or p and both others.
    assert_trap(&followers(0), 0xF0, 1, 0xB0, &[Wrong::Added]);
}

#[test]
fn trap_which_facts_stand_counts_and_not_how_many() {
    let book = choice(Book::new(2, 1), 0, 0, 1);
    assert_trap(&book, 0x80, 0, 0x80, &[Wrong::HowMany]);
}

/// For a candidate in which the helpers stand alone, the closest state is the first listed of those that
/// differ in as few facts: of all but the farther ones.
fn assert_tied(what: &str, listed_as: &[usize], farther: &[usize]) {
    let known = known::tied(listed_as, farther);
    let choices = known.branching;
    let helpers = choices..2 * choices;
    let atoms = usize::from(known.book.atoms);
    let candidate: Vec<bool> = (0..atoms).map(|fact| helpers.contains(&fact)).collect();
    let near = (0..known.count).filter(|number| !farther.contains(number));
    let first = near
        .min_by_key(|&number| listed_as[number])
        .expect("one of them");
    let state = known.planted(first).state;
    let nearest = Some((2 * choices, oracle::record(&state)));
    assert_eq!(known.nearest(&candidate), nearest, "{what}");
    assert_known(what, &known, &candidate);
}

/// Every order of four states, all of them tied or some: one, two, three.
#[test]
fn ties_of_two_and_more_in_every_order() {
    for order in shapes::permutations(4) {
        let listed_as: Vec<usize> = order.into_iter().map(usize::from).collect();
        for set in 0..15 {
            let farther: Vec<usize> = (0..4).filter(|at| set >> at & 1 == 1).collect();
            let what = format!("listed as {listed_as:?}, but {farther:?}");
            assert_tied(&what, &listed_as, &farther);
        }
    }
}

/// The same with eight states and with sixteen.
#[test]
fn ties_of_many_states_in_any_order() {
    let seed = seed();
    let mut rng = Rng::named(seed, "nearest, ties");
    for choices in [3, 4] {
        for _ in 0..150 {
            let mut listed_as: Vec<usize> = (0..1 << choices).collect();
            rng.shuffle(&mut listed_as);
            let mut farther: Vec<usize> = (0..listed_as.len()).collect();
            rng.shuffle(&mut farther);
            farther.truncate(rng.below(listed_as.len()));
            let what = format!("seed {seed}, listed as {listed_as:?}, but {farther:?}");
            assert_tied(&what, &listed_as, &farther);
        }
    }
}

/// Two choices, their helpers and two followers under every numbering, each follower with either choice and
/// either sign, and every candidate.
#[test]
fn every_numbering_of_two_choices_for_every_candidate() {
    let literals = [plain(4), not(4), plain(5), not(5)];
    // By how many states are closest, and which of them, as they are met, is the first of the listing.
    let mut ties = [[0; 4]; 5];
    for (one, other) in literals
        .iter()
        .flat_map(|one| literals.map(|two| (one, two)))
    {
        let free = known::free(2, 2, 6).book;
        let book = free.rule(1, plain(0), &[*one]).rule(1, plain(1), &[other]);
        let models = Driven::new(&book, at(1)).stable_models();
        assert_eq!(models.len(), 4);
        for numbers in shapes::permutations(6) {
            let moved = book.renumbered(&numbers);
            let (bytes, branches) = (moved.bytes(), Driven::new(&moved, at(1)).branching());
            let models = models.iter();
            let models = models.map(|model| known::renumbered_state(model, &numbers));
            let mut models: Vec<Vec<bool>> = models.collect();
            models.sort();
            for candidate in states(6) {
                let record = oracle::record(&candidate);
                let lent = [&record[..], &[FILLER; 2]];
                let expected = nearest_of_models(&models, &candidate, 2, lent[1]);
                assert_nearest_in_place("moved", &bytes, at(1), lent, &expected);
                let facts = (expected.0 >> 16) as usize;
                let closest = models.iter();
                let closest = closest.filter(|model| oracle::distance(model, &candidate) == facts);
                let met = closest.map(|model| setting(model, &branches).collect());
                let met: Vec<Vec<usize>> = met.collect();
                let before = met.iter().filter(|other| **other < met[0]).count();
                ties[met.len()][before] += 1;
            }
        }
    }
    println!("by ties, and by how many of them are met before the first listed: {ties:?}");
    for (number, before) in [(1, 0), (2, 0), (2, 1), (4, 0), (4, 1), (4, 2)] {
        assert!(ties[number][before] > 1_000, "{ties:?}");
    }
}

/// How the sweeps' drives and candidates were.
#[derive(Debug, Default)]
struct Tally {
    /// Drives with 0, 1 and more states.
    states: [usize; 3],
    /// Candidates for which 1, 2, 3 and more states are closest.
    closest: [usize; 4],
    /// Candidates for which each wrong reading comes to another state.
    shown: [usize; EVERY_WRONG.len()],
}

/// Stable states, these with one fact and with all facts the other way, and any states.
fn candidates(rng: &mut Rng, models: &[Vec<bool>], atoms: u16) -> Vec<Vec<bool>> {
    let mut candidates: Vec<Vec<bool>> = Vec::new();
    for model in models.iter().take(6) {
        let flipped = rng.below(model.len());
        let mut other = model.clone();
        other[flipped] = !other[flipped];
        let all = model.iter().map(|stands| !stands).collect();
        candidates.extend([model.clone(), other, all]);
    }
    for _ in 0..12 {
        let likely = rng.pick(&[10, 50, 90]);
        candidates.push((0..atoms).map(|_| rng.chance(likely)).collect());
    }
    candidates
}

/// Random books with facts that follow others, at every layer and with layers off: the oracle's closest
/// state, in buffers from none to a record and some bytes more.
fn sweep(shape: &str, number: usize, generate: impl Fn(&mut Rng) -> Book) -> Tally {
    let mut tally = Tally::default();
    let generate = |rng: &mut Rng| {
        let book = generate(rng);
        shapes::with_followers(rng, book)
    };
    let tried = sweep::layers(shape, number, generate, |swept, rng| {
        let driven = &swept.driven;
        let (models, branches) = (driven.stable_models(), driven.branching());
        let (g, width) = (driven.branching_count(), width(swept.book.atoms));
        tally.states[models.len().min(2)] += 1;
        for candidate in candidates(rng, &models, swept.book.atoms) {
            let record = oracle::record(&candidate);
            let length = rng.range(0, width + 2);
            let buffer = rng.bytes(length);
            let expected = nearest_of_models(&models, &candidate, g, &buffer);
            assert_outcome(
                swept.what,
                swept.bytes,
                swept.drive,
                [&record, &buffer],
                &expected,
            );
            let distance = |model: &Vec<bool>| oracle::distance(model, &candidate);
            if let Some((facts, _)) = oracle::nearest(&models, &candidate) {
                let closest = models.iter().filter(|model| distance(model) == facts);
                tally.closest[(closest.count() - 1).min(3)] += 1;
            }
            for (shown, wrong) in tally.shown.iter_mut().zip(EVERY_WRONG) {
                *shown += usize::from(wrong.is_shown(&models, &candidate, &branches));
            }
        }
    });
    println!("{tried}, {tally:?}");
    tally
}

/// What comes up often enough with few books: all but ties of three and more, and ties in which a search
/// that sets the facts as not standing first does not meet the first listed first.
fn assert_telling(tally: &Tally) {
    let common = |(_, wrong): &(_, Wrong)| *wrong != Wrong::FirstMet { standing: false };
    let shown = tally.shown.iter().zip(EVERY_WRONG).filter(common);
    let times = tally.states.iter().chain(&tally.closest[..2]);
    let mut times = times.chain(shown.map(|(times, _)| times));
    assert!(times.all(|&times| times > 10), "{tally:?}");
}

#[test]
fn closest_states_of_random_books_in_any_layers() {
    let every = [
        Layering::Chain,
        Layering::Diamond,
        Layering::Branches,
        Layering::Any,
    ];
    let tally = sweep("nearest, layered", 1_500, |rng| {
        let layering = rng.pick(&every);
        shapes::layered(rng, layering)
    });
    assert_telling(&tally);
}

#[test]
fn closest_states_of_random_books_with_many_states() {
    let tally = sweep("nearest, crowded", 200, |rng| {
        shapes::crowded(rng, Layering::Diamond)
    });
    assert_telling(&tally);
}

#[test]
fn closest_states_of_random_books_with_constraints() {
    let tally = sweep("nearest, constraints", 800, |rng| {
        shapes::constrained(rng, Layering::Any)
    });
    assert_telling(&tally);
}

/// So many books that all comes up.
#[test]
fn closest_states_of_random_books_with_choices() {
    let tally = sweep("nearest, choices", 3_000, shapes::choices);
    assert_telling(&tally);
    let mut times = tally.closest.iter().chain(&tally.shown);
    assert!(times.all(|&times| times > 10), "{tally:?}");
}

/// A book whose states are known, for a candidate, in buffers around a record's length.
fn assert_known(what: &str, known: &Known, candidate: &[bool]) {
    let (bytes, drive) = (known.book.bytes(), known.layer.into());
    let (width, record) = (width(known.book.atoms), oracle::record(candidate));
    let nearest = known.nearest(candidate);
    for length in [width + 3, width, width - 1] {
        let buffer = vec![FILLER; length];
        let expected = nearest_outcome(nearest.clone(), width, known.branching, &buffer);
        assert_outcome(what, &bytes, drive, [&record, &buffer], &expected);
    }
}

/// For several candidates: stable ones and neighbours of these, and others.
fn assert_known_for_some(what: &str, rng: &mut Rng, known: &Known) {
    let models: Vec<Vec<bool>> = (0..known.count.min(3))
        .map(|_| known.planted(rng.below(known.count)).state)
        .collect();
    for candidate in candidates(rng, &models, known.book.atoms) {
        assert_known(what, known, &candidate);
    }
}

/// One call for a candidate, for long searches.
fn assert_known_once(what: &str, known: &Known, candidate: &[bool]) {
    let (bytes, record) = (known.book.bytes(), oracle::record(candidate));
    let buffer = vec![FILLER; record.len() + 2];
    let nearest = known.nearest(candidate);
    let expected = nearest_outcome(nearest, record.len(), known.branching, &buffer);
    let lent = [&record[..], &buffer];
    assert_nearest_in_place(what, &bytes, known.layer.into(), lent, &expected);
}

/// The same, for one that differs in few facts from a stable state, in half of all, and in all.
fn assert_known_near_and_far(what: &str, rng: &mut Rng, known: &Known) {
    let atoms = usize::from(known.book.atoms);
    for flips in [0, 1, 3, atoms / 2, atoms] {
        let mut candidate = match known.count {
            0 => vec![false; atoms],
            count => known.planted(rng.below(count)).state,
        };
        let mut facts: Vec<usize> = (0..atoms).collect();
        rng.shuffle(&mut facts);
        for &fact in facts.iter().take(flips) {
            candidate[fact] = !candidate[fact];
        }
        assert_known_once(&format!("{what}, {flips} facts flipped"), known, &candidate);
    }
}

#[test]
fn closest_states_of_several_kinds_of_books_behind_facts_of_every_kind() {
    let seed = seed();
    let mut rng = Rng::named(seed, "nearest, front");
    for front in Front::ALL {
        for count in [1, 8, 57] {
            for (name, base) in known::several() {
                let known = known::behind(base, front, count);
                let what = format!("seed {seed}, {name}, {count} facts: {front:?}");
                assert_known_for_some(&what, &mut rng, &known);
                let atoms = known.book.atoms;
                let known = known::scattered(&mut rng, known, atoms);
                assert_known_for_some(&format!("{what}, shuffled"), &mut rng, &known);
            }
        }
    }
}

#[test]
fn closest_states_of_every_order_of_records() {
    let seed = seed();
    let mut rng = Rng::named(seed, "nearest, orders");
    for order in Order::ALL {
        for (choices, atoms, cuts) in [(3, 24, 0), (6, 40, 2), (7, MAX_ATOMS, 1)] {
            let ordered = Ordered {
                idle: rng.below(3) as u16,
                cuts,
                ..Ordered::new(order, choices, atoms)
            };
            let known = ordered.known(&mut rng);
            assert_known_for_some(&format!("seed {seed}, {ordered:?}"), &mut rng, &known);
        }
    }
    for following in EVERY_FOLLOWING {
        let known = known::followed(5, 5, 20, following);
        assert_known_for_some(&format!("seed {seed}, {following:?}"), &mut rng, &known);
    }
}

/// A small book's states among so many facts, in buffers of every length up to a record's and some bytes
/// more.
#[test]
fn records_have_their_length_at_every_number_of_facts() {
    let seed = seed();
    let mut rng = Rng::named(seed, "nearest, spread");
    let mut empty = 0;
    let few = [8, 9, 16, 17, BYTE_ATOMS - 1, BYTE_ATOMS];
    let sizes: Vec<u16> = few.into_iter().chain(WIDE).collect();
    for &atoms in &sizes {
        for _ in 0..8 {
            let small = shapes::crowded(&mut rng, Layering::Any);
            let layer = rng.below(small.layers.into()) as u8;
            let known = known::spread(&mut rng, &small, layer, atoms);
            let what = format!("seed {seed}, spread over {atoms} facts");
            assert_known_for_some(&what, &mut rng, &known);
            empty += usize::from(known.count == 0);
            let candidate: Vec<bool> = (0..atoms).map(|_| rng.chance(50)).collect();
            let (bytes, record) = (known.book.bytes(), oracle::record(&candidate));
            let nearest = known.nearest(&candidate);
            for length in 0..width(atoms) + 4 {
                let buffer = rng.bytes(length);
                let (width, g) = (width(atoms), known.branching);
                let expected = nearest_outcome(nearest.clone(), width, g, &buffer);
                let lent = [&record[..], &buffer];
                assert_nearest(&what, &bytes, layer.into(), lent, &expected);
            }
        }
    }
    let number = 8 * sizes.len();
    println!("seed {seed}, nearest, spread: {number} books, {empty} without a state");
    assert!(empty > 0 && number - empty > 30);
}

/// Every number of facts that can differ, from none to all, where there is one state: no fact stands in it,
/// all do, or some.
#[test]
fn every_distance_up_to_the_number_of_facts() {
    let seed = seed();
    let mut rng = Rng::named(seed, "nearest, distances");
    for atoms in edge_sizes() {
        for likely in [0, 100, 50] {
            let state: Vec<bool> = (0..atoms).map(|_| rng.chance(likely)).collect();
            let mut book = Book::new(atoms, 1);
            for atom in (0..atoms).filter(|&atom| state[usize::from(atom)]) {
                book = book.rule(0, plain(atom), &[]);
            }
            let (bytes, record) = (book.bytes(), oracle::record(&state));
            let mut order: Vec<usize> = (0..atoms.into()).collect();
            rng.shuffle(&mut order);
            let mut candidate = state.clone();
            for facts in 0..=usize::from(atoms) {
                let lent = [&oracle::record(&candidate)[..], &vec![FILLER; record.len()]];
                let what = format!("seed {seed}, {atoms} facts, {facts} differ");
                let expected = (differing(0, facts), record.clone());
                assert_nearest_in_place(&what, &bytes, at(0), lent, &expected);
                if let Some(&fact) = order.get(facts) {
                    candidate[fact] = !candidate[fact];
                }
            }
        }
    }
}

/// All facts stand in one state, and none in the other; in the candidate so many do. Cut to a byte, 256 would
/// come before 255.
#[test]
fn distances_past_a_byte_are_compared_in_full() {
    for total in [3, 4, 255, 256, 257, 511, 512, 513, 1_000] {
        let pair = known::free(1, 0, 2);
        let known = known::behind(pair, Front::Follow, total - 2);
        assert_eq!((known.branching, known.count), (1, 2));
        let half = total / 2;
        let some = [0, 1, half - 1, half, half + 1, 254, 255, 256, 257, total];
        for standing in some.into_iter().filter(|&standing| standing <= total) {
            let candidate: Vec<bool> = (0..total).map(|atom| atom < standing).collect();
            let what = format!("{standing} of {total}");
            assert_known(&what, &known, &candidate);
            let facts = known.nearest(&candidate).map(|nearest| nearest.0);
            assert_eq!(facts, Some(standing.min(total - standing).into()), "{what}");
        }
    }
}

/// A stable candidate comes back with 0, wherever it is in the listing.
#[test]
fn stable_candidates_come_back_with_0() {
    for (name, known) in known::several() {
        for number in 0..known.count {
            let state = known.planted(number).state;
            let found = known.nearest(&state);
            assert_eq!(found, Some((0, oracle::record(&state))), "{name}");
            assert_known(name, &known, &state);
        }
    }
}

/// Of each choice the candidate has the helper alone, so that all states differ in as many facts.
#[test]
fn ties_among_1_024_states() {
    for front in Front::ALL {
        let known = known::behind(known::free(10, 0, 20), front, 10);
        let helpers = 10..20;
        let candidate: Vec<bool> = (0..30).map(|atom| helpers.contains(&atom)).collect();
        let distances = (0..known.count).map(|number| {
            let state = known.planted(number).state;
            oracle::distance(&state, &candidate)
        });
        let distances: Vec<usize> = distances.collect();
        let fewest = distances.iter().min();
        let ties = distances.iter().filter(|&facts| Some(facts) == fewest);
        let expected = match front {
            Front::Follow | Front::Oppose => 1,
            _ => 1 << 10,
        };
        assert_eq!(ties.count(), expected, "{front:?}");
        assert_known(&format!("{front:?}"), &known, &candidate);
    }
}

#[test]
fn twenty_branching_facts_and_no_state_one_and_1_024() {
    let seed = seed();
    let mut rng = Rng::named(seed, "nearest, 20");
    for (k, known) in [
        (0, known::quarrelled(known::pairs(10, 0))),
        (1, known::single(20, true)),
        (1, known::single(20, false)),
        (1, known::chosen(0, 20)),
        (1 << 10, known::pairs(10, 0)),
        (1 << 10, known::displacing_pairs(10, 0)),
        (1 << 10, known::chosen(10, 20)),
        (
            1 << 10,
            known::behind(known::pairs(10, 0), Front::Oppose, 20),
        ),
        (
            1 << 10,
            known::behind(known::chosen(10, 20), Front::Either, 20),
        ),
    ] {
        assert_eq!((known.branching, known.count), (20, k));
        let what = format!("seed {seed}, k = {k}");
        assert_known_near_and_far(&what, &mut rng, &known);
        let atoms = known.book.atoms;
        let known = known::scattered(&mut rng, known, atoms);
        assert_known_near_and_far(&format!("{what}, shuffled"), &mut rng, &known);
    }
}

#[test]
fn twenty_branching_facts_and_2_to_the_20_states() {
    let seed = seed();
    let mut rng = Rng::named(seed, "nearest, 2^20");
    let followed = |following| known::followed(20, 20, 60, following);
    for known in [known::free(20, 0, 40), followed(EVERY_FOLLOWING[1])] {
        assert_eq!((known.branching, known.count), (20, 1 << 20));
        assert_known_near_and_far(&format!("seed {seed}"), &mut rng, &known);
    }
}

#[test]
fn closest_states_of_the_largest_and_of_the_slowest_books() {
    let seed = seed();
    let mut rng = Rng::named(seed, "nearest, busy");
    for atoms in [BYTE_ATOMS, 700, MAX_ATOMS] {
        let what = format!("seed {seed}, {atoms} facts");
        let busy = known::busy(&mut rng, 8, atoms);
        assert_known_near_and_far(&what, &mut rng, &busy);
        let scattered = known::scattered(&mut rng, busy, atoms);
        assert_known_near_and_far(&what, &mut rng, &scattered);
        let junction = known::junction(&mut rng, 4, atoms);
        assert_known_near_and_far(&what, &mut rng, &junction);
        assert_known_near_and_far(&what, &mut rng, &known::chained(1, atoms));
        for (name, known) in known::every_slow(&mut rng, 3, atoms) {
            assert_known_near_and_far(&format!("{what}, {name}"), &mut rng, &known);
        }
    }
}

/// 10, though 12, 13 and 14 would apply too.
#[test]
fn candidates_that_are_no_record_are_refused_10() {
    for atoms in edge_sizes() {
        let one_state = Book::new(atoms, 1);
        let no_state = one_state.clone().rule(0, plain(0), &[not(0)]);
        let mut pairs = known::too_many_branching().map(|known| known.book);
        for book in &mut pairs {
            book.atoms = book.atoms.max(atoms);
        }
        for book in [&one_state, &no_state].into_iter().chain(&pairs) {
            let bytes = book.bytes();
            let drive = at(u32::from(book.layers) - 1);
            for wrong in shapes::wrong_candidates(book.atoms) {
                let what = format!("{} facts, {} rules", book.atoms, book.rules.len());
                for buffer in [&[][..], &[FILLER; LONGEST_RECORD]] {
                    assert_refused(&what, &bytes, drive, [&wrong, buffer], BAD_CANDIDATE);
                }
            }
        }
    }
}

/// A candidate that `lesson_test` finds stable too.
#[test]
fn more_than_twenty_branching_facts_are_refused_12() {
    let mut stable = 0;
    for known in known::too_many_branching() {
        let (bytes, drive) = (known.book.bytes(), known.layer.into());
        let mut planted = known.planted(0).state;
        planted.resize(known.book.atoms.into(), false);
        for state in [planted, vec![false; known.book.atoms.into()]] {
            let record = oracle::record(&state);
            stable += ffi::test_in_place(&bytes, drive, &record) >> 16;
            for length in [0, 1, 2, 3, 40, LONGEST_RECORD] {
                let (what, buffer) = (format!("g = {}", known.branching), vec![7; length]);
                let lent = [&record[..], &buffer];
                assert_refused(&what, &bytes, drive, lent, TOO_MANY_BRANCHING);
            }
        }
    }
    assert!(stable >= 5, "only {stable} of the candidates are stable");
}

/// 13 whether or not there is a state, and 14 only where there is none.
#[test]
fn a_short_buffer_is_refused_13_before_14() {
    let some = known::free(3, 5, 20);
    let none = known::quarrelled(known::free(3, 5, 20));
    for known in [some, none] {
        let candidate = vec![true; known.book.atoms.into()];
        let (bytes, record) = (known.book.bytes(), oracle::record(&candidate));
        for length in 0..3 {
            let lent = [&record[..], &vec![7; length]];
            assert_refused("short", &bytes, at(1), lent, 13);
        }
        assert_eq!(known.nearest(&candidate).is_none(), known.count == 0);
        assert_known("long enough", &known, &candidate);
    }
}

#[test]
fn book_b_at_its_layers() {
    for (layer, record, g) in [(1, 0xA0u8, 1), (2, 0x80, 2), (3, 0x20, 2)] {
        for number in 0..8 {
            let candidate = number << 5;
            let facts = (candidate ^ record).count_ones() as usize;
            let buffer = [7; 2];
            let expected = nearest_outcome(Some((facts, [record])), 1, g, &buffer);
            assert_outcome("B", &B, at(layer), [&[candidate], &buffer], &expected);
            assert_refused("B", &B, at(layer), [&[candidate], &[]], 13);
            let spare = [candidate | 0x10];
            assert_refused("B", &B, at(layer), [&spare, &buffer], 10);
        }
    }
}

/// L - 1 is the last, and L and 2^32 - 1 are among the others. What is lent beside them does not matter.
#[test]
fn layers_of_the_book_are_driven_and_all_others_are_refused_9() {
    for layers in [1, 2, 31, 32] {
        let bytes = shapes::state_in_each_layer(6, layers).bytes();
        let of_layer = |layer| oracle::record(&shapes::state_of_layer(6, layer));
        for layer in 0..layers {
            let (own, other) = (of_layer(layer), of_layer(layers - 1 - layer));
            let facts = (own[0] ^ other[0]).count_ones() as usize;
            let expected = nearest_outcome(Some((facts, &own)), 1, 0, &[7; 3]);
            assert_outcome(
                "a layer",
                &bytes,
                layer.into(),
                [&other, &[7; 3]],
                &expected,
            );
        }
        for layer in NO_LAYERS.into_iter().chain([layers.into()]) {
            for candidate in [&[][..], &[0x00], &[0xFF]] {
                let lent = [candidate, &[7; 2]];
                assert_refused("no layer", &bytes, at(layer), lent, 9);
                assert_refused("no layer", &bytes, at(layer).off(u32::MAX), lent, 9);
            }
        }
    }
}

/// Where only one layer is left on, its own state is closest; where all are off, no fact stands.
#[test]
fn layers_that_are_switched_off_do_not_count() {
    for layers in [1, 2, 7, 32] {
        let mut book = Book::new(5, layers);
        for layer in 0..layers {
            if layer > 0 {
                book = book.arrow(layer - 1, layer);
            }
            book = book.rule(layer, plain(u16::from(layer) % 5), &[]);
        }
        let (bytes, last) = (book.bytes(), u32::from(layers) - 1);
        let all = u32::MAX >> (31 - last);
        for layer in 0..layers {
            let drive = at(last).off(all & !(1 << layer));
            let own = 0x80u8 >> (layer % 5);
            let facts = (own ^ 0xF8).count_ones() as usize;
            let expected = nearest_outcome(Some((facts, [own])), 1, 0, &[7; 2]);
            assert_outcome("one on", &bytes, drive, [&[0xF8], &[7; 2]], &expected);
        }
        let none = nearest_outcome(Some((5, [0])), 1, 0, &[7; 2]);
        let off = at(last).off(all);
        assert_outcome("none on", &bytes, off, [&[0xF8], &[7; 2]], &none);
        for absent in layers..32 {
            let drive = at(last).off(1 << absent);
            for candidate in [&[][..], &[0xF8], &[0xFF]] {
                assert_refused("absent", &bytes, drive, [candidate, &[7; 2]], 19);
            }
        }
    }
}

#[test]
fn any_bytes_come_to_what_reader_and_oracle_say() {
    let any_bytes = AnyBytes {
        name: "nearest, any call",
        large: 250,
        other: 1_500,
        given: &[0, 1, 2, 3, 4, 5, 6, 7, 8, 9, 10, 12, 13, 14, 19],
        least: 50,
    };
    let mut differ = [0; 2];
    any_bytes.ask(shapes::quick, |rng, what, bytes| {
        let drive = shapes::any_drive(rng, bytes);
        let candidate = shapes::any_candidate(rng, fields(bytes).0);
        let length = rng.pick(&[0, 1, 1, 2, 40, LONGEST_RECORD]);
        let buffer = rng.bytes(length);
        let expected = Truth::new(bytes, drive).nearest(&candidate, &buffer);
        assert_outcome(what, bytes, drive, [&candidate, &buffer], &expected);
        let cause = expected.0 & 0xFF;
        if cause == 0 {
            differ[usize::from(expected.0 >> 16 != 0)] += 1;
        }
        cause
    });
    assert!(differ.iter().all(|&times| times > 50), "{differ:?}");
}

#[test]
fn of_several_causes_the_first_tested_is_given() {
    let seed = seed();
    let mut rng = Rng::named(seed, "nearest, first cause");
    let mut given = [0; ANSWERS];
    for causes in every_set(&[1, 2, 3, 4, 5, 6, 7, 8, 9, 19, 10, 12, 13, 14]) {
        let call = causes.one_record(&mut rng);
        let atoms = call.known.book.atoms;
        let candidate = match causes.has(10) {
            true => rng
                .pick(&[&[][..], &[0; 2], &[0; 4], &[0, 0, 1], &[0xFF; 3]])
                .to_vec(),
            false => oracle::record(&(0..atoms).map(|_| rng.chance(50)).collect::<Vec<bool>>()),
        };
        let expected = match causes.first() {
            Some(cause) => (cause, call.buffer.clone()),
            None => {
                let state = oracle::state(&candidate, atoms).expect("a record");
                nearest_outcome(call.known.nearest(&state), 3, 4, &call.buffer)
            }
        };
        given[(expected.0 & 0xFF) as usize] += 1;
        let what = format!("seed {seed}, {causes}");
        let lent = [&candidate[..], &call.buffer];
        assert_outcome(&what, &call.book, call.drive, lent, &expected);
    }
    println!("seed {seed}, answers 0 to 19: {given:?}");
    assert_eq!(given.iter().filter(|&&times| times > 0).count(), 15);
}

/// The low half of a length must not be all that is looked at.
#[test]
fn slices_of_more_than_4_gib_are_as_long_as_they_are() {
    let mut large = vec![0; (1 << 32) + 1];
    let answer = ffi::nearest_in_place(&B, at(3), &large, &mut [7; 1]);
    assert_eq!(answer, BAD_CANDIDATE);
    let answer = ffi::nearest_in_place(&B, at(3), &[0xC0], &mut large);
    assert_eq!(answer, differing(2, 3));
    assert_eq!(large[..4], [0x20, 0, 0, 0]);
}

#[test]
fn four_threads_on_one_book_get_the_same_states() {
    let seed = seed();
    let mut rng = Rng::named(seed, "nearest, threads");
    let known = known::busy(&mut rng, 8, MAX_ATOMS);
    let (bytes, drive) = (known.book.bytes(), known.layer.into());
    let near = known.planted(known.count - 1).state;
    let far: Vec<bool> = near.iter().map(|stands| !stands).collect();
    let asked = [near, far].map(|candidate| {
        let buffer = vec![7; LONGEST_RECORD + 1];
        let nearest = known.nearest(&candidate);
        let expected = nearest_outcome(nearest, LONGEST_RECORD, known.branching, &buffer);
        (oracle::record(&candidate), buffer, expected)
    });
    thread::scope(|scope| {
        for turn in 0..4 {
            let (record, buffer, expected) = &asked[turn % 2];
            let (bytes, told) = (&bytes, format!("seed {seed}, {}", hex(record)));
            scope.spawn(move || {
                for _ in 0..5 {
                    let mut after = buffer.clone();
                    let answer = ffi::nearest_in_place(bytes, drive, record, &mut after);
                    assert!((answer, after) == *expected, "{told}\n{}", hex(bytes));
                }
            });
        }
    });
}
