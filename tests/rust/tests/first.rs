//! Which state `lesson_one` hands out: the first of the listing, wherever a search comes to it. A search
//! that stops too early, or leaves out too much, hands out another one of these books.

use lesson_tests::book::{hex, not, plain, width, Book, Literal, MAX_ATOMS};
use lesson_tests::drive::{at, Drive};
use lesson_tests::expected::Asked;
use lesson_tests::known::{self, Following, Front, Known, EVERY_FOLLOWING};
use lesson_tests::listed::{assert_one, first_listed, one_of_known, one_outcome};
use lesson_tests::oracle::{self, Driven};
use lesson_tests::orders::{Order, Ordered};
use lesson_tests::rng::{seed, Rng};
use lesson_tests::shapes::{self, choice, Layering};
use lesson_tests::sweep::{self, two_sets};

const FILLER: u8 = 0xA5;

/// Longer than any listing of a book that is small enough for the oracle.
const ROOM: usize = 1 << 13;

/// Wrong readings of which state is handed out.
#[derive(Clone, Copy, Debug, PartialEq, Eq)]
enum Wrong {
    /// The first that a search meets which sets the branching facts one after the other, rising or
    /// falling, each as standing or as not standing first.
    FirstMet {
        falling: bool,
        standing: bool,
    },
    LastListed,
    /// As the first by the facts that do not branch, and where these are alike by the others.
    OthersBefore,
    /// The first of those with the fewest standing facts.
    FewestStanding,
    /// The first if the last fact counted most.
    LastFactFirst,
}

/// The first met where the facts rise and do not stand first is the least by the branching facts only.
const LEAST_BY_BRANCHING: Wrong = Wrong::FirstMet {
    falling: false,
    standing: false,
};

const FIRST_MET_STANDING: Wrong = Wrong::FirstMet {
    falling: false,
    standing: true,
};

const EVERY_WRONG: [Wrong; 8] = [
    LEAST_BY_BRANCHING,
    FIRST_MET_STANDING,
    Wrong::FirstMet {
        falling: true,
        standing: false,
    },
    Wrong::FirstMet {
        falling: true,
        standing: true,
    },
    Wrong::LastListed,
    Wrong::OthersBefore,
    Wrong::FewestStanding,
    Wrong::LastFactFirst,
];

impl Wrong {
    /// By what it compares states: the one with the least is handed out, of equal ones the first listed.
    fn key(self, state: &[bool], branches: &[bool]) -> Vec<usize> {
        let part = |branching: bool| {
            let facts = state.iter().zip(branches);
            let facts = facts.filter(move |(_, &branches)| branches == branching);
            facts.map(|(&stands, _)| usize::from(stands))
        };
        match self {
            Wrong::FirstMet { falling, standing } => {
                let met = part(true).map(|stands| stands ^ usize::from(standing));
                match falling {
                    true => met.rev().collect(),
                    false => met.collect(),
                }
            }
            Wrong::LastListed => state.iter().map(|&stands| usize::from(!stands)).collect(),
            Wrong::OthersBefore => part(false).chain(part(true)).collect(),
            Wrong::FewestStanding => vec![state.iter().filter(|&&stands| stands).count()],
            Wrong::LastFactFirst => state.iter().rev().map(|&stands| stands.into()).collect(),
        }
    }

    /// Whether it comes to another state than the first of the stable ones, which are as listed.
    fn is_shown(self, driven: &Driven, models: &[Vec<bool>]) -> bool {
        let branches = driven.branching();
        let chosen = models.iter().min_by_key(|model| self.key(model, &branches));
        chosen != models.first()
    }
}

/// How often each wrong reading came to another state.
type Shown = [usize; EVERY_WRONG.len()];

fn count_shown(shown: &mut Shown, driven: &Driven, models: &[Vec<bool>]) {
    for (shown, wrong) in shown.iter_mut().zip(EVERY_WRONG) {
        *shown += usize::from(wrong.is_shown(driven, models));
    }
}

/// The oracle's first state is handed out, in buffers with room and without, and `lesson_list` lists it
/// first. Its record is returned, if there is one.
fn assert_as_the_oracle(what: &str, book: &Book, drive: Drive) -> Option<Vec<u8>> {
    let bytes = book.bytes();
    let asked = Asked::new(&bytes, drive);
    let width = usize::from(book.atoms).div_ceil(8);
    for length in [width + 2, width, width - 1] {
        let buffer = vec![FILLER; length];
        assert_one(what, &bytes, drive, &buffer, &asked.one(&buffer));
    }
    let (answer, first) = asked.one(&vec![FILLER; width]);
    if answer & 0xFF != 0 {
        return None;
    }
    let listed = first_listed(&bytes, drive, ROOM);
    assert_eq!(
        hex(&listed),
        hex(&first),
        "{what}, {drive}: {}",
        hex(&bytes)
    );
    Some(first)
}

/// The same, it is this state, and each of the wrong readings comes to another.
fn assert_trap(book: &Book, drive: Drive, first: &[u8], wrong: &[Wrong]) {
    let handed_out = assert_as_the_oracle("trap", book, drive);
    let told = format!("{drive}\n{}", hex(&book.bytes()));
    assert_eq!(handed_out.as_deref(), Some(first), "{told}");
    let driven = Driven::new(book, drive);
    let models = driven.stable_models();
    for wrong in wrong {
        let shown = wrong.is_shown(&driven, &models);
        assert!(shown, "the book does not show {wrong:?}: {told}");
    }
}

/// A book whose states are known: the first is handed out, and `lesson_list` lists it first.
fn assert_known(what: &str, known: &Known) {
    let (bytes, drive) = (known.book.bytes(), known.layer.into());
    let width = usize::from(known.book.atoms).div_ceil(8);
    let first = known.first();
    for length in [width + 3, width, width - 1] {
        let buffer = vec![FILLER; length];
        let expected = one_outcome(first.as_deref(), width, known.branching, &buffer);
        assert_one(what, &bytes, drive, &buffer, &expected);
    }
    if let Some(first) = first {
        let listed = first_listed(&bytes, drive, 11 + known.count * width);
        assert_eq!(hex(&listed), hex(&first), "{what}\n{}", hex(&bytes));
    }
}

#[test]
fn trap_the_first_met_is_not_handed_out() {
    // A search that sets p as not standing first comes to q and to the fact in front that follows it.
    let book = choice(Book::new(3, 1), 0, 1, 2).rule(0, plain(0), &[plain(2)]);
    assert_trap(&book, at(0), &[0x40], &[LEAST_BY_BRANCHING]);
    // One that sets p as standing first comes to p and to the fact that follows it.
    let book = choice(Book::new(3, 1), 0, 1, 2).rule(0, plain(0), &[plain(1)]);
    assert_trap(&book, at(0), &[0x20], &[FIRST_MET_STANDING]);
    // The fact in front stands where p does not.
    let book = choice(Book::new(3, 1), 0, 1, 2).rule(0, plain(0), &[not(1)]);
    assert_trap(&book, at(0), &[0x40], &[LEAST_BY_BRANCHING]);
}

#[test]
fn trap_the_last_of_the_listing_is_not_handed_out() {
    let book = choice(Book::new(2, 1), 0, 0, 1);
    assert_trap(&book, at(0), &[0x40], &[Wrong::LastListed]);
    let book = choice(choice(Book::new(4, 1), 0, 0, 1), 0, 2, 3);
    assert_trap(&book, at(0), &[0x50], &[Wrong::LastListed]);
}

/// Facts that do not branch decide, in front of the branching ones, between them, and behind the first
/// of them where the states agree in it.
#[test]
fn trap_the_least_by_branching_facts_only_is_not_handed_out() {
    let wrong = [LEAST_BY_BRANCHING];
    let front = choice(Book::new(3, 1), 0, 1, 2).rule(0, plain(0), &[not(1)]);
    assert_trap(&front, at(0), &[0b0100_0000], &wrong);
    let between = Book::new(6, 1)
        .rule(0, plain(0), &[not(5)])
        .rule(0, plain(1), &[not(2)]);
    let between = choice(choice(between, 0, 0, 5), 0, 2, 3);
    assert_trap(&between, at(0), &[0b0010_0100], &wrong);
    let given = choice(Book::new(5, 1), 0, 3, 4)
        .rule(0, plain(0), &[])
        .rule(0, plain(2), &[not(3), plain(0)])
        .rule(0, plain(1), &[not(1), plain(1)]);
    assert_trap(&given, at(0), &[0b1001_0000], &wrong);
}

/// The other wrong readings, each by a book of its own.
#[test]
fn trap_no_other_order_of_states_counts() {
    // p alone, or q and r: the fewest stand in the last state.
    let book = choice(Book::new(3, 1), 0, 0, 1).rule(0, plain(2), &[plain(1)]);
    assert_trap(&book, at(0), &[0x60], &[Wrong::FewestStanding]);
    let book = choice(Book::new(2, 1), 0, 0, 1);
    assert_trap(&book, at(0), &[0x40], &[Wrong::LastFactFirst]);
    // The fact behind that does not branch does not count before those in front.
    let book = choice(Book::new(3, 1), 0, 0, 1).rule(0, plain(2), &[plain(1)]);
    assert_trap(&book, at(0), &[0x60], &[Wrong::OthersBefore]);
}

/// So many choices, each with a follower that stands where its choice is not as bit i of `first` has it,
/// and behind all these their helpers. By the followers, the state of the setting `first` is listed
/// first: `numbers` says where the follower and the choice are.
fn told(choices: u16, first: u32, numbers: impl Fn(u16) -> [u16; 2]) -> (Book, Vec<u8>) {
    let mut book = Book::new(3 * choices, 2).arrow(0, 1);
    let mut state = vec![false; usize::from(book.atoms)];
    for at in 0..choices {
        let ([follower, choice], helper) = (numbers(at), 2 * choices + at);
        let stands = first >> at & 1 == 1;
        let differs = Literal {
            atom: choice,
            negated: stands,
        };
        book = book
            .rule(0, plain(helper), &[])
            .rule(0, not(helper), &[])
            .rule(0, plain(choice), &[plain(helper)])
            .rule(1, plain(helper), &[plain(choice)])
            .rule(1, not(helper), &[not(choice)])
            .rule(1, plain(follower), &[differs]);
        state[usize::from(choice)] = stands;
        state[usize::from(helper)] = stands;
    }
    (book, oracle::record(&state))
}

/// In whatever order the branching facts are set, and whether they stand first or not: a search that
/// hands out the first state that it meets is right for one setting of each row at most.
#[test]
fn the_first_state_is_handed_out_at_whatever_setting_it_is() {
    for choices in 1..=4 {
        for first in 0..1 << choices {
            let before = |at| [at, choices + at];
            let turned = |at| [at, 2 * choices - 1 - at];
            let between = |at| [2 * at, 2 * at + 1];
            let numbers: [&dyn Fn(u16) -> [u16; 2]; 3] = [&before, &turned, &between];
            for numbers in numbers {
                let (book, record) = told(choices, first, numbers);
                let standing = first.count_ones() as u16;
                let mut wrong = vec![Wrong::LastListed];
                if standing > 0 {
                    wrong.push(LEAST_BY_BRANCHING);
                }
                if standing < choices {
                    wrong.push(FIRST_MET_STANDING);
                }
                assert_trap(&book, at(1), &record, &wrong);
            }
        }
    }
}

/// Where the branching facts come first, those behind them change nothing.
#[test]
fn followers_behind_the_branching_facts_do_not_matter() {
    for choices in 1..=4 {
        for first in 0..1 << choices {
            let (book, _) = told(choices, first, |at| [choices + at, at]);
            let handed_out = assert_as_the_oracle("behind", &book, at(1)).expect("a state");
            let state = oracle::state(&handed_out, book.atoms).expect("a record");
            let choices = usize::from(choices);
            assert!(!state[..choices].contains(&true), "{}", hex(&handed_out));
        }
    }
}

/// Two choices, their helpers and two followers under every numbering, each follower with either choice
/// and either sign.
#[test]
fn every_numbering_of_two_choices_their_helpers_and_followers() {
    let mut shown: Shown = [0; EVERY_WRONG.len()];
    let literals = [plain(4), not(4), plain(5), not(5)];
    let numberings = shapes::permutations(6);
    let mut books = 0;
    for one in literals {
        for other in literals {
            let free = known::free(2, 2, 6).book;
            let book = free.rule(1, plain(0), &[one]).rule(1, plain(1), &[other]);
            let models = Driven::new(&book, at(1)).stable_models();
            assert_eq!(models.len(), 4);
            for numbers in &numberings {
                let moved = book.renumbered(numbers);
                let mut models: Vec<Vec<bool>> = models
                    .iter()
                    .map(|model| known::renumbered_state(model, numbers))
                    .collect();
                models.sort();
                let record = oracle::record(&models[0]);
                let expected = one_outcome(Some(&record), 1, 2, &[FILLER; 3]);
                assert_one("moved", &moved.bytes(), at(1), &[FILLER; 3], &expected);
                count_shown(&mut shown, &Driven::new(&moved, at(1)), &models);
                books += 1;
            }
        }
    }
    println!("{books} books, shown wrong: {shown:?}");
    assert!(shown.iter().all(|&times| times > 1_000), "{shown:?}");
}

/// Random books with layers off: at every layer, the oracle's first state.
fn sweep(shape: &str, number: usize, least: usize, generate: impl Fn(&mut Rng) -> Book) {
    let mut shown: Shown = [0; EVERY_WRONG.len()];
    let generate = |rng: &mut Rng| {
        let book = generate(rng);
        shapes::with_followers(rng, book)
    };
    let mut states = [0; 3];
    let tried = sweep::drives(shape, number, generate, two_sets, |what, book, drive| {
        assert_as_the_oracle(what, book, drive);
        let driven = Driven::new(book, drive);
        let models = driven.stable_models();
        states[models.len().min(2)] += 1;
        count_shown(&mut shown, &driven, &models);
    });
    println!("{tried}, drives with 0, 1, more states: {states:?}, shown wrong: {shown:?}");
    assert!(shown.iter().all(|&times| times > least), "{shown:?}");
    assert!(states.iter().all(|&times| times > least), "{states:?}");
}

#[test]
fn random_books_in_any_layers_with_layers_off() {
    sweep("first, layered", 1_000, 0, |rng| {
        shapes::layered(rng, Layering::Any)
    });
}

#[test]
fn random_books_with_many_states_with_layers_off() {
    sweep("first, crowded", 200, 20, |rng| {
        shapes::crowded(rng, Layering::Diamond)
    });
}

#[test]
fn random_books_with_choices_with_layers_off() {
    sweep("first, choices", 1_000, 20, shapes::choices);
}

#[test]
fn random_books_with_constraints_with_layers_off() {
    sweep("first, constraints", 1_000, 20, |rng| {
        let layering = rng.pick(&[Layering::Chain, Layering::Diamond, Layering::Any]);
        shapes::constrained(rng, layering)
    });
}

#[test]
fn random_books_with_leaning_rules_with_layers_off() {
    sweep("first, leaning", 2_000, 0, |rng| {
        let layering = rng.pick(&[Layering::Chain, Layering::Diamond, Layering::Any]);
        shapes::leaning(rng, layering)
    });
}

/// In front of a book's facts, between them and behind them: so many that never stand, that stand for
/// sure, that stand in every state but by the branching facts, and that follow these.
#[test]
fn facts_of_every_kind_before_between_and_behind_the_branching_ones() {
    let seed = seed();
    let mut rng = Rng::named(seed, "first, front");
    for front in Front::ALL {
        for count in [1, 2, 7, 8, 20, 57, 240] {
            for (name, base) in known::several() {
                let (known, what) = (
                    known::behind(base, front, count),
                    format!("seed {seed}, {name}, {count} facts: {front:?}"),
                );
                assert_known(&what, &known);
                let atoms = known.book.atoms;
                let known = known::renumbered(known, (0..atoms).rev().collect());
                assert_known(&format!("{what}, reversed"), &known);
                let mut numbers: Vec<u16> = (0..atoms).collect();
                rng.shuffle(&mut numbers);
                let known = known::renumbered(known, numbers);
                assert_known(&format!("{what}, shuffled"), &known);
            }
        }
    }
}

/// Two kinds of facts in front, one before the other.
#[test]
fn facts_of_two_kinds_before_the_branching_ones() {
    for first in Front::ALL {
        for second in Front::ALL {
            for (name, base) in known::several() {
                let known = known::behind(known::behind(base, second, 3), first, 3);
                assert_known(&format!("{name}, {first:?} before {second:?}"), &known);
            }
        }
    }
}

/// Fact 0 seems to stand in every state and does not: a rule that has no body may be displaced, and so
/// may what it rests on. Fact 1 is its support where there is one, and 2 is p of the choice.
#[test]
fn trap_a_fact_that_seems_sure_may_not_stand() {
    let chain = |atoms| choice(Book::new(atoms, 2).arrow(0, 1), 0, 2, 3);
    let displaced = chain(4).rule(0, plain(0), &[]).rule(1, not(0), &[plain(2)]);
    assert_trap(&displaced, at(1), &[0b0010_0000], &[LEAST_BY_BRANCHING]);
    let support = chain(4)
        .rule(0, plain(1), &[])
        .rule(1, plain(0), &[plain(1)])
        .rule(1, not(1), &[plain(2)]);
    assert_trap(&support, at(1), &[0b0010_0000], &[LEAST_BY_BRANCHING]);
    // By default it stands, unless p does.
    let default = chain(4).rule(0, plain(0), &[not(2)]);
    assert_trap(&default, at(1), &[0b0010_0000], &[LEAST_BY_BRANCHING]);
    // A second rule of the layer that is displaced, and one of the layer above over the choice.
    let either = chain(4)
        .rule(0, plain(0), &[])
        .rule(0, plain(0), &[plain(3)])
        .rule(1, not(0), &[plain(2)])
        .rule(1, plain(1), &[plain(0)]);
    assert_trap(&either, at(1), &[0b0010_0000], &[LEAST_BY_BRANCHING]);
    // Denied above in all states: it never stands, and fact 1 follows that.
    let denied = chain(4)
        .rule(0, plain(0), &[])
        .rule(1, not(0), &[])
        .rule(1, plain(1), &[not(2)]);
    assert_trap(&denied, at(1), &[0b0010_0000], &[LEAST_BY_BRANCHING]);
}

/// Facts that stand by a layer's rules, where that layer is off, is not below the driven one, or is.
#[test]
fn a_fact_is_sure_by_the_relevant_rules_alone() {
    let book = choice(Book::new(4, 4).arrow(0, 1).arrow(0, 2), 0, 2, 3)
        .rule(1, plain(0), &[])
        .rule(2, not(0), &[plain(2)])
        .rule(0, plain(1), &[not(2)]);
    for (drive, record) in [
        (at(0), 0b0010_0000),
        (at(1), 0b1010_0000),
        (at(1).off(0b0010), 0b0010_0000),
        (at(2), 0b0010_0000),
        (at(1).off(0b0100), 0b1010_0000),
    ] {
        assert_trap(&book, drive, &[record], &[LEAST_BY_BRANCHING]);
    }
    // Where the layer that denies lies above, p displaces the fact's rule, and off it does not.
    let above = book.arrow(1, 3).arrow(2, 3);
    for off in 0..16 {
        assert_as_the_oracle("relevant", &above, at(3).off(off));
    }
    let above = above.arrow(1, 2);
    for off in 0..16 {
        assert_as_the_oracle("above", &above, at(3).off(off));
    }
    let wrong = [LEAST_BY_BRANCHING];
    assert_trap(&above, at(3), &[0b0010_0000], &wrong);
    assert_trap(&above, at(3).off(0b0100), &[0b1010_0000], &wrong);
}

/// Constraints rule out the first states by the rules, one after the other.
#[test]
fn the_first_state_that_no_constraint_rules_out() {
    for following in EVERY_FOLLOWING {
        let listing = known::followed(3, 3, 9, following).listing();
        let mut bodies: Vec<Vec<Literal>> = Vec::new();
        for record in listing[11..].chunks(2) {
            let known = known::constrained(known::followed(3, 3, 9, following), &bodies);
            assert_eq!(known.first().as_deref(), Some(record));
            assert_known(&format!("{following:?}, {} bodies", bodies.len()), &known);
            let state = oracle::state(record, 9).expect("a record");
            let literals = (0..).zip(&state).map(|(atom, &stands)| Literal {
                atom,
                negated: !stands,
            });
            bodies.push(literals.collect());
        }
        let none = known::constrained(known::followed(3, 3, 9, following), &bodies);
        assert_eq!(none.count, 0);
        assert_known("all ruled out", &none);
    }
}

/// Two states differ in two facts at least, so that their records may agree up to the last fact but one.
#[test]
fn records_that_agree_up_to_the_last_facts() {
    let seed = seed();
    let mut rng = Rng::named(seed, "first, ties");
    for atoms in [2, 3, 8, 9, 16, 17, 64, 65, 255, 256, 257, MAX_ATOMS - 7] {
        let (p, q) = (atoms - 2, atoms - 1);
        for turn in 0..4 {
            let mut book = Book::new(atoms, 2).arrow(0, 1);
            let mut first = vec![false; atoms.into()];
            for atom in 0..p {
                // None stands, all stand, or some.
                if rng.chance([0, 100, 50, 10][turn]) {
                    book = book.rule(0, plain(atom), &[]);
                    first[usize::from(atom)] = true;
                }
            }
            let pair = choice(book.clone(), 0, p, q);
            first[usize::from(q)] = true;
            let what = format!("seed {seed}, {atoms} facts");
            assert_record(&what, &pair, &first, 2);
            // A free fact behind its helper, and in front of it.
            first[usize::from(q)] = false;
            for (choice, helper) in [(q, p), (p, q)] {
                let free = book
                    .clone()
                    .rule(0, plain(helper), &[])
                    .rule(0, not(helper), &[])
                    .rule(0, plain(choice), &[plain(helper)])
                    .rule(1, plain(helper), &[plain(choice)])
                    .rule(1, not(helper), &[not(choice)]);
                assert_record(&what, &free, &first, 1);
            }
        }
    }
}

/// This state is handed out at layer 1, and listed first of two.
fn assert_record(what: &str, book: &Book, first: &[bool], g: usize) {
    let (bytes, record) = (book.bytes(), oracle::record(first));
    let width = record.len();
    let buffer = vec![FILLER; width + 1];
    let expected = one_outcome(Some(&record), width, g, &buffer);
    assert_one(what, &bytes, at(1), &buffer, &expected);
    let listed = first_listed(&bytes, at(1), 11 + 2 * width);
    assert_eq!(hex(&listed), hex(&record), "{what}\n{}", hex(&bytes));
}

/// No record comes before that of zeros.
#[test]
fn the_empty_state_comes_before_all_others() {
    for choices in [0, 1, 2, 7, 12] {
        for (first, atoms) in [
            (0, 24),
            (0, 31),
            (3, 27),
            (232, 256),
            (233, 257),
            (1_000, MAX_ATOMS),
        ] {
            let known = known::free(choices, first, atoms);
            let width = width(atoms);
            assert_eq!(known.first(), Some(vec![0; width]));
            assert_known(&format!("{choices} of {atoms}, from {first}"), &known);
        }
    }
}

#[test]
fn the_first_record_of_every_order_is_handed_out() {
    let seed = seed();
    let mut rng = Rng::named(seed, "first, orders");
    let mut not_first_met = [0; Order::ALL.len()];
    for (order, not_first_met) in Order::ALL.into_iter().zip(&mut not_first_met) {
        for choices in 0..=10 {
            for (atoms, cuts, at_the_end) in [(24, 0, false), (40, 3, true), (MAX_ATOMS, 2, false)]
            {
                let ordered = Ordered {
                    idle: rng.below(3) as u16,
                    cuts,
                    at_the_end,
                    ..Ordered::new(order, choices, atoms)
                };
                let known = ordered.known(&mut rng);
                assert_known(&format!("seed {seed}, {ordered:?}"), &known);
                if known.count > 0 {
                    let met = oracle::record(&known.planted(0).state);
                    *not_first_met += usize::from(known.first() != Some(met));
                }
            }
        }
    }
    println!("seed {seed}, not the first met, by order: {not_first_met:?}");
    assert_eq!(not_first_met[0], 0, "rising records are met in their order");
    assert!(not_first_met[1] > 20, "{not_first_met:?}");
    assert!(not_first_met[5] > 10, "{not_first_met:?}");
}

/// 1,024 states of 20 branching facts, wherever these are: in pairs, free, and first or last.
#[test]
fn twenty_branching_facts_and_1_024_states() {
    let seed = seed();
    let mut rng = Rng::named(seed, "first, 1,024");
    for front in Front::ALL {
        let bases = [
            known::pairs(10, 0),
            known::displacing_pairs(10, 0),
            known::chosen(10, 20),
        ];
        for base in bases {
            let known = known::behind(base, front, 20);
            assert_eq!((known.branching, known.count), (20, 1 << 10));
            let what = format!("seed {seed}, {front:?}");
            assert_known_once(&what, &known);
            let mut numbers: Vec<u16> = (0..known.book.atoms).collect();
            rng.shuffle(&mut numbers);
            assert_known_once(&what, &known::renumbered(known, numbers));
        }
    }
}

/// The call on its own buffer, for long searches.
fn assert_known_once(what: &str, known: &Known) {
    let width = usize::from(known.book.atoms).div_ceil(8);
    let buffer = vec![FILLER; width + 1];
    let expected = one_of_known(known, &buffer);
    let bytes = known.book.bytes();
    assert_one(what, &bytes, known.layer.into(), &buffer, &expected);
}

#[test]
fn twenty_branching_facts_and_one_state() {
    for front in Front::ALL {
        for base in [known::single(20, true), known::chosen(0, 20)] {
            let known = known::behind(base, front, 30);
            assert_eq!((known.branching, known.count), (20, 1));
            assert_known_once(&format!("{front:?}"), &known);
        }
    }
}

/// As many states as settings: the first is met first, last, and by the bits turned round.
#[test]
fn twenty_branching_facts_and_2_to_the_20_states() {
    let opposite = Following {
        turned_round: false,
        opposite: true,
    };
    for known in [
        known::free(20, 0, 40),
        known::followed(20, 20, 60, opposite),
        known::behind(known::free(20, 0, 40), Front::Given, 8),
        known::behind(known::free(20, 0, 40), Front::Either, 8),
    ] {
        assert_eq!((known.branching, known.count), (20, 1 << 20));
        assert_known_once("2^20 states", &known);
    }
}
