//! Constraints (document 02, c): a rule that carries 32,767 as its head says what must never hold. It
//! displaces nothing, is never displaced, reaches no name and makes no fact branch, and a state in which
//! the body of a relevant one holds is not stable. All calls, against the oracle, which has this
//! from that document; against books whose states are known; and against books from which the
//! constraints were taken.

use lesson_tests::book::{
    framed, hex, not, plain, width, Book, Literal, BYTE_ATOMS, LONGEST_RECORD, MAX_ATOMS, WIDE,
};
use lesson_tests::drive::{at, Drive};
use lesson_tests::every_call::{
    assert_as_the_oracle, assert_known, assert_known_book, assert_refused, assert_states,
    assert_trap, states, FILLER, ROOM,
};
use lesson_tests::expected::{
    branching, counts, place_of, yes_or_no, NO_STABLE_STATE, TOO_MANY_BRANCHING,
};
use lesson_tests::ffi;
use lesson_tests::known::{self, Left};
use lesson_tests::listed::{assert_one, assert_outcome, one_of_known, outcome};
use lesson_tests::misreadings::{Misread, Misreading::*, OF_CONSTRAINTS};
use lesson_tests::oracle::{self, body_holds, Driven};
use lesson_tests::plain as plain_rust;
use lesson_tests::reader;
use lesson_tests::rng::{seed, Rng};
use lesson_tests::shapes::{self, Layering};
use lesson_tests::sweep::{self, many_sets, two_sets};

const P: u16 = 0;
const Q: u16 = 1;
const R: u16 = 2;
const S: u16 = 3;
const T: u16 = 4;

/// Two layers, the second above the first.
fn above(atoms: u16) -> Book {
    Book::new(atoms, 2).arrow(0, 1)
}

/// p or q, in a layer.
fn choice(book: Book, layer: u8) -> Book {
    book.rule(layer, plain(P), &[not(Q)])
        .rule(layer, plain(Q), &[not(P)])
}

/// p or q, r with p, always t and never s; only p and q branch.
fn five_facts() -> Book {
    choice(Book::new(5, 1), 0)
        .rule(0, plain(R), &[plain(P)])
        .rule(0, plain(T), &[])
}

const FIVE_FACTS: [u8; 2] = [0x48, 0xA8];

/// Those of the one-byte records in which a body does not hold.
fn left(records: &[u8], body: &[Literal]) -> Vec<u8> {
    let holds = |record: u8, at: &Literal| (record >> (7 - at.atom) & 1 == 1) != at.negated;
    let mut left = records.to_vec();
    left.retain(|&record| !body.iter().all(|literal| holds(record, literal)));
    left
}

/// Every literal of so many facts.
fn literals(atoms: u16) -> Vec<Literal> {
    (0..atoms).flat_map(|f| [plain(f), not(f)]).collect()
}

/// Points 3 left or right, and signal 14 at stop or clear: but not left while it is clear.
#[test]
fn trap_points_3_may_not_be_left_while_signal_14_is_clear() {
    const LEFT: u16 = 0;
    const STOP: u16 = 1;
    const RIGHT: u16 = 2;
    const CLEAR: u16 = 3;
    let book =
        [(LEFT, RIGHT), (STOP, CLEAR)]
            .into_iter()
            .fold(Book::new(4, 1), |book, (one, other)| {
                book.rule(0, plain(one), &[not(other)])
                    .rule(0, plain(other), &[not(one)])
            });
    assert_states(&book, at(0), &[0x30, 0x60, 0x90, 0xC0], 4);
    let book = book.never(0, &[plain(LEFT), not(STOP)]);
    for wrong in [ConstraintsIgnored, ConstraintsByPlainLiterals] {
        assert_trap(&book, at(0), &[0x30, 0x60, 0xC0], 4, wrong);
    }
}

/// Every body of up to three literals: plain and negated ones, of facts that branch, follow, always
/// stand and never stand, repeated ones and such as contradict each other, and the empty body.
#[test]
fn every_short_body_rules_out_the_states_in_which_it_holds_and_no_others() {
    let literals = literals(5);
    let mut bodies: Vec<Vec<Literal>> = vec![Vec::new()];
    let (mut from, mut counts) = (0, [0; 3]);
    for _ in 0..3 {
        let shorter = bodies[from..].to_vec();
        from = bodies.len();
        bodies.extend(shorter.iter().flat_map(|body| {
            let longer = literals
                .iter()
                .map(|&literal| [&body[..], &[literal]].concat());
            longer.collect::<Vec<_>>()
        }));
    }
    assert_eq!(bodies.len(), 1 + 10 + 100 + 1_000);
    for body in &bodies {
        let records = left(&FIVE_FACTS, body);
        assert_states(&five_facts().never(0, body), at(0), &records, 2);
        counts[records.len()] += 1;
    }
    // Of the ten literals five hold in either state, and two in both.
    let (in_one, in_both) = (1 + 5 + 25 + 125, 1 + 2 + 4 + 8);
    let in_neither = bodies.len() - 2 * in_one + in_both;
    assert_eq!(counts, [in_both, 2 * (in_one - in_both), in_neither]);
}

/// Every two constraints of one literal.
#[test]
fn several_constraints_rule_out_what_each_of_them_does() {
    for one in literals(5) {
        for other in literals(5) {
            let records = left(&left(&FIVE_FACTS, &[one]), &[other]);
            let book = five_facts().never(0, &[one]).never(0, &[other]);
            assert_states(&book, at(0), &records, 2);
        }
    }
    let both = five_facts().never(0, &[plain(P)]).never(0, &[plain(Q)]);
    assert_states(&both, at(0), &[], 2);
}

#[test]
fn a_body_that_contradicts_itself_rules_nothing_out() {
    for fact in 0..5 {
        for literal in [plain(fact), not(fact)] {
            for length in 2..=16 {
                let mut body = vec![literal; length];
                body[length / 2] = literal.opposite();
                let book = five_facts().never(0, &body);
                assert_states(&book, at(0), &FIVE_FACTS, 2);
            }
        }
    }
}

#[test]
fn trap_an_empty_body_always_holds_and_leaves_no_state() {
    assert_trap(
        &Book::new(1, 1).never(0, &[]),
        at(0),
        &[],
        0,
        EmptyConstraintsIgnored,
    );
    let book = five_facts().never(0, &[]);
    assert_trap(&book, at(0), &[], 2, EmptyConstraintsIgnored);
    // A state is refused 14 only in a buffer with room for it.
    let bytes = book.bytes();
    assert_eq!(ffi::one(&bytes, at(0), &[]), (13, vec![]));
    assert_eq!(ffi::one(&bytes, at(0), &[FILLER]), (14, vec![FILLER]));
    assert_eq!(ffi::place(&bytes, at(0), 5), 11);
    assert_eq!(ffi::place(&bytes, at(0), 4), 14);
    assert_eq!(
        ffi::list(&bytes, at(0), &[FILLER; 10]),
        (13, vec![FILLER; 10])
    );
    assert_states(&book, at(0).off(1), &[0x00], 0);
}

#[test]
fn equal_constraints_say_what_one_says() {
    for number in [1, 2, 3, 100, 1_020] {
        let body = [plain(R), not(S)];
        let book = (0..number).fold(five_facts(), |book, _| book.never(0, &body));
        assert_states(&book, at(0), &[0x48], 2);
    }
    // In two layers, of which either may be off.
    let twice = choice(above(2), 0)
        .never(0, &[plain(P)])
        .never(1, &[plain(P)]);
    assert_states(&twice, at(1), &[0x40], 2);
    assert_states(&twice, at(1).off(0b10), &[0x40], 2);
    assert_states(&twice, at(1).off(0b01), &[0x00], 0);
}

/// Whatever the rule above says: it takes nothing from the constraint, nor the constraint from it.
#[test]
fn trap_a_rule_above_displaces_no_constraint() {
    for head in [plain(R), not(R), plain(P), not(Q), plain(S), not(S)] {
        let quarrel = choice(above(4), 0).rule(1, head, &[plain(P)]);
        assert_trap(
            &quarrel.never(0, &[plain(P)]),
            at(1),
            &[0x40],
            2,
            ConstraintsDisplaced,
        );
    }
    // Over several layers, and by a rule without a body.
    let line = Book::new(3, 3).arrow(0, 1).arrow(1, 2);
    let book = choice(line, 1).never(0, &[plain(P)]).rule(2, plain(R), &[]);
    assert_trap(&book, at(2), &[0x60], 2, ConstraintsDisplaced);
}

/// The rules displace each other as they would without it.
#[test]
fn a_constraint_displaces_nothing() {
    for layer in 0..3 {
        for body in [vec![plain(Q)], vec![not(P)], vec![plain(P), not(P)]] {
            let line = Book::new(2, 3).arrow(0, 1).arrow(1, 2);
            let book = line.rule(1, plain(P), &[]).never(layer, &body);
            assert_states(&book, at(2), &[0x80], 0);
            let denied = book.rule(2, not(P), &[]);
            assert_states(&denied, at(2), &left(&[0x00], &body), 0);
        }
    }
}

/// The layers of these tests: 0, 1, 2 and 3 in a line, 4 below 2 on a branch of its own, and 5 alone.
const BELOW: [(u8, u8); 8] = [
    (0, 1),
    (0, 2),
    (0, 3),
    (1, 2),
    (1, 3),
    (2, 3),
    (4, 2),
    (4, 3),
];

fn six_layers(atoms: u16) -> Book {
    let book = Book::new(atoms, 6).arrow(0, 1).arrow(1, 2);
    book.arrow(2, 3).arrow(4, 2)
}

/// A constraint at each place, each layer driven, and every set of layers off. In every layer p or q.
#[test]
fn constraints_of_the_driven_layer_and_of_those_below_it_count_unless_they_are_off() {
    let book = (0..6).fold(six_layers(2), choice);
    let mut counts = [0; 3];
    for driven in 0..6 {
        let relevant = |layer: u8| layer == driven || BELOW.contains(&(layer, driven));
        for place in 0..6 {
            let constrained = book.clone().never(place, &[plain(P)]);
            for off in 0..1 << 6 {
                let drive = Drive::from(driven).off(off);
                let on = |layer: u8| relevant(layer) && !drive.is_off(layer);
                let (records, g): (&[u8], usize) = match (on(place), (0..6).any(on)) {
                    (true, _) => (&[0x40], 2),
                    (false, true) => (&[0x40, 0x80], 2),
                    (false, false) => (&[0x00], 0),
                };
                assert_states(&constrained, drive, records, g);
                counts[g - records.len() + 1] += 1;
            }
        }
    }
    assert!(counts.iter().all(|&times| times > 100), "{counts:?}");
}

#[test]
fn trap_constraints_of_unrelated_layers_and_of_later_ones_rule_nothing_out() {
    for place in [3, 5] {
        let book = choice(six_layers(2), 1).never(place, &[plain(P)]);
        assert_trap(&book, at(2), &[0x40, 0x80], 2, ConstraintsOfEveryLayer);
    }
}

#[test]
fn trap_constraints_of_layers_below_count() {
    for place in [0, 1, 4] {
        let book = choice(six_layers(2), 1).never(place, &[plain(P)]);
        assert_trap(&book, at(2), &[0x40], 2, ConstraintsOfTheDrivenLayer);
        // Beyond a layer that is off too.
        let book = choice(six_layers(2), 0).never(place, &[plain(P)]);
        let off = at(3).off(0b000100);
        assert_trap(&book, off, &[0x40], 2, ConstraintsOfTheDrivenLayer);
    }
}

#[test]
fn trap_constraints_of_layers_that_are_off_rule_nothing_out() {
    for place in [0, 2, 4] {
        let book = choice(six_layers(2), 1).never(place, &[plain(P)]);
        let off = at(2).off(1 << place);
        assert_trap(&book, off, &[0x40, 0x80], 2, ConstraintsOfOffLayers);
    }
}

/// Facts that follow, that always stand and that never do are not in a setting.
#[test]
fn trap_a_constraint_is_tested_on_the_finished_state() {
    let wrong = ConstraintsOnTheSetting;
    for body in [
        vec![plain(R)],
        vec![plain(P), plain(R)],
        vec![plain(R), plain(T)],
    ] {
        assert_trap(&five_facts().never(0, &body), at(0), &[0x48], 2, wrong);
    }
    for body in [vec![not(R)], vec![not(P), not(R)]] {
        assert_states(&five_facts().never(0, &body), at(0), &[0xA8], 2);
    }
    // In the setting of p, neither r nor t stands.
    let book = five_facts().never(0, &[plain(P), not(R)]);
    assert_trap(&book, at(0), &FIVE_FACTS, 2, wrong);
    let book = five_facts().never(0, &[not(T)]);
    assert_trap(&book, at(0), &FIVE_FACTS, 2, wrong);
    assert_trap(&five_facts().never(0, &[plain(T)]), at(0), &[], 2, wrong);
    // No fact branches at all.
    let chain = Book::new(3, 1)
        .rule(0, plain(P), &[])
        .rule(0, plain(Q), &[plain(P)]);
    assert_trap(&chain.clone().never(0, &[plain(Q)]), at(0), &[], 0, wrong);
    assert_trap(&chain.never(0, &[not(Q)]), at(0), &[0xC0], 0, wrong);
}

/// A displaced rule reaches nothing, and a constraint does not see its head.
#[test]
fn what_a_displaced_rule_says_is_not_ruled_out() {
    let book = above(2).rule(0, plain(P), &[]).rule(1, not(P), &[plain(Q)]);
    let book = book.rule(1, plain(Q), &[]).never(0, &[plain(P)]);
    assert_states(&book, at(1), &[0x40], 1);
    assert_states(&book, at(1).off(0b10), &[], 0);
    assert_states(&book, at(0), &[], 0);
}

/// Wrong readings of what branches: g with the facts that constraints negate, and with all of theirs.
fn misread_branching(book: &Book, drive: Drive) -> [usize; 2] {
    [false, true].map(|plain_too| {
        let mut branching = Driven::new(book, drive).branching();
        // As if each constraint said something of a fact more, which no rule is about.
        let mut read = book.clone();
        read.atoms += 1;
        for rule in read.rules.iter_mut().filter(|rule| rule.is_constraint()) {
            rule.head = plain(book.atoms);
            if plain_too {
                rule.body.iter_mut().for_each(|at| at.negated = true);
            }
        }
        let misread = Driven::new(&read, drive).branching();
        branching.iter_mut().zip(misread).for_each(|(a, b)| *a |= b);
        branching.iter().filter(|&&branches| branches).count()
    })
}

#[test]
fn trap_a_constraints_body_makes_no_fact_branch() {
    for body in [
        vec![not(R)],
        vec![not(S), plain(T)],
        vec![plain(R), plain(T)],
    ] {
        let book = five_facts().never(0, &body);
        assert_states(&book, at(0), &left(&FIVE_FACTS, &body), 2);
        let [_, all] = misread_branching(&book, at(0));
        assert!(all > 2, "the book does not show it");
    }
    let [negated, _] = misread_branching(&five_facts().never(0, &[not(R)]), at(0));
    assert_eq!(negated, 3);
    // Nor above a rule: the second ground asks for an opposite head, and there is none.
    let book = above(2).rule(0, plain(P), &[]).never(1, &[plain(Q)]);
    assert_states(&book, at(1), &[0x80], 0);
}

/// 21 facts in the bodies of constraints, of either sign: none branches. In bodies of rules all do.
#[test]
fn facts_of_constraints_do_not_count_for_12() {
    let standing = Book::new(23, 1).rule(0, plain(22), &[]);
    let (mut constraints, mut rules) = (standing.clone(), standing);
    for atom in 0..21 {
        let body = [not(atom), not(22)];
        constraints = constraints
            .never(0, &body)
            .never(0, &[plain(atom), plain(22)]);
        rules = rules.rule(0, plain(21), &body);
    }
    let listing = oracle::listing(23, &[vec![0, 0, 2]]);
    let expected = outcome(&listing, counts(0, 1), &[7; 20]);
    let bytes = constraints.bytes();
    assert_outcome("none branches", &bytes, at(0), &[7; 20], &expected);
    let one = ffi::one(&bytes, at(0), &[7; 4]);
    assert_eq!(one, (branching(0), vec![0, 0, 2, 7]));
    assert_eq!(ffi::place(&bytes, at(0), 22), place_of(0, 1, 1));
    let refused = (TOO_MANY_BRANCHING, vec![7; 20]);
    assert_outcome("all branch", &rules.bytes(), at(0), &[7; 20], &refused);
}

/// A book of so many facts in one layer whose only rule has these literals, the head first.
fn one_record(atoms: u16, literals: &[u16]) -> Vec<u8> {
    let mut draft = Book::new(atoms, 1).draft();
    let mut contents = vec![0];
    contents.extend(literals.iter().flat_map(|number| number.to_be_bytes()));
    draft.rules.records = vec![framed(&contents)];
    draft.bytes()
}

/// Engine and reader accept the book, or both refuse it 6 by all calls.
fn assert_accepted(what: &str, bytes: &[u8], accepted: bool) {
    let cause = if accepted { 0 } else { 6 };
    assert_eq!(ffi::check(bytes), cause, "{what}\n{}", hex(bytes));
    assert_eq!(u64::from(reader::first_cause(bytes)), cause, "{what}");
    if !accepted {
        assert_refused(what, bytes, at(0), cause);
    }
}

/// The four numbers at the ends of what 15 bits hold, as literals.
const LAST_NUMBERS: [u16; 4] = [32_766, 32_767, 65_534, 65_535];

/// Whatever the number of facts; and the answers are those of a constraint.
#[test]
fn trap_of_heads_past_the_facts_32_767_alone_is_lawful() {
    let few = [1, 2, 127, 128, BYTE_ATOMS - 1, BYTE_ATOMS];
    for atoms in few.into_iter().chain(WIDE) {
        let width = width(atoms);
        for head in LAST_NUMBERS {
            // Bodies that hold in the only state of a book without rules, and that do not.
            let bodies: [&[u16]; 5] = [&[], &[0x8000], &[0], &[0x8000; 16], &[0; 16]];
            for (at_body, body) in bodies.into_iter().enumerate() {
                let what = format!("{atoms} facts, head {head}, body {at_body}");
                let bytes = one_record(atoms, &[&[head], body].concat());
                assert_accepted(&what, &bytes, head == 32_767);
                if head != 32_767 {
                    continue;
                }
                let holds = body.iter().all(|&literal| literal >= 0x8000);
                let records = vec![vec![0; width]; usize::from(!holds)];
                let listing = oracle::listing(atoms, &records);
                let buffer = [FILLER; ROOM];
                let expected = outcome(&listing, counts(0, records.len()), &buffer);
                assert_outcome(&what, &bytes, at(0), &buffer, &expected);
                let test = ffi::test(&bytes, at(0), &vec![0; width]);
                assert_eq!(test, yes_or_no(!holds), "{what}");
                let one = match holds {
                    true => (NO_STABLE_STATE, vec![FILLER; width]),
                    false => (branching(0), vec![0; width]),
                };
                assert_eq!(ffi::one(&bytes, at(0), &buffer[..width]), one, "{what}");
                let last = u32::from(atoms) - 1;
                let place = place_of(0, 0, records.len());
                assert_eq!(ffi::place(&bytes, at(0), last), place, "{what}");
            }
        }
    }
}

/// At each place of each length, in a constraint and in a rule.
#[test]
fn none_of_these_numbers_is_lawful_in_a_body() {
    for atoms in [1, BYTE_ATOMS - 1, BYTE_ATOMS, MAX_ATOMS - 1, MAX_ATOMS] {
        for head in [0, 32_767] {
            for number in LAST_NUMBERS {
                for length in 1..=16 {
                    for place in 0..length {
                        let mut body = vec![0; length];
                        body[place] = number;
                        let bytes = one_record(atoms, &[&[head], &body[..]].concat());
                        let what = format!("{atoms} facts, {number} in a body of head {head}");
                        assert_accepted(&what, &bytes, false);
                    }
                }
            }
        }
    }
}

/// A constraint's layer, length and facts are tested as any other rule's.
#[test]
fn records_of_constraints_are_tested_as_ever() {
    for layers in [1, 31, 32] {
        for layer in 0..=255 {
            let book = Book::new(1, layers).never(layer, &[plain(0)]);
            assert_accepted("a layer", &book.bytes(), layer < layers);
        }
    }
    for atoms in [1, 2, BYTE_ATOMS - 1, BYTE_ATOMS].into_iter().chain(WIDE) {
        let edges = [atoms - 1, atoms, atoms + 1, atoms + BYTE_ATOMS, 2 * atoms];
        let numbers = [0, 1, BYTE_ATOMS - 1, BYTE_ATOMS, MAX_ATOMS - 1, MAX_ATOMS];
        for fact in edges.into_iter().chain(numbers).chain([0x4000]) {
            for literal in [plain(fact), not(fact)] {
                let book = Book::new(atoms, 1).never(0, &[plain(0), literal]);
                assert_accepted("a fact", &book.bytes(), fact < atoms);
            }
        }
    }
    for length in 0..=255usize {
        let mut contents = vec![0, 0x7F, 0xFF];
        contents.resize(length, 0);
        let mut draft = Book::new(1, 1).draft();
        draft.rules.records = vec![framed(&contents)];
        let lawful = (3..=35).contains(&length) && length % 2 == 1;
        assert_accepted("a length", &draft.bytes(), lawful);
    }
}

/// The low byte of 32,767 is a fact of such a book, its high byte another, and its low ten bits a third. None
/// is spoken of.
#[test]
fn in_the_widest_book_a_constraint_is_about_no_fact_by_its_head() {
    let parts_of_the_head = [0xFF, 0x7F, 0x7FFF & (MAX_ATOMS - 1)];
    for fact in parts_of_the_head {
        let known = |bodies: &[Vec<Literal>]| {
            let pairs = known::free(1, 2, MAX_ATOMS);
            known::constrained(pairs, bodies)
        };
        // Fact 3 may stand or not. Nothing is said of the facts that the head's parts number.
        assert_known_book("no constraint", &known(&[]));
        assert_known_book("it holds in one", &known(&[vec![plain(3)]]));
        assert_known_book("and in the other", &known(&[vec![not(3)]]));
        assert_known_book("it never holds", &known(&[vec![plain(fact)]]));
        assert_known_book("it always holds", &known(&[vec![not(fact)]]));
        let states = known(&[vec![plain(3)]]).listing();
        assert_eq!(oracle::count(&states), 1);
        assert_eq!(oracle::count(&known(&[vec![not(fact)]]).listing()), 0);
    }
    // A rule about each of them, and a constraint of a later layer: the rule is not displaced.
    for fact in parts_of_the_head {
        for (head, stands) in [(plain(fact), true), (not(fact), false)] {
            let mut state = vec![false; MAX_ATOMS.into()];
            state[usize::from(fact)] = stands;
            let book = above(MAX_ATOMS).rule(0, head, &[]).never(1, &[plain(5)]);
            let listing = oracle::listing(MAX_ATOMS, &[oracle::record(&state)]);
            let expected = outcome(&listing, counts(0, 1), &[FILLER; ROOM]);
            let what = format!("fact {fact}, {stands}");
            assert_outcome(&what, &book.bytes(), at(1), &[FILLER; ROOM], &expected);
            let banned = book.never(0, &[head]);
            let none = oracle::listing(MAX_ATOMS, &[]);
            let expected = outcome(&none, counts(0, 0), &[FILLER; ROOM]);
            assert_outcome(&what, &banned.bytes(), at(1), &[FILLER; ROOM], &expected);
        }
    }
}

/// The only state that could be stable is the one in which nothing stands.
#[test]
fn a_thousand_and_24_constraints_and_no_rule() {
    let seed = seed();
    let mut rng = Rng::named(seed, "constraints, no rule");
    for length in [0, 1, 16] {
        let idle = |rng: &mut Rng| {
            let any = |_| not(rng.below(MAX_ATOMS.into()) as u16);
            let mut body: Vec<Literal> = (0..length).map(any).collect();
            match body.last_mut() {
                Some(last) => *last = last.opposite(),
                None => body.push(plain(0)),
            }
            body
        };
        let bodies: Vec<Vec<Literal>> = (0..1_024).map(|_| idle(&mut rng)).collect();
        let what = format!("seed {seed}, bodies of {length}");
        let no_rule = || known::free(0, 0, MAX_ATOMS);
        let none_holds = known::constrained(no_rule(), &bodies);
        assert_eq!((none_holds.book.rules.len(), none_holds.count), (1_024, 1));
        assert_known_book(&what, &none_holds);
        for place in [0, 1, 255, 256, 511, 512, 1_022, 1_023] {
            let mut bodies = bodies.clone();
            bodies[place] = vec![not(MAX_ATOMS - 1); length];
            let one_holds = known::constrained(no_rule(), &bodies);
            assert_eq!(one_holds.count, 0);
            assert_known_book(&format!("{what}, {place} holds"), &one_holds);
        }
    }
}

/// The last of so many rules, and the last of 16 literals, decide.
#[test]
fn no_constraint_and_no_literal_is_left_out() {
    for number in [1, 255, 256, 257, 511, 512, 513, 1_019, 1_020] {
        let idle = (1..number).fold(five_facts(), |book, _| book.never(0, &[plain(S)]));
        assert_known("idle", &idle, at(0), &FIVE_FACTS, 2);
        assert_known("last", &idle.never(0, &[plain(P)]), at(0), &[0x48], 2);
    }
    for length in 1..=16 {
        for (literal, records) in [(plain(P), &[0x48]), (not(R), &[0xA8])] {
            let mut body = vec![not(S); length];
            body[length - 1] = literal;
            assert_states(&five_facts().never(0, &body), at(0), records, 2);
            body[length - 1] = plain(S);
            assert_states(&five_facts().never(0, &body), at(0), &FIVE_FACTS, 2);
        }
    }
}

/// 1,024 rules of 16 literals, most of them constraints that the state does not meet: it is stable until
/// one of them does.
#[test]
fn one_constraint_of_the_largest_book_decides_about_a_candidate() {
    let seed = seed();
    let mut rng = Rng::named(seed, "constraints, planted");
    for index in 0..20 {
        let atoms = [BYTE_ATOMS, MAX_ATOMS][index % 2];
        let shapes::Planted {
            mut book,
            layer,
            state,
        } = shapes::planted_constrained(&mut rng, atoms);
        let what = format!("seed {seed}, constraints, planted, book {index}");
        let record = oracle::record(&state);
        let drive = Drive::from(layer);
        let bytes = book.bytes();
        assert_eq!(bytes.len(), 38_372);
        let test = |bytes: &[u8]| [ffi::test(bytes, drive, &record), ffi::check(bytes)];
        assert_eq!(
            test(&bytes),
            [yes_or_no(true), 0],
            "{what}\n{}",
            hex(&bytes)
        );
        let constraints: Vec<usize> = (0..1_024)
            .filter(|&at| book.rules[at].is_constraint())
            .collect();
        assert!(constraints.len() > 300, "{}", constraints.len());
        for at in [
            constraints[0],
            rng.pick(&constraints),
            constraints[constraints.len() - 1],
        ] {
            let kept = book.rules[at].clone();
            for literal in &mut book.rules[at].body {
                literal.negated = !state[usize::from(literal.atom)];
            }
            assert!(body_holds(&book.rules[at], &state));
            assert_eq!(test(&book.bytes()), [yes_or_no(false), 0], "{what}, {at}");
            book.rules[at] = kept;
        }
    }
}

#[test]
fn constraints_over_many_facts_leave_the_states_that_they_do() {
    let seed = seed();
    let mut rng = Rng::named(seed, "constraints, random");
    let (number, mut fewer, mut none) = (150, 0, 0);
    for index in 0..number {
        let atoms = rng.pick(&[BYTE_ATOMS, 700, MAX_ATOMS]);
        let choices = rng.range(0, 6) as u16;
        let rules = 6 * choices;
        let constraints = rng.pick(&[1, 4, 20, 1_024 - usize::from(rules)]);
        let known = match choices {
            0 => known::constrained(known::free(0, 0, atoms), &[vec![plain(9), not(atoms - 1)]]),
            _ => known::randomly_constrained(&mut rng, choices, constraints, atoms),
        };
        assert_known_book(&format!("seed {seed}, random, book {index}"), &known);
        fewer += usize::from((1..1 << choices).contains(&known.count));
        none += usize::from(known.count == 0);
    }
    println!("seed {seed}, constraints, random: {number} books, {fewer} with fewer states, {none} with none");
    assert!(fewer >= 15 && none >= 10, "{fewer}, {none}");
}

/// 20 branching facts, of whose 2^20 settings few are left, by constraints over them and over others.
#[test]
fn few_of_2_to_the_20_settings_are_left() {
    for over_helpers in [true, false] {
        let known = known::few_left(20, Left::AtMostOne, over_helpers);
        assert_eq!((known.branching, known.count), (20, 21));
        let (bytes, drive) = (known.book.bytes(), known.layer.into());
        let listing = known.listing();
        let mut buffer = vec![FILLER; listing.len() + 1];
        let answer = ffi::list_in_place(&bytes, drive, &mut buffer);
        assert_eq!(answer, known.answer(), "{over_helpers}");
        assert_eq!(buffer, [&listing[..], &[FILLER]].concat(), "{over_helpers}");
        let expected = one_of_known(&known, &[FILLER; 6]);
        assert_one("few left", &bytes, drive, &[FILLER; 6], &expected);
    }
}

/// How often the cases came up for which random books are there.
#[derive(Debug, Default)]
struct Tally {
    drives: usize,
    /// Drives with no, one and more states.
    states: [usize; 3],
    /// States that only a constraint keeps from being stable, and states that are stable, whether or
    /// not a constraint is relevant.
    forbidden: usize,
    allowed: usize,
    /// For each misreading of constraints, the states of books of few facts on which it is wrong.
    told_apart: [usize; OF_CONSTRAINTS.len()],
    /// For each misreading of what branches, the drives on which it is wrong.
    branching: [usize; 2],
}

impl Tally {
    fn count(&mut self, book: &Book, drive: Drive, answer: u64) {
        let driven = Driven::new(book, drive);
        self.drives += 1;
        self.states[((answer >> 16) as usize).min(2)] += 1;
        let rules_alone = Driven::new(&book.without_constraints(), drive);
        for state in states(book.atoms).filter(|state| rules_alone.stable(state)) {
            match driven.stable(&state) {
                true => self.allowed += 1,
                false => self.forbidden += 1,
            }
        }
        if book.atoms <= 6 {
            for (misreading, told_apart) in OF_CONSTRAINTS.iter().zip(&mut self.told_apart) {
                let misread = Misread::new(book, drive, *misreading);
                *told_apart += states(book.atoms)
                    .filter(|state| misread.stable(state) != driven.stable(state))
                    .count();
            }
        }
        let misread = misread_branching(book, drive);
        for (wrong, times) in misread.into_iter().zip(&mut self.branching) {
            *times += usize::from(wrong != driven.branching_count());
        }
    }

    /// Random books are worth their time only if none, one and several states come up, and states that
    /// constraints rule out and leave; and if they tell all the misreadings from the right reading.
    fn assert_telling(&self, states: [usize; 3], told_apart: usize) {
        let enough = self.states.iter().zip(states).all(|(a, b)| *a >= b);
        let both = self.forbidden.min(self.allowed) >= 1_000;
        let told = self.told_apart.iter().all(|&times| times >= told_apart);
        let branching = self.branching.iter().all(|&times| times >= 100);
        assert!(enough && both && told && branching, "{self:?}");
    }
}

/// Compares all calls with the oracle at every layer of `number` books, under the sets that are chosen
/// for so many layers.
fn sweep(
    shape: &str,
    number: usize,
    layerings: &[Layering],
    sets: impl Fn(&mut Rng, u8) -> Vec<u32>,
) -> Tally {
    let mut tally = Tally::default();
    let generate = |rng: &mut Rng| {
        let layering = rng.pick(layerings);
        shapes::constrained(rng, layering)
    };
    let tried = sweep::drives(shape, number, generate, sets, |what, book, drive| {
        let bytes = book.bytes();
        assert_eq!(ffi::check(&bytes), 0, "{what}\n{}", hex(&bytes));
        let answer = assert_as_the_oracle(what, book, drive);
        tally.count(book, drive, answer);
    });
    println!("{tried}, {tally:?}");
    tally
}

#[test]
fn constraints_of_books_in_chains_are_read_as_by_the_oracle() {
    let tally = sweep("constraints, chains", 1_500, &[Layering::Chain], two_sets);
    tally.assert_telling([500, 500, 100], 20);
}

#[test]
fn constraints_of_books_in_diamonds_are_read_as_by_the_oracle() {
    let tally = sweep(
        "constraints, diamonds",
        1_000,
        &[Layering::Diamond],
        two_sets,
    );
    tally.assert_telling([500, 500, 100], 20);
}

#[test]
fn constraints_of_books_in_unrelated_branches_are_read_as_by_the_oracle() {
    let tally = sweep(
        "constraints, branches",
        1_500,
        &[Layering::Branches],
        two_sets,
    );
    tally.assert_telling([500, 500, 100], 20);
}

#[test]
fn constraints_of_books_with_any_arrows_are_read_as_by_the_oracle() {
    let tally = sweep("constraints, any arrows", 1_500, &[Layering::Any], two_sets);
    tally.assert_telling([500, 500, 100], 20);
}

#[test]
fn constraints_under_every_set_are_read_as_by_the_oracle() {
    let layerings = [Layering::Chain, Layering::Diamond, Layering::Any];
    let tally = sweep("constraints, every set", 400, &layerings, many_sets);
    tally.assert_telling([500, 500, 100], 20);
}

/// By the reading that knows no constraints, of books that have none.
#[test]
fn books_without_constraints_have_the_states_that_they_had() {
    let mut stable = 0;
    let generate = |rng: &mut Rng| {
        let layering = rng.pick(&[Layering::Chain, Layering::Diamond, Layering::Any]);
        shapes::layered(rng, layering).without_constraints()
    };
    let tried = sweep::drives(
        "constraints, none",
        1_500,
        generate,
        two_sets,
        |what, book, drive| {
            let read = Misread::new(book, drive, ConstraintsIgnored);
            let records = states(book.atoms).filter(|state| read.stable(state));
            let mut records: Vec<u8> = records.map(|state| oracle::record(&state)[0]).collect();
            records.sort();
            let g = Driven::new(book, drive).branching_count();
            assert_known(what, book, drive, &records, g);
            stable += records.len();
        },
    );
    println!("{tried}, {stable} states");
    assert!(stable > 1_000, "only {stable} states");
}

/// A book with constraints, of any size, and a drive of it.
fn any_drive(rng: &mut Rng, index: usize) -> (Book, Drive) {
    let book = match index % 4 {
        0 => {
            let small = shapes::constrained(rng, Layering::Any);
            let layer = rng.below(small.layers.into()) as u8;
            let atoms = rng.pick(&[8, 9, 64, BYTE_ATOMS - 1, BYTE_ATOMS, 700, MAX_ATOMS]);
            known::spread(rng, &small, layer, atoms).book
        }
        1 => shapes::planted(rng).book,
        2 => {
            let atoms = rng.pick(&[BYTE_ATOMS, MAX_ATOMS]);
            known::randomly_constrained(rng, 5, 12, atoms).book
        }
        _ => shapes::constrained(rng, Layering::Diamond),
    };
    let layer = rng.below(book.layers.into()) as u32;
    let off = shapes::some_layers(rng, book.layers);
    (book, at(layer).off(off))
}

/// What constraints do to a listing is to take records out of it; g stays, and so does cause 12.
#[test]
fn a_listing_is_that_of_the_rules_without_the_states_that_constraints_rule_out() {
    let seed = seed();
    let mut rng = Rng::named(seed, "constraints, taken out");
    let (number, mut listed, mut fewer, mut refused) = (800, 0, 0, 0);
    for index in 0..number {
        let (book, drive) = any_drive(&mut rng, index);
        let (bytes, rules) = (book.bytes(), book.without_constraints().bytes());
        let what = format!("seed {seed}, constraints, taken out, book {index}");
        let buffer = vec![FILLER; 11 + (1 << 10) * LONGEST_RECORD];
        match plain_rust::branching_count(&bytes, drive) {
            Ok(g) if g > 10 => continue,
            Ok(_) => listed += 1,
            Err(cause) => {
                assert_eq!(cause, TOO_MANY_BRANCHING, "{what}");
                for bytes in [&bytes, &rules] {
                    assert_eq!(ffi::list(bytes, drive, &buffer), (cause, buffer.clone()));
                }
                refused += 1;
                continue;
            }
        }
        let (answer, listing) = ffi::list(&rules, drive, &buffer);
        let width = width(book.atoms);
        let mut records: Vec<Vec<u8>> = listing[11..]
            .chunks(width)
            .take(oracle::count(&listing))
            .map(<[u8]>::to_vec)
            .collect();
        let before = records.len();
        let driven = Driven::new(&book, drive);
        records.retain(|record| {
            let state = oracle::state(record, book.atoms).expect("a record");
            let allowed = !driven.forbidden(&state);
            let test = ffi::test(&bytes, drive, record);
            assert_eq!(test, yes_or_no(allowed), "{what}, {drive}\n{}", hex(&bytes));
            allowed
        });
        let g = (answer >> 8 & 0xFF) as usize;
        let expected = oracle::listing(book.atoms, &records);
        let expected = outcome(&expected, counts(g, records.len()), &buffer);
        assert_outcome(&what, &bytes, drive, &buffer, &expected);
        fewer += usize::from(records.len() < before);
    }
    println!("seed {seed}, constraints, taken out: {number} books, {listed} listed, {fewer} with fewer states, {refused} refused");
    assert!(listed >= 300 && fewer >= 100 && refused >= 20);
}
