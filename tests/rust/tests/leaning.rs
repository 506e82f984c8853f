//! Rules that lean on themselves (document 02, i): such a rule has its head among its own body literals,
//! displaces nothing and gives no second ground of branching. All four calls on a driven layer, against
//! the oracle, which has the exception from that document; against books whose states are known; and
//! against books from which these rules were taken.

use lesson_tests::book::{
    hex, not, plain, Book, Literal, Rule, BYTE_ATOMS, LONGEST_RECORD, MAX_ATOMS,
};
use lesson_tests::drive::{at, Drive};
use lesson_tests::every_call::{
    assert_as_the_oracle, assert_known_book, assert_states, assert_trap, states,
};
use lesson_tests::expected::{yes_or_no, TOO_MANY_BRANCHING};
use lesson_tests::ffi;
use lesson_tests::known;
use lesson_tests::listed::{assert_outcome, outcome};
use lesson_tests::misreadings::{Misread, Misreading::*, OF_LEANING};
use lesson_tests::oracle::{self, leans_on_itself, Driven};
use lesson_tests::plain as plain_rust;
use lesson_tests::rng::{seed, Rng};
use lesson_tests::shapes::{self, Layering};
use lesson_tests::sweep::{self, many_sets, two_sets};

const P: u16 = 0;
const Q: u16 = 1;
const R: u16 = 2;

/// Two layers, the second above the first.
fn above(atoms: u16) -> Book {
    Book::new(atoms, 2).arrow(0, 1)
}

/// A quarrel about p in a layer.
fn quarrel(book: Book, layer: u8) -> Book {
    book.rule(layer, plain(P), &[]).rule(layer, not(P), &[])
}

/// Document 02: there is now no state, and g is 0.
#[test]
fn example_p_not_p_and_p_if_p_has_no_state() {
    let book = quarrel(above(1), 0).rule(1, plain(P), &[plain(P)]);
    assert_trap(&book, at(1), &[], 0, LeaningDisplaces);
    assert_states(&book, at(1).off(0b10), &[], 0);
    assert_states(&book, at(1).off(0b01), &[0x00], 0);
}

/// Document 02: it keeps its record. p branches by the first ground.
#[test]
fn example_not_p_if_not_p_keeps_its_record() {
    let book = above(1).rule(0, plain(P), &[]).rule(1, not(P), &[not(P)]);
    assert_states(&book, at(1), &[0x80], 1);
    assert_states(&book, at(1).off(0b10), &[0x80], 0);
    assert_states(&book, at(1).off(0b01), &[0x00], 1);
}

/// Bodies of up to 16 literals that have the head at one place, any of them, or at several, and else q.
fn leaning_bodies(head: Literal) -> Vec<Vec<Literal>> {
    let mut bodies = Vec::new();
    for length in 1..=16 {
        for place in 0..length {
            let mut body = vec![plain(Q); length];
            body[place] = head;
            bodies.push(body.clone());
            body[length - 1 - place] = head;
            bodies.push(body);
        }
        bodies.push(vec![head; length]);
    }
    bodies
}

#[test]
fn a_rule_of_either_sign_leans_by_its_head_at_any_place_of_its_body() {
    for head in [plain(P), not(P)] {
        // p is negated in the body of the rule about "not p".
        let g = usize::from(head.negated);
        for body in leaning_bodies(head) {
            let quarrel = quarrel(above(2), 0).rule(0, plain(Q), &[]);
            let book = quarrel.rule(1, head, &body);
            assert_trap(&book, at(1), &[], g, LeaningDisplaces);
            // The same body without the head displaces, and q branches.
            let others: Vec<Literal> = body.into_iter().filter(|at| *at != head).collect();
            let record = if head.negated { 0x40 } else { 0xC0 };
            let second = usize::from(!others.is_empty());
            let book = book.rule(1, head, &others);
            assert_states(&book, at(1), &[record], g + second);
        }
    }
}

/// What stands beside the head gives no second ground, only the first: q does not branch, r does.
#[test]
fn its_negated_facts_branch_and_its_plain_ones_do_not() {
    for head in [plain(P), not(P)] {
        let g = 1 + usize::from(head.negated);
        let book = above(3)
            .rule(0, head.opposite(), &[])
            .rule(1, head, &[plain(Q), not(R), head]);
        let record = if head.negated { 0x80 } else { 0x00 };
        assert_states(&book, at(1), &[record], g);
        // Displacing or not, what another rule has in its body branches.
        let beside = book.rule(1, head, &[plain(Q), not(R)]);
        assert_states(&beside, at(1), &[record], g + 1);
    }
}

/// "p if p, not p, q" leans on itself, though its body never holds: q does not branch. "p if not p, q"
/// does not lean on itself, and q branches.
#[test]
fn a_body_that_never_holds_leans_too() {
    for head in [plain(P), not(P)] {
        let below = above(2).rule(0, head.opposite(), &[]);
        let record = if head.negated { 0x80 } else { 0x00 };
        let opposite = head.opposite();
        let both = below.clone().rule(1, head, &[head, opposite, plain(Q)]);
        assert_states(&both, at(1), &[record], 1);
        let turned = below.clone().rule(1, head, &[opposite, head, plain(Q)]);
        assert_states(&turned, at(1), &[record], 1);
        let opposite_alone = below.rule(1, head, &[opposite, plain(Q)]);
        assert_states(&opposite_alone, at(1), &[record], 2);
    }
}

/// "p if not p" of layer 1 is no such rule. It displaces "not p", though it is itself displaced by the
/// "not p if q" of layer 2, and then nothing reaches q, which follows "not p"; and the same with the
/// other sign.
#[test]
fn trap_the_opposite_of_a_head_in_its_body_is_no_leaning() {
    for head in [plain(P), not(P)] {
        let opposite = head.opposite();
        let book = Book::new(2, 3)
            .arrow(0, 1)
            .arrow(1, 2)
            .rule(0, opposite, &[])
            .rule(0, plain(Q), &[opposite])
            .rule(1, head, &[opposite])
            .rule(2, opposite, &[plain(Q)]);
        assert_trap(&book, at(2), &[], 2, LeansByTheFact);
        // Layer 1 being off, or its rule leaning on itself too, nothing is displaced.
        let record = if head.negated { 0xC0 } else { 0x40 };
        let off = at(2).off(0b010);
        assert_states(&book, off, &[record], usize::from(!head.negated));
    }
}

/// p below, and above it the rule that leans on itself, at every two places of a line of 32 layers
/// whose numbers rise or fall. In the layers between, others that lean on themselves.
#[test]
fn leaning_rules_displace_nothing_over_one_and_over_several_layers() {
    for rising in [true, false] {
        let layer_at = |place: u8| if rising { place } else { 31 - place };
        let line = (1..32).fold(Book::new(1, 32), |book, place| {
            book.arrow(layer_at(place - 1), layer_at(place))
        });
        for lower in 0..31 {
            for upper in lower + 1..32 {
                let (below, above) = (layer_at(lower), layer_at(upper));
                let drive = Drive::from(layer_at(31));
                for head in [plain(P), not(P)] {
                    let g = usize::from(head.negated);
                    let record = if head.negated { 0x80 } else { 0x00 };
                    let lone = line.clone().rule(below, head.opposite(), &[]);
                    let lone = lone.rule(above, head, &[head]);
                    assert_states(&lone, drive, &[record], g);
                    let quarrel = quarrel(line.clone(), below);
                    let quarrel = (lower + 1..=upper).fold(quarrel, |book, place| {
                        book.rule(layer_at(place), head, &[head, head])
                    });
                    assert_states(&quarrel, drive, &[], g);
                }
            }
        }
    }
}

/// A rule that leans on itself takes nothing from the others of its layer, nor from those of other
/// layers, nor they from it.
#[test]
fn trap_rules_beside_a_leaning_one_displace_as_ever() {
    let leaning = [
        (plain(P), plain(P)),
        (not(P), not(P)),
        (plain(Q), plain(Q)),
        (not(Q), not(Q)),
    ];
    for (head, body) in leaning {
        let g = usize::from(head.negated);
        let beside = above(2)
            .rule(0, plain(P), &[])
            .rule(1, not(P), &[])
            .rule(1, head, &[body]);
        assert_trap(&beside, at(1), &[0x00], g, LeaningShutsItsLayer);
    }
    // Two quarrels, of which a rule that displaces settles one, and one that leans on itself none.
    let two = quarrel(above(3), 0)
        .rule(0, plain(Q), &[])
        .rule(0, not(Q), &[])
        .rule(0, plain(R), &[])
        .rule(1, plain(P), &[plain(R)]);
    let leaning = two.clone().rule(1, plain(Q), &[plain(R), plain(Q)]);
    assert_trap(&leaning, at(1), &[], 1, LeaningDisplaces);
    assert_trap(&leaning, at(1), &[], 1, LeansByTheWholeBody);
    let both = leaning.rule(1, plain(Q), &[plain(R)]);
    assert_trap(&both, at(1), &[0xE0], 1, LeaningShutsItsLayer);
}

/// A rule that leans on itself counts as any other where it is displaced, reached or by default: it
/// never makes a difference to a state.
#[test]
fn a_leaning_rule_is_displaced_and_reached_as_any_other() {
    // Displaced by "not p" above it; p is reached in no way.
    let displaced = above(1).rule(0, plain(P), &[plain(P)]).rule(1, not(P), &[]);
    assert_states(&displaced, at(1), &[0x00], 0);
    // Its body is reached by the rule below it, and "not p" below both is displaced by neither.
    let reached = Book::new(1, 3)
        .arrow(0, 1)
        .arrow(1, 2)
        .rule(0, not(P), &[])
        .rule(1, plain(P), &[])
        .rule(2, plain(P), &[plain(P)]);
    assert_states(&reached, at(2), &[0x80], 0);
    assert_states(&reached, at(2).off(0b010), &[0x00], 0);
    assert_states(&reached, at(2).off(0b101), &[0x80], 0);
    // Where p stands "not p" is no default, and nothing reaches p.
    let alone = Book::new(1, 1).rule(0, plain(P), &[plain(P)]);
    assert_states(&alone, at(0), &[0x00], 0);
}

/// What only leaning rules face is never displaced: no state denies it.
#[test]
fn trap_rules_that_only_leaning_ones_face_hold_in_every_state() {
    // Two states by q and r, and in each the body of "p if q" or that of "p if r" holds.
    let choice = above(3)
        .rule(0, plain(Q), &[not(R)])
        .rule(0, plain(R), &[not(Q)])
        .rule(0, plain(P), &[plain(Q)])
        .rule(0, plain(P), &[plain(R)]);
    assert_states(&choice, at(1), &[0xA0, 0xC0], 2);
    let faced = choice
        .rule(1, not(P), &[not(P), plain(Q)])
        .rule(1, not(P), &[plain(R), not(P)]);
    assert_states(&faced, at(1), &[0xA0, 0xC0], 3);
    // One that displaces takes p from one of them.
    let denied = faced.rule(1, not(P), &[plain(R)]);
    assert_states(&denied, at(1), &[0x20, 0xC0], 3);
    // Where q stands there is a quarrel, which rules that lean on themselves do not settle.
    let quarrel = above(3)
        .rule(0, plain(Q), &[not(R)])
        .rule(0, plain(R), &[not(Q)])
        .rule(0, plain(P), &[plain(Q)])
        .rule(0, not(P), &[plain(Q)]);
    for head in [plain(P), not(P)] {
        let faced = quarrel.clone().rule(1, head, &[plain(Q), head]);
        let g = 2 + usize::from(head.negated);
        assert_trap(&faced, at(1), &[0x20], g, LeaningDisplaces);
        let settled = faced.rule(1, head, &[plain(Q)]);
        let record = if head.negated { 0x40 } else { 0xC0 };
        assert_states(&settled, at(1), &[0x20, record], g);
    }
}

/// Wrong readings of what branches: g without all of the leaning rules, and g with the second ground
/// kept for them.
fn misread_branching(book: &Book, drive: Drive) -> [usize; 2] {
    let below = oracle::below(book);
    let is_below = |i: u8, j: u8| below[usize::from(i)][usize::from(j)];
    let counts = |layer: u8| {
        let driven = drive.layer as u8;
        (layer == driven || is_below(layer, driven)) && !drive.is_off(layer)
    };
    let relevant = || book.rules.iter().filter(|rule| counts(rule.layer));
    let mut kept = Driven::new(book, drive).branching();
    for rule in relevant() {
        let faces =
            |lower: &Rule| is_below(lower.layer, rule.layer) && lower.head == rule.head.opposite();
        if relevant().any(faces) {
            for literal in &rule.body {
                kept[usize::from(literal.atom)] = true;
            }
        }
    }
    let dropped = Driven::new(&without_leaning(book), drive).branching_count();
    [dropped, kept.iter().filter(|&&branches| branches).count()]
}

/// The book without the rules that lean on themselves.
fn without_leaning(book: &Book) -> Book {
    let mut book = book.clone();
    book.rules.retain(|rule| !leans_on_itself(rule));
    book
}

/// How often the cases came up for which random books are there.
#[derive(Debug, Default)]
struct Tally {
    drives: usize,
    /// Drives with no, one and more states.
    states: [usize; 3],
    /// For each misreading of leaning rules, the states on which it is wrong.
    told_apart: [usize; OF_LEANING.len()],
    /// For each misreading of what branches, the drives on which it is wrong.
    branching: [usize; 2],
}

impl Tally {
    fn count(&mut self, book: &Book, drive: Drive, answer: u64) {
        let driven = Driven::new(book, drive);
        self.drives += 1;
        self.states[((answer >> 16) as usize).min(2)] += 1;
        for (misreading, told_apart) in OF_LEANING.iter().zip(&mut self.told_apart) {
            let misread = Misread::new(book, drive, *misreading);
            *told_apart += states(book.atoms)
                .filter(|state| misread.stable(state) != driven.stable(state))
                .count();
        }
        let misread = misread_branching(book, drive);
        for (wrong, times) in misread.into_iter().zip(&mut self.branching) {
            *times += usize::from(wrong != driven.branching_count());
        }
    }

    /// Random books are worth their time only if none, one and several states come up, and if they
    /// tell all the misreadings from the right reading: each so often at least.
    fn assert_telling(&self, told_apart: usize) {
        let counts = self.states.iter().chain(&self.branching);
        let told = self.told_apart.iter().all(|&times| times >= told_apart);
        assert!(told && counts.min() >= Some(&30), "{self:?}");
    }
}

/// Compares all calls with the oracle at every layer of `number` books, under the sets that are chosen
/// for so many layers.
fn sweep(
    shape: &str,
    number: usize,
    layerings: &[Layering],
    sets: impl Fn(&mut Rng, u8) -> Vec<u32>,
) -> Tally {
    let mut tally = Tally::default();
    let generate = |rng: &mut Rng| {
        let layering = rng.pick(layerings);
        shapes::leaning(rng, layering)
    };
    let tried = sweep::drives(shape, number, generate, sets, |what, book, drive| {
        let answer = assert_as_the_oracle(what, book, drive);
        tally.count(book, drive, answer);
    });
    println!("{tried}, {tally:?}");
    tally
}

#[test]
fn leaning_rules_of_books_in_chains_are_read_as_by_the_oracle() {
    let tally = sweep("leaning, chains", 2_500, &[Layering::Chain], two_sets);
    tally.assert_telling(5);
}

#[test]
fn leaning_rules_of_books_in_diamonds_are_read_as_by_the_oracle() {
    let tally = sweep("leaning, diamonds", 1_000, &[Layering::Diamond], two_sets);
    tally.assert_telling(5);
}

#[test]
fn leaning_rules_of_books_in_unrelated_branches_are_read_as_by_the_oracle() {
    let tally = sweep("leaning, branches", 1_500, &[Layering::Branches], two_sets);
    tally.assert_telling(5);
}

#[test]
fn leaning_rules_of_books_with_any_arrows_are_read_as_by_the_oracle() {
    let tally = sweep("leaning, any arrows", 1_500, &[Layering::Any], two_sets);
    tally.assert_telling(5);
}

#[test]
fn leaning_rules_under_every_set_are_read_as_by_the_oracle() {
    let layerings = [Layering::Chain, Layering::Diamond, Layering::Any];
    let tally = sweep("leaning, every set", 500, &layerings, many_sets);
    tally.assert_telling(0);
}

/// A book with leaning rules, of any size, and a drive of it.
fn any_drive(rng: &mut Rng, index: usize) -> (Book, Drive) {
    let book = match index % 3 {
        0 => {
            let small = shapes::leaning(rng, Layering::Any);
            let layer = rng.below(small.layers.into()) as u8;
            let atoms = rng.pick(&[8, 9, 64, BYTE_ATOMS - 1, BYTE_ATOMS, 700, MAX_ATOMS]);
            known::spread(rng, &small, layer, atoms).book
        }
        1 => shapes::planted(rng).book,
        _ => {
            let atoms = rng.pick(&[BYTE_ATOMS, MAX_ATOMS]);
            known::leaning(rng, 6, atoms - 12, atoms).book
        }
    };
    let layer = rng.below(book.layers.into()) as u32;
    let off = shapes::some_layers(rng, book.layers);
    (book, at(layer).off(off))
}

/// By what a leaning rule is, it never makes a difference to a state: what it says is reached before,
/// or not at all. So without these rules the listing is the same byte for byte, and no candidate's
/// answer moves; only g may be smaller, by the facts that they alone negate.
#[test]
fn books_without_their_leaning_rules_have_the_same_states() {
    let seed = seed();
    let mut rng = Rng::named(seed, "leaning, without");
    let (number, mut listed, mut fewer, mut stable) = (600, 0, 0, 0);
    for index in 0..number {
        let (book, drive) = any_drive(&mut rng, index);
        let (bytes, rest) = (book.bytes(), without_leaning(&book).bytes());
        let what = format!("seed {seed}, leaning, without, book {index}, {drive}");
        let told = || format!("{what}\n{}\n{}", hex(&bytes), hex(&rest));
        let mut candidates: Vec<Vec<u8>> = (0..4)
            .map(|_| (0..book.atoms).map(|_| rng.chance(50)).collect::<Vec<_>>())
            .map(|state| oracle::record(&state))
            .collect();
        let short = plain_rust::branching_count(&bytes, drive).is_ok_and(|g| g <= 10);
        if short {
            let buffer = vec![0xA5; 11 + (1 << 10) * LONGEST_RECORD];
            let (with, without) = (
                ffi::list(&bytes, drive, &buffer),
                ffi::list(&rest, drive, &buffer),
            );
            let g = |answer: u64| answer >> 8 & 0xFF;
            assert!(with.1 == without.1, "{}", told());
            assert_eq!(with.0 >> 16, without.0 >> 16, "{}", told());
            assert!(g(with.0) >= g(without.0), "{}", told());
            let width = usize::from(book.atoms).div_ceil(8);
            let records = with.1[11..].chunks(width).take(oracle::count(&with.1));
            candidates.extend(records.take(4).map(<[u8]>::to_vec));
            listed += 1;
            fewer += usize::from(g(with.0) > g(without.0));
        }
        for candidate in candidates {
            let with = ffi::test(&bytes, drive, &candidate);
            assert_eq!(with, ffi::test(&rest, drive, &candidate), "{}", told());
            stable += usize::from(with == yes_or_no(true));
        }
    }
    println!(
        "seed {seed}, leaning, without: {number} books, {listed} listed, {fewer} with a smaller g, \
         {stable} stable candidates"
    );
    assert!(listed >= 200 && fewer >= 20 && stable >= 200);
}

/// 1,024 rules, most of them leaning on themselves.
#[test]
fn free_facts_under_many_leaning_rules_stay_free() {
    let seed = seed();
    let mut rng = Rng::named(seed, "leaning, many");
    for (choices, first, atoms) in [
        (1, 0, BYTE_ATOMS),
        (4, 0, BYTE_ATOMS),
        (9, 0, BYTE_ATOMS),
        (1, BYTE_ATOMS - 1, BYTE_ATOMS + 1),
        (6, BYTE_ATOMS - 3, MAX_ATOMS),
        (9, MAX_ATOMS - 18, MAX_ATOMS),
    ] {
        let known = known::leaning(&mut rng, choices, first, atoms);
        let what = format!("seed {seed}, {choices} choices, {atoms} facts");
        assert_known_book(&what, &known);
    }
}

/// 21 facts in bodies that would displace but for the head in them: none branches. One rule more, and
/// all of them do.
#[test]
fn facts_in_leaning_bodies_do_not_count_for_12() {
    let mut book = above(23).rule(0, not(P), &[]);
    for atom in 1..=21 {
        book = book.rule(1, plain(P), &[plain(atom), plain(P)]);
    }
    let record = vec![0; 3];
    let listing = oracle::listing(23, &[record]);
    let expected = outcome(&listing, 1 << 16, &[7; 20]);
    assert_outcome("none branches", &book.bytes(), at(1), &[7; 20], &expected);
    for atom in 1..=21 {
        book = book.rule(1, plain(P), &[plain(atom)]);
    }
    let refused = (TOO_MANY_BRANCHING, vec![7; 20]);
    assert_outcome("all branch", &book.bytes(), at(1), &[7; 20], &refused);
}
