//! Editing other layers must not move a lesson (document 02, n): drives of one layer of two books that
//! agree there and below it are alike in every answer and in every byte, whatever was edited elsewhere.
//! Every call that takes a driven layer is asked, as far as `inputs::questions` asks it.

use lesson_tests::book::{hex, not, plain, Book, MAX_ATOMS};
use lesson_tests::drive::{at, Drive};
use lesson_tests::elsewhere::{
    broken, edited, put, Edit, Hypothesis, Hypothesis::*, Lesson, EVERY_EDIT, EVERY_HYPOTHESIS,
};
use lesson_tests::every_call::{assert_known_book, states, FILLER};
use lesson_tests::expected::{counts, MAX_BRANCHING, TOO_MANY_BRANCHING};
use lesson_tests::ffi;
use lesson_tests::inputs::{self, CALLS};
use lesson_tests::known::{self, Known, EVERY_FOLLOWING};
use lesson_tests::misreadings::{Misread, Misreading, Misreading::*};
use lesson_tests::oracle::Driven;
use lesson_tests::rng::{seed, Rng};
use lesson_tests::shapes::{self, Layering};
use lesson_tests::sweep;
use std::collections::BTreeMap;

const P: u16 = 0;
const Q: u16 = 1;

/// Wrong readings by which some edit would move a lesson that it leaves.
const MISLED: [Misreading; 5] = [
    AllLayersRelevant,
    ConstraintsOfEveryLayer,
    NoPaths,
    SetTurnedRound,
    OnePass,
];

/// How often the cases came up for which random edits are there.
#[derive(Debug, Default)]
struct Tally {
    pairs: usize,
    /// Pairs in which each edit changed something.
    edits: [usize; EVERY_EDIT.len()],
    /// Questions to each call by cause, 0 for none.
    answers: BTreeMap<(&'static str, u64), usize>,
    /// Pairs that each misreading moves.
    misled: [usize; MISLED.len()],
    /// Pairs that a g counted over the rules of all layers moves.
    misled_by_g: usize,
}

impl Tally {
    fn count(&mut self, one: &Lesson, other: &Lesson, edits: &[Edit]) {
        self.pairs += 1;
        for (edit, times) in EVERY_EDIT.iter().zip(&mut self.edits) {
            *times += usize::from(edits.contains(edit));
        }
        if one.book.atoms <= 4 {
            for (misreading, misled) in MISLED.iter().zip(&mut self.misled) {
                let read = |lesson: &Lesson| -> Vec<bool> {
                    let misread = Misread::new(&lesson.book, lesson.drive, *misreading);
                    let states = states(lesson.book.atoms);
                    states.map(|state| misread.stable(&state)).collect()
                };
                *misled += usize::from(read(one) != read(other));
            }
            self.misled_by_g += usize::from(negated(&one.book) != negated(&other.book));
        }
    }
}

/// How many facts are negated in bodies of rules of any layer.
fn negated(book: &Book) -> usize {
    let rules = || book.rules.iter().filter(|rule| !rule.is_constraint());
    let negates = |atom: &u16| rules().any(|rule| rule.body.contains(&not(*atom)));
    (0..book.atoms).filter(negates).count()
}

/// The two are of one lesson, and every question is answered alike, by the oracle or plain Rust and by
/// the engine.
fn assert_alike(what: &str, one: &Lesson, other: &Lesson, salt: u64, tally: &mut Tally) {
    let told = || {
        format!(
            "{what}\n{}, {}\n{}, {}",
            one.drive,
            hex(&one.book.bytes()),
            other.drive,
            hex(&other.book.bytes())
        )
    };
    assert_eq!(broken(one, other), [], "{}", told());
    let asked = |lesson: &Lesson| {
        inputs::questions(&mut Rng::new(salt), &lesson.book.bytes(), lesson.drive)
    };
    let questions = asked(one);
    assert_eq!(questions, asked(other), "{}", told());
    for (question, wanted) in &questions {
        for lesson in [one, other] {
            assert_eq!(put(question, lesson), *wanted, "{question}\n{}", told());
        }
        let answer = (CALLS[question.call()], wanted.answer & 0xFF);
        *tally.answers.entry(answer).or_default() += 1;
    }
}

/// Edits `number` books at each of their layers, under some set, and compares.
fn sweep(shape: &str, number: usize, generate: impl Fn(&mut Rng) -> Book) -> Tally {
    let mut tally = Tally::default();
    let tried = sweep::layers(shape, number, generate, |swept, rng| {
        let one = Lesson::new(swept.book.clone(), swept.drive);
        let (other, edits) = edited(rng, &one);
        let what = format!("{}, {edits:?}", swept.what);
        assert_alike(&what, &one, &other, rng.word(), &mut tally);
        let driven = Driven::new(&other.book, other.drive);
        assert_eq!(driven.listing(), swept.driven.listing(), "{what}");
        tally.count(&one, &other, &edits);
    });
    println!("{tried}, {tally:?}");
    tally
}

/// Random edits are worth their time only if each kind comes up, and if engines that go by other layers,
/// or by how the book is written, would be found: by their states, or by their g.
fn assert_telling(tally: &Tally, edits: usize, misled: [usize; MISLED.len()], by_g: usize) {
    let enough = tally.edits.iter().all(|&times| times >= edits);
    let found = tally.misled.iter().zip(misled).all(|(a, b)| *a >= b);
    assert!(enough && found && tally.misled_by_g >= by_g, "{tally:?}");
}

/// Each of these was given by one of the calls that can give it.
fn assert_refused(tally: &Tally, causes: &[(&'static str, u64)], least: usize) {
    for cause in causes {
        let times = tally.answers.get(cause).copied().unwrap_or(0);
        assert!(times >= least, "{cause:?}: {times}, {tally:?}");
    }
}

const GRANTED: [(&str, u64); 6] = [
    ("test", 0),
    ("list", 0),
    ("one", 0),
    ("place", 0),
    ("nearest", 0),
    ("count", 0),
];
const LATER: [(&str, u64); 12] = [
    ("test", 10),
    ("nearest", 10),
    ("count", 16),
    ("count", 17),
    ("place", 11),
    ("count", 11),
    ("list", 13),
    ("one", 13),
    ("nearest", 13),
    ("one", 14),
    ("place", 14),
    ("nearest", 14),
];

#[test]
fn edits_elsewhere_leave_lessons_in_chains() {
    let tally = sweep("elsewhere, chains", 2_000, |rng| {
        shapes::layered(rng, Layering::Chain)
    });
    assert_telling(&tally, 300, [500, 120, 20, 400, 20], 400);
    assert_refused(&tally, &[GRANTED.as_slice(), &LATER].concat(), 1_000);
}

#[test]
fn edits_elsewhere_leave_lessons_in_diamonds() {
    let tally = sweep("elsewhere, diamonds", 2_000, |rng| {
        shapes::layered(rng, Layering::Diamond)
    });
    assert_telling(&tally, 700, [1_500, 400, 30, 900, 100], 1_000);
}

#[test]
fn edits_elsewhere_leave_lessons_in_unrelated_branches() {
    let tally = sweep("elsewhere, branches", 1_000, |rng| {
        shapes::layered(rng, Layering::Branches)
    });
    assert_telling(&tally, 90, [800, 220, 0, 300, 10], 600);
}

#[test]
fn edits_elsewhere_leave_lessons_with_any_arrows() {
    let tally = sweep("elsewhere, any arrows", 1_000, |rng| {
        shapes::layered(rng, Layering::Any)
    });
    assert_telling(&tally, 80, [450, 110, 0, 250, 5], 340);
}

#[test]
fn edits_elsewhere_leave_lessons_with_leaning_rules_constraints_and_many_states() {
    let tally = sweep("elsewhere, mixed", 900, |rng| {
        let layering = rng.pick(&[Layering::Chain, Layering::Diamond, Layering::Branches]);
        match rng.below(3) {
            0 => shapes::leaning(rng, layering),
            1 => shapes::constrained(rng, layering),
            _ => shapes::crowded(rng, layering),
        }
    });
    assert_telling(&tally, 200, [170, 50, 0, 110, 0], 130);
}

/// Lessons of up to 1,024 facts in books that are edited again and again, against states that are known.
#[test]
fn edits_elsewhere_leave_lessons_of_many_facts() {
    let seed = seed();
    let mut rng = Rng::named(seed, "elsewhere, many facts");
    let mut last_layers = 0;
    for turn in 0..60 {
        let following = EVERY_FOLLOWING[turn % EVERY_FOLLOWING.len()];
        let known = match turn % 4 {
            0 => known::pairs(4, 3),
            1 => known::displacing_pairs(4, 1),
            2 => known::followed(3, 3, MAX_ATOMS, following),
            _ => known::quarrelled(known::pairs(3, 1)),
        };
        let mut known = match turn % 4 {
            2 => known,
            _ => known::scattered(&mut rng, known, MAX_ATOMS),
        };
        let first = Lesson::new(known.book.clone(), known.layer.into());
        let mut lesson = first.clone();
        for _ in 0..8 {
            lesson = edited(&mut rng, &lesson).0;
            let told = format!("seed {seed}, turn {turn}");
            assert_eq!(broken(&first, &lesson), [], "{told}");
            known.book = lesson.book.clone();
            assert_known_book(&told, &known);
        }
        last_layers += usize::from(lesson.book.layers == 32);
    }
    assert!(last_layers >= 1, "{last_layers} books of 32 layers");
    println!("seed {seed}, elsewhere, many facts: 480 books, 32 layers {last_layers}");
}

/// More than 20 facts branch before and after the edits: 12, but for the test of a candidate.
#[test]
fn edits_elsewhere_leave_refusals_for_branching_facts() {
    let seed = seed();
    let mut rng = Rng::named(seed, "elsewhere, too many");
    let mut tally = Tally::default();
    for Known { book, layer, .. } in known::too_many_branching() {
        let one = Lesson::new(book, layer.into());
        for _ in 0..8 {
            let (other, edits) = edited(&mut rng, &one);
            let what = format!("seed {seed}, {edits:?}");
            assert_alike(&what, &one, &other, rng.word(), &mut tally);
        }
    }
    let calls = ["list", "one", "place", "nearest", "count"];
    let refused = calls.map(|call| (call, TOO_MANY_BRANCHING));
    assert_refused(&tally, &refused, 40);
    println!("seed {seed}, elsewhere, too many: 48 books, {tally:?}");
}

/// What `lesson_list` answers and writes, with room for the listing.
fn listed(lesson: &Lesson) -> ffi::Outcome {
    ffi::list(&lesson.book.bytes(), lesson.drive, &[FILLER; 4096])
}

#[test]
fn rules_elsewhere_make_no_fact_branch() {
    let Known { mut book, .. } = known::single(MAX_BRANCHING as u16, true);
    book.atoms += 1;
    book.layers = 2;
    let spare = book.atoms - 1;
    let one = Lesson::new(book, at(0));
    for (earlier, later) in [(None, None), (Some(0), Some(1))] {
        let mut other = one.clone();
        if let (Some(earlier), Some(later)) = (earlier, later) {
            other.book = other.book.arrow(earlier, later);
        }
        other.book = other
            .book
            .rule(1, plain(P), &[not(spare)])
            .rule(1, not(P), &[plain(spare)]);
        assert_eq!(broken(&one, &other), []);
        assert_eq!(listed(&other), listed(&one));
        assert_eq!(listed(&other).0, counts(MAX_BRANCHING, 1));
        let here = other.book.clone().rule(0, plain(P), &[not(spare)]);
        let here = Lesson::new(here, at(0));
        assert_eq!(broken(&one, &here), [NoMoreRules]);
        assert_eq!(listed(&here).0, TOO_MANY_BRANCHING);
    }
}

/// For each hypothesis, two drives that break it alone.
fn broken_alone() -> Vec<(Hypothesis, Lesson, Lesson)> {
    let drive = |book: &Book, drive: Drive| Lesson::new(book.clone(), drive);
    let loose = Book::new(2, 2).rule(0, plain(P), &[]);
    let line = loose.clone().arrow(0, 1);
    let twice = line.clone().arrow(0, 1);
    let single = Book::new(2, 1).rule(0, plain(P), &[]);
    let wider = Book::new(3, 2).arrow(0, 1).rule(0, plain(P), &[]);
    let choice = line.clone().rule(1, plain(Q), &[not(P)]);
    let banned = line.clone().never(0, &[]);
    let quarrel = Book::new(1, 3)
        .arrow(0, 2)
        .arrow(1, 2)
        .rule(0, plain(P), &[])
        .rule(1, not(P), &[]);
    let settled = quarrel.clone().arrow(0, 1);
    vec![
        (Accepted, drive(&line, at(1)), drive(&twice, at(1))),
        (Accepted, drive(&twice, at(1)), drive(&line, at(1))),
        (Facts, drive(&line, at(1)), drive(&wider, at(1))),
        (DrivenLayer, drive(&loose, at(1)), drive(&single, at(1))),
        (DrivenLayer, drive(&single, at(1)), drive(&loose, at(1))),
        (LayersOff, drive(&line, at(1)), drive(&line, at(1).off(4))),
        (LayersOff, drive(&line, at(1).off(4)), drive(&line, at(1))),
        (SameLayer, drive(&loose, at(0)), drive(&loose, at(1))),
        (Below, drive(&loose, at(1)), drive(&line, at(1))),
        (Off, drive(&line, at(1)), drive(&line, at(1).off(1))),
        (RulesKept, drive(&choice, at(1)), drive(&line, at(1))),
        (NoMoreRules, drive(&line, at(1)), drive(&banned, at(1))),
        (Order, drive(&quarrel, at(2)), drive(&settled, at(2))),
    ]
}

#[test]
fn each_hypothesis_is_needed() {
    let pairs = broken_alone();
    for hypothesis in EVERY_HYPOTHESIS {
        assert!(pairs.iter().any(|(alone, ..)| *alone == hypothesis));
    }
    for (hypothesis, one, other) in pairs {
        assert_eq!(broken(&one, &other), [hypothesis]);
        assert_ne!(listed(&one), listed(&other), "{hypothesis:?}");
    }
}

/// The books of crates/other_layers/specs/TwoBooks.antt: the depot, layer 3, is edited while layer 2 is
/// driven.
#[test]
fn the_proved_example_is_one_lesson() {
    let before = Book::new(2, 4)
        .arrow(0, 1)
        .arrow(1, 2)
        .arrow(0, 3)
        .rule(0, plain(P), &[not(Q)])
        .rule(0, plain(Q), &[not(P)])
        .rule(1, not(P), &[plain(Q)])
        .never(2, &[plain(P), plain(Q)])
        .rule(3, plain(P), &[]);
    let after = Book::new(2, 6)
        .arrow(3, 5)
        .arrow(0, 2)
        .arrow(1, 2)
        .arrow(2, 4)
        .arrow(0, 1)
        .arrow(4, 3)
        .rule(3, not(P), &[plain(Q)])
        .rule(3, not(Q), &[])
        .never(2, &[plain(Q), plain(P), plain(Q)])
        .rule(1, not(P), &[plain(Q)])
        .rule(0, plain(Q), &[not(P), not(P)])
        .never(4, &[])
        .rule(5, plain(P), &[not(P)])
        .rule(0, plain(P), &[not(Q)])
        .rule(1, not(P), &[plain(Q), plain(Q)]);
    let one = Lesson::new(before, at(2).off(1 << 3));
    let other = Lesson::new(after, at(2).off(1 << 4 | 1 << 5));
    let mut tally = Tally::default();
    for salt in 0..100 {
        assert_alike("the example", &one, &other, salt, &mut tally);
    }
    assert_eq!(listed(&one).0, counts(2, 2));
}
