//! One state of a book, beside a counting pass of the same book and the archive before: where the
//! branching facts come first in the record, come last, and come behind facts of every kind.
//!
//! A counting pass is `lesson_place` of a fact that never stands: it goes through all states. The archive
//! is expected to hand out a state of its own choice, the first that it meets.

use crate::{before, best_rounds, rng, shown, Program, FEWEST, MOST, SEED};
use lesson_tests::expected::{branching, place_of};
use lesson_tests::ffi::Call;
use lesson_tests::known::{self, Front, Known};
use lesson_tests::oracle::Driven;
use std::hint::black_box;

/// How many facts come before the branching ones.
const IN_FRONT: u16 = 20;

/// The aims: no more than so many times the archive before, where the branching facts come first or
/// behind facts that stand for sure, and never more than a counting pass.
const AIM: f64 = 2.0;

/// Where the branching facts are.
#[derive(Clone, Copy, PartialEq, Eq)]
enum Place {
    First,
    /// Behind all facts that do not branch.
    Last,
    /// Behind facts of a kind.
    Behind(Front),
    /// Among facts of a kind, one of which comes before each.
    Among(Front),
    Shuffled,
}

impl Place {
    const ALL: [Place; 12] = [
        Place::First,
        Place::Behind(Front::Given),
        Place::Behind(Front::Chain),
        Place::Among(Front::Given),
        Place::Behind(Front::Never),
        Place::Last,
        Place::Behind(Front::Either),
        Place::Behind(Front::Follow),
        Place::Among(Front::Follow),
        Place::Behind(Front::Oppose),
        Place::Among(Front::Oppose),
        Place::Shuffled,
    ];

    fn name(self) -> String {
        let kind = |front| match front {
            Front::Never => "facts that never stand",
            Front::Given => "facts that are given",
            Front::Chain => "a chain that is given",
            Front::Either => "facts that stand either way",
            Front::Follow => "facts that follow them",
            Front::Oppose => "facts that stand where they do not",
        };
        match self {
            Place::First => "first".into(),
            Place::Last => "last".into(),
            Place::Behind(front) => format!("behind {}", kind(front)),
            Place::Among(front) => format!("among {}", kind(front)),
            Place::Shuffled => "anywhere".into(),
        }
    }

    /// Whether the aim against the archive before is for it.
    fn aimed(self) -> bool {
        match self {
            Place::First => true,
            Place::Behind(front) | Place::Among(front) => {
                [Front::Given, Front::Chain].contains(&front)
            }
            Place::Last | Place::Shuffled => false,
        }
    }

    /// The same book with its facts in their places, and a fact behind them all that never stands.
    fn put(self, known: Known) -> Known {
        let known = sorted(known, true);
        let known = match self {
            Place::First => known,
            Place::Last => sorted(known, false),
            Place::Behind(front) => known::behind(known, front, IN_FRONT),
            Place::Among(front) => interleaved(known::behind(known, front, IN_FRONT)),
            Place::Shuffled => {
                let mut numbers: Vec<u16> = (0..known.book.atoms).collect();
                rng("one").shuffle(&mut numbers);
                known::renumbered(known, numbers)
            }
        };
        known::spared(known)
    }
}

/// The same book with its branching facts before all others, or behind them.
fn sorted(known: Known, first: bool) -> Known {
    let branches = Driven::new(&known.book, known.layer.into()).branching();
    let mut facts: Vec<u16> = (0..known.book.atoms).collect();
    facts.sort_by_key(|&fact| branches[usize::from(fact)] != first);
    let mut numbers = vec![0; facts.len()];
    for (number, fact) in (0..).zip(facts) {
        numbers[usize::from(fact)] = number;
    }
    known::renumbered(known, numbers)
}

/// The same book with its first facts among the next ones, one before each.
fn interleaved(known: Known) -> Known {
    let number = |fact| match fact {
        front if front < IN_FRONT => 2 * front,
        next if next < 2 * IN_FRONT => 2 * (next - IN_FRONT) + 1,
        other => other,
    };
    let numbers = (0..known.book.atoms).map(number).collect();
    known::renumbered(known, numbers)
}

/// A book's name, and how it is made.
type Made = (&'static str, fn() -> Known);

/// The books, all with 20 branching facts, by their numbers of states.
fn books() -> [Made; 6] {
    [
        ("one, none stands", || known::chosen(0, 20)),
        ("one, all stand", || known::single(20, true)),
        ("pairs", || known::pairs(10, 0)),
        ("displacing pairs", || known::displacing_pairs(10, 0)),
        ("half of them free", || known::chosen(10, 20)),
        ("all free", || known::free(20, 0, 40)),
    ]
}

/// The seconds of one state, of a counting pass and of one state by the archive before.
struct Times {
    one: f64,
    counting: f64,
    before: Option<f64>,
}

/// One state and a counting pass take turns, and so do one state and the archive before. The state that
/// is handed out is the first.
fn timed(known: &Known) -> Times {
    let (book, layer) = (known.book.bytes(), known.layer.into());
    let width = usize::from(known.book.atoms).div_ceil(8);
    let never = known.book.atoms - 1;
    let mut states = [vec![0; width], vec![0; width]];
    let mut one = |program: Program, at: usize| {
        let call = Call::One(Some(&mut states[at]));
        let given = program.answer(black_box(&book), layer, call);
        assert_eq!(given, branching(known.branching));
    };
    let counting = best_rounds(2, &mut |at| match at {
        0 => one(Program::Engine, 0),
        _ => {
            let given = Program::Engine.answer(black_box(&book), layer, Call::Place(never.into()));
            assert_eq!(given, place_of(known.branching, 0, known.count));
        }
    });
    let before = before::LINKED.then(|| {
        best_rounds(2, &mut |at| match at {
            0 => one(Program::Engine, 0),
            _ => one(Program::Before, 1),
        })
    });
    assert_eq!(known.first().as_ref(), Some(&states[0]), "not the first");
    Times {
        one: before
            .iter()
            .fold(counting[0], |one, before| one.min(before[0])),
        counting: counting[1],
        before: before.map(|before| before[1]),
    }
}

/// Prints a row. Whether the aims are met is returned.
fn row(name: &str, place: Place, known: &Known) -> bool {
    assert_eq!(known.branching, 20, "{name}");
    let Times {
        one,
        counting,
        before,
    } = timed(known);
    let ratio = |other: f64| format!("{} | {:.2}", shown(other), one / other);
    let against = before.map_or("- | -".into(), ratio);
    let (count, time, counting_pass) = (known.count, shown(one), ratio(counting));
    println!("| {name} | {count} | {time} | {counting_pass} | {against} |");
    let slower = before.is_some_and(|before| place.aimed() && one > AIM * before);
    !slower && one <= counting
}

/// The rows that have a word in their name; those with 2^20 states come only where all are asked for.
pub fn table(word: String, full: bool) {
    println!(
        "Time of one state of books with g = 20, best of {FEWEST} to {MOST} rounds, seed {SEED}."
    );
    println!();
    println!("| branching facts | book | k | one | counting pass | ratio | before | ratio |");
    println!("{}|", "|---".repeat(8));
    let mut missed = Vec::new();
    for (kind, book) in books() {
        for place in Place::ALL {
            let name = format!("{} | {kind}", place.name());
            let known = place.put(book());
            let asked = name.contains(&word) && (full || known.count <= 1 << 10);
            if asked && !row(&name, place, &known) {
                missed.push(name.replace(" | ", ", "));
            }
        }
    }
    let rows = missed.len();
    println!(
        "\nOver {AIM} times before where that is the aim, or over a counting pass: {rows} rows."
    );
    for name in missed {
        println!("- {name}");
    }
}
