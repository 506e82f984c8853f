//! The state closest to a candidate (document 02, j), of books with 20 branching facts and 1,024 or 2^20
//! states: near candidates, which are stable or differ from a stable state in few facts, and far ones.

use crate::{rng, Table, FALLING, OPPONENTS};
use lesson_tests::known::{self, Known};
use std::ops::Range;

/// A book's name, how it is made, and the facts that stand in a candidate which is as far from its closest
/// state as one can be.
type Made = (&'static str, fn() -> Known, [Range<usize>; 2]);

fn books() -> [Made; 5] {
    let none = || [0..0, 0..0];
    let (helpers, never) = (0..10, 20..30);
    [
        ("pairs", || known::pairs(10, 0), none()),
        (
            "displacing pairs",
            || known::displacing_pairs(10, 0),
            none(),
        ),
        (
            "half of them free",
            || known::chosen(10, 20),
            [helpers, never],
        ),
        ("all free, rising", || known::free(20, 0, 40), [0..20, 0..0]),
        (
            "all free, falling",
            || known::followed(20, 20, 60, FALLING),
            none(),
        ),
    ]
}

/// A stable state, any of them, with so many facts the other way.
fn flipped(known: &Known, flips: usize) -> Vec<bool> {
    let rng = &mut rng("nearest");
    let mut state = known.planted(rng.below(known.count)).state;
    let mut facts: Vec<usize> = (0..state.len()).collect();
    rng.shuffle(&mut facts);
    facts.truncate(flips);
    for fact in facts {
        state[fact] = !state[fact];
    }
    state
}

/// The rows that have a word in their name. An older archive lacks the call.
pub fn table(word: String) {
    let table = Table {
        word,
        opponents: OPPONENTS[..2].to_vec(),
        once: false,
    };
    table.head();
    for (name, book, standing) in books() {
        let known = book();
        assert_eq!(known.branching, 20, "{name}");
        let facts = usize::from(known.book.atoms);
        for (kind, flips) in [("stable", 0), ("1 flipped", 1), ("4 flipped", 4)] {
            let near = flipped(&known, flips);
            table.nearest(&format!("{name}, near: {kind}"), &known, &near);
        }
        let half = flipped(&known, facts / 2);
        table.nearest(&format!("{name}, far: half flipped"), &known, &half);
        let stands = |fact| standing.iter().any(|some| some.contains(&fact));
        let farthest: Vec<bool> = (0..facts).map(stands).collect();
        table.nearest(&format!("{name}, farthest"), &known, &farthest);
    }
}
