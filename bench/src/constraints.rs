//! Books with constraints (document 02, c), beside clingo too where it is installed.

use crate::{clingo, opponents, rng, Program, Table};
use lesson_tests::known::{self, Ban, Known, Left};

/// Behind the names of books where a constraint has a fact that does not branch, so that no setting
/// alone decides it.
const NOT_BRANCHING: &str = ", over facts that do not branch";

/// So many choices, of whose states constraints over them or over their helpers leave few.
fn few_left(table: &Table, choices: u16, over_helpers: bool) {
    let over = if over_helpers { NOT_BRANCHING } else { "" };
    for (left, kind) in [
        (Left::AllAlike, "all alike"),
        (Left::AtMostOne, "at most one"),
        (Left::HalvesAlike, "halves alike"),
    ] {
        let name = format!("constraints leave {kind}{over}");
        table.every_search(&name, &known::few_left(choices, left, over_helpers));
    }
}

/// So many choices, of whose states constraints leave none.
fn all_banned(table: &Table, choices: u16) {
    for (ban, kind) in [
        (Ban::Empty, "an empty body"),
        (Ban::Branching, "a branching fact"),
        (Ban::Standing, "a fact that does not branch"),
    ] {
        let name = format!("constraints ban every state by {kind}");
        table.every_search(&name, &known::banned(choices, ban));
    }
}

/// A book whose constraints leave every state.
fn idle(table: &Table, name: &str, known: &Known, over: &str) {
    let rules = known.book.rules.iter();
    let number = rules.filter(|rule| rule.is_constraint()).count();
    let name = format!("{name} and {number} constraints that never hold{over}");
    table.every_search(&name, known);
}

fn idle_pairs(table: &Table) {
    let rng = &mut rng("idle pairs");
    idle(table, "pairs", &known::idle_branching(rng, 10), "");
    let known = known::idle_standing(rng, known::pairs(10, 0));
    idle(table, "pairs", &known, NOT_BRANCHING);
}

fn idle_choices(table: &Table, choices: u16) {
    let free = known::free(choices, 0, 2 * choices);
    let known = known::idle_standing(&mut rng("idle choices"), free);
    idle(table, "choices", &known, NOT_BRANCHING);
}

pub fn table(word: String, full: bool) {
    let mut opponents = opponents().to_vec();
    match clingo::installed() {
        true => opponents.push((Program::Clingo, "clingo", 2)),
        false => println!("clingo is not installed, and has no column.\n"),
    }
    let table = &Table {
        word,
        opponents,
        once: false,
    };
    let once = &table.once();
    table.head();
    few_left(once, 20, false);
    for over_helpers in [false, true] {
        few_left(table, 14, over_helpers);
    }
    all_banned(table, 14);
    idle_pairs(table);
    idle_choices(table, 14);
    if full {
        few_left(once, 20, true);
        all_banned(once, 20);
        idle_choices(once, 20);
    }
}
