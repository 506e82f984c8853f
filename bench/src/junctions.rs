//! Books with more facts than a byte has numbers for (document 02, l): 1,024 rules and g = 20, from one
//! state to 2^20, whose records have up to as many bytes as there can be.

use crate::{opponents, rng, Table, FALLING};
use lesson_tests::book::{width, MAX_ATOMS};
use lesson_tests::expected::place_of;
use lesson_tests::known::{self, Known};

/// A tram interchange, and the most facts.
const FACTS: [u16; 2] = [700, MAX_ATOMS];

/// The rows of a book whose fact of this number stands in no state.
fn every_search(table: &Table, name: &str, known: &Known, never: u16) {
    table.list(name, known);
    table.one(name, known);
    let answer = place_of(known.branching, 0, known.count);
    let name = format!("{name}, k = {}", known.count);
    table.placed(&name, known, never, answer);
}

/// The fact of a book that no rule speaks of.
fn unspoken(known: &Known) -> u16 {
    let speaks = |fact: u16| {
        let rules = known.book.rules.iter();
        let mut literals = rules.flat_map(|rule| rule.body.iter().chain([&rule.head]));
        literals.any(|literal| literal.atom == fact)
    };
    let mut facts = 0..known.book.atoms;
    facts.find(|&fact| !speaks(fact)).expect("there is one")
}

/// The searches of 1,024 rules, the settings of 20 facts, of which so many may stand or not.
fn searches(table: &Table, choices: &[u16]) {
    for facts in FACTS {
        let name = format!("junction of {facts} facts, {} bytes", width(facts));
        for &choices in choices {
            let known = known::junction(&mut rng("junction"), choices, facts);
            every_search(table, &name, &known, unspoken(&known));
        }
    }
}

/// The calls that do not search, and listings of few rules in the longest records.
fn others(table: &Table) {
    for facts in FACTS {
        let name = format!("junction of {facts} facts");
        let known = known::junction(&mut rng("junction"), 5, facts);
        table.check(&name, &known.book);
        table.test(&name, &known.planted(0));
        let name = format!("{} bytes", width(facts));
        table.list(&format!("rising, {name}"), &known::free(14, 0, facts));
        let falling = known::followed(14, 14, facts, FALLING);
        table.list(&format!("falling, {name}"), &falling);
    }
}

pub fn table(word: String, full: bool) {
    let table = &Table {
        word,
        opponents: opponents().to_vec(),
        once: false,
    };
    table.head();
    others(table);
    let once = &table.once();
    searches(once, if full { &[0, 5, 10, 15, 20] } else { &[0, 10] });
}
