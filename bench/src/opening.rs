//! What the searching calls take before they search: books of 1,024 rules with 16 body literals each,
//! in a chain of layers whose last one is driven. Every branching fact is settled, so that one state
//! is stable and little is left to search.

use crate::{best_rounds, opponents, rng, shown, Program, FEWEST, MOST, SEED};
use lesson_tests::book::{not, plain, width, Book, Literal, BYTE_ATOMS};
use lesson_tests::expected::{branching, counts, place_of, yes_or_no};
use lesson_tests::ffi::{self, Call};
use lesson_tests::oracle::{self, Driven};
use lesson_tests::rng::Rng;
use std::hint::black_box;
use std::slice::from_ref;

const RULES: usize = 1_024;
const BODY: usize = 16;

/// The fact that has no rule and never stands. The facts that branch are the first ones, this among
/// them.
const NEVER: u16 = 0;

/// Where no rule can displace another, the odd facts up to this one stand by a body that always
/// holds.
const STARTED: u16 = 32;

/// The stable state's setting of the branching facts, fact f being bit f: the odd ones stand.
const ODD: usize = 0xAAAA_AAAA;

/// What a buffer has before a call.
const FILLER: u8 = 0xA5;

fn is_odd(fact: u16) -> bool {
    fact % 2 == 1
}

/// The facts that have rules, up to `last`.
fn facts(last: u16) -> Vec<u16> {
    (1..=last).collect()
}

/// The odd ones of them, below `end`.
fn odd_facts(end: u16) -> Vec<u16> {
    (1..end).filter(|&fact| is_odd(fact)).collect()
}

/// What a book is to have.
#[derive(Clone, Copy)]
struct Sizes {
    layers: usize,
    /// Whether each rule has one with the opposite head in a layer below or above, or none has.
    displacing: bool,
    /// Document 01: g.
    branching: usize,
}

impl Sizes {
    fn rules_of_a_layer(self) -> usize {
        RULES / self.layers
    }

    fn last_layer(self) -> usize {
        self.layers - 1
    }

    /// The last of the facts that have rules. Where rules displace, each layer has one rule for each
    /// fact.
    fn last_fact(self) -> u16 {
        match self.displacing {
            true => self.rules_of_a_layer() as u16,
            false => BYTE_ATOMS - 1,
        }
    }

    /// A body that holds in every stable state. At g = 0 it must be empty: a plain one would need
    /// another such rule.
    fn start(self) -> Vec<Literal> {
        match self.branching {
            0 => Vec::new(),
            _ => vec![not(NEVER); BODY],
        }
    }

    /// A body that holds where the branching facts are set like the bits of `setting`, and every fact
    /// of `others` stands: half of it is of these, or none where there are none.
    fn body(self, rng: &mut Rng, setting: usize, others: &[u16]) -> Vec<Literal> {
        let literal = |at: usize| {
            if self.branching == 0 || (at % 2 == 1 && !others.is_empty()) {
                return plain(rng.pick(others));
            }
            let atom = rng.below(self.branching);
            Literal {
                atom: atom as u16,
                negated: setting >> atom & 1 == 0,
            }
        };
        (0..BODY).map(literal).collect()
    }

    /// Where rules displace, the signs of a fact's heads take turns from layer to layer. At g = 0
    /// only those of the last layer differ: all facts in a body that can displace branch, so its
    /// bodies are empty.
    fn head(self, layer: usize, fact: u16) -> Literal {
        let turned = match self.branching {
            0 => layer == self.last_layer(),
            _ => layer % 2 == 1,
        };
        Literal {
            atom: fact,
            negated: self.displacing && turned != is_odd(fact),
        }
    }

    /// The body of a rule where none can displace: the odd facts stand, and the others do not.
    fn lone_body(self, rng: &mut Rng, at: usize, fact: u16) -> Vec<Literal> {
        match is_odd(fact) {
            true if at < STARTED.into() => self.start(),
            true => self.body(rng, ODD, &odd_facts(fact.max(STARTED))),
            false => {
                // It needs NEVER, so its other literals do not deny it.
                let setting = rng.below(1 << self.branching) | 1;
                let mut body = self.body(rng, setting, &facts(self.last_fact()));
                body[BODY - 1] = plain(NEVER);
                body
            }
        }
    }

    /// The body of a rule where all can displace or be displaced. Those of the last layer settle the
    /// branching facts; of the others about half hold in the stable state.
    fn displacing_body(self, rng: &mut Rng, layer: usize, fact: u16) -> Vec<Literal> {
        let settled = self.branching == 0 || usize::from(fact) < self.branching;
        if settled && layer == self.last_layer() {
            return self.start();
        }
        let fits = rng.chance(50);
        let setting = match fits {
            true => ODD,
            false => rng.below(1 << self.branching),
        };
        let others = match (self.branching, fits) {
            (0, true) => odd_facts(self.last_fact()),
            (0, false) => facts(self.last_fact()),
            _ => Vec::new(),
        };
        self.body(rng, setting, &others)
    }

    fn book(self) -> Book {
        let rng = &mut rng("opening");
        let mut book = Book::new(self.last_fact() + 1, self.layers as u8);
        for later in 1..self.layers as u8 {
            book = book.arrow(later - 1, later);
        }
        for at in 0..RULES {
            let layer = at / self.rules_of_a_layer();
            let fact = 1 + (at % usize::from(self.last_fact())) as u16;
            let body = match self.displacing {
                true => self.displacing_body(rng, layer, fact),
                false => self.lone_body(rng, at, fact),
            };
            book = book.rule(layer as u8, self.head(layer, fact), &body);
        }
        book
    }
}

/// The name of a call, and the seconds that it takes in each archive, the engine's first.
type Timed = (&'static str, Vec<f64>);

/// A book's bytes, its driven layer, and its stable state.
struct Long {
    sizes: Sizes,
    bytes: Vec<u8>,
    layer: u32,
    state: Vec<bool>,
    /// The state as a record.
    record: Vec<u8>,
}

impl Long {
    /// The book, whose g and stable state the oracle confirms.
    fn new(sizes: Sizes) -> Long {
        let book = sizes.book();
        let (bytes, layer) = (book.bytes(), sizes.last_layer() as u8);
        let mut record = vec![0; width(book.atoms)];
        let given = ffi::one_in_place(&bytes, layer.into(), &mut record);
        assert_eq!(given, branching(sizes.branching), "one state");
        let state = oracle::state(&record, book.atoms).expect("it is a record");
        let driven = Driven::new(&book, layer.into());
        assert_eq!(driven.branching_count(), sizes.branching, "g");
        assert!(driven.stable(&state), "the state is not stable");
        Long {
            sizes,
            bytes,
            layer: layer.into(),
            state,
            record,
        }
    }

    /// Seconds for a call of each archive. All give this answer, and write these bytes and none past
    /// them. `call` is made of the stable state's record and an archive's buffer.
    fn times<F>(&self, answer: u64, written: &[u8], call: F) -> Vec<f64>
    where
        F: for<'b> Fn(&'b [u8], &'b mut [u8]) -> Call<'b>,
    {
        let archives = archives();
        let mut buffers = vec![vec![FILLER; written.len() + 1]; archives.len()];
        let times = best_rounds(archives.len(), &mut |at| {
            let call = call(&self.record, &mut buffers[at]);
            let given = archives[at].answer(black_box(&self.bytes), self.layer, call);
            assert_eq!(given, answer);
        });
        let expected = [written, &[FILLER]].concat();
        let same = buffers.iter().all(|buffer| *buffer == expected);
        assert!(same, "other bytes are written");
        times
    }

    /// The check, and the test of the stable state.
    fn check_and_test(&self) -> [Timed; 2] {
        let check = self.times(0, &[], |_, _| Call::Check);
        let test = self.times(yes_or_no(true), &[], |record, _| Call::Test(Some(record)));
        [("check", check), ("test", test)]
    }

    /// The calls that search. The place is that of the last fact.
    fn searches(&self) -> [Timed; 3] {
        let (g, last) = (self.sizes.branching, self.state.len() - 1);
        let listing = oracle::listing(last as u16 + 1, from_ref(&self.record));
        let place = place_of(g, self.state[last].into(), 1);
        let list = self.times(counts(g, 1), &listing, |_, to| Call::List(Some(to)));
        let one = self.times(branching(g), &self.record, |_, to| Call::One(Some(to)));
        let place = self.times(place, &[], |_, _| Call::Place(last as u32));
        [("list", list), ("one", one), ("place", place)]
    }

    /// The rows of the book. At g = 0 there is one setting: the searches are compared with the check
    /// and the test of its state.
    fn rows(&self) {
        let mut closed = None;
        if self.sizes.branching == 0 {
            let calls = self.check_and_test();
            closed = Some(calls.iter().map(|(_, times)| times[0]).sum());
            calls.iter().for_each(|call| self.row(call, None));
        }
        let searches = self.searches();
        searches.iter().for_each(|call| self.row(call, closed));
    }

    /// A row for a call, with the engine's time against `closed` where it is given.
    fn row(&self, (call, times): &Timed, closed: Option<f64>) {
        let Sizes {
            layers, branching, ..
        } = self.sizes;
        let displacing = if self.sizes.displacing { "all" } else { "none" };
        let (engine, before) = (times[0], times.get(1).copied());
        let ratio = |other| format!("{:.2}", engine / other);
        let columns = [
            shown(engine),
            before.map_or("-".into(), shown),
            before.map_or("-".into(), ratio),
            closed.map_or("-".into(), ratio),
        ];
        let columns = columns.join(" | ");
        println!("| {layers} | {displacing} | {branching} | {call} | {columns} |");
    }
}

/// The engine, and the second archive where there is one.
fn archives() -> Vec<Program> {
    let others = opponents().iter().map(|&(program, ..)| program);
    let before = others.filter(|&program| program == Program::Before);
    [Program::Engine].into_iter().chain(before).collect()
}

/// The table of all books. In one layer no rule can displace another.
pub fn table() {
    println!("Time of a call, best of {FEWEST} to {MOST} rounds, seed {SEED}, on books of {RULES} rules.");
    println!(
        "Each has {BODY} body literals; at g = 0 those by which the first facts stand have none,"
    );
    println!("and so have those that can displace.\n");
    print!("| layers | displacing | g | call | engine |");
    println!(" before | ratio | open / (check + test) |");
    println!("{}|", "|---".repeat(8));
    for (layers, displacing) in [(1, false), (8, false), (8, true), (32, false), (32, true)] {
        for branching in [0, 4, 8, 12, 20] {
            let sizes = Sizes {
                layers,
                displacing,
                branching,
            };
            Long::new(sizes).rows();
        }
    }
}
