//! Times the calls of the archive beside two Rust programs, on the same books in one run, and prints
//! tables in Markdown. `plain` makes the same search in the same forms: one pass to count, one to
//! write, passes over all rules. `bitset` is free of the forms and tries every setting once. Books with
//! constraints have a second table, with clingo too where it is installed.
//!
//! Run it with `cargo run --release`; with `-- --full` the books that take long come too, with
//! `-- --only WORD` only the rows that have the word in their name, and with `-- --constraints` the
//! second table alone. Six others come alone: with `-- --opening` the one of how long books open, with
//! `-- --conditions` the one of counts that fit a condition beside the counting pass alone, with
//! `-- --junctions` the one of books with many facts, with `-- --one` the one of one state wherever the
//! branching facts are, with `-- --nearest` the one of the state closest to a candidate, and with
//! `-- --orders` the one of listings whose records come in every order, where `--limit SECONDS` leaves out
//! an archive that would take longer. Where LESSON_BEFORE_DIR names a folder
//! with another liblesson.a, every row times that one too, but for the books that it refuses; `before` says
//! which arguments its calls take.

mod before;
mod clingo;
mod conditions;
mod constraints;
mod junctions;
mod nearest;
mod one;
mod opening;
mod orders;

use lesson_tests::book::{width, Book, BYTE_ATOMS, LONGEST_RECORD};
use lesson_tests::drive::at;
use lesson_tests::expected::{branching, differing, NO_STABLE_STATE};
use lesson_tests::ffi::{self, Call};
use lesson_tests::known::{self, Ending, Following, Known, Slow};
use lesson_tests::orders::{Order, Ordered};
use lesson_tests::rng::Rng;
use lesson_tests::shapes::{self, Planted};
use lesson_tests::{bitset, oracle, plain, reader};
use std::env;
use std::hint::black_box;
use std::time::{Duration, Instant};

/// The fewest and the most rounds of a row, and the time after which it begins no other than the
/// fewest.
const FEWEST: u32 = 2;
const MOST: u32 = 20;
const BUDGET: Duration = Duration::from_millis(300);

/// The shortest time that is measured at once.
const SHORTEST: Duration = Duration::from_millis(10);

/// The books are the same in every run, so that runs can be compared.
const SEED: u64 = 20_261_115;

#[derive(Clone, Copy, PartialEq, Eq)]
enum Program {
    Engine,
    Plain,
    Bits,
    /// The second archive.
    Before,
    Clingo,
}

/// A program that the engine is compared with, the name of its column, and the digits that a ratio
/// has behind its point.
type Opponent = (Program, &'static str, usize);

const OPPONENTS: &[Opponent] = &[
    (Program::Plain, "plain Rust", 2),
    (Program::Bits, "bit sets", 1),
    (Program::Before, "before", 2),
];

/// The same without the second archive where there is none.
fn opponents() -> &'static [Opponent] {
    match before::LINKED {
        true => OPPONENTS,
        false => &OPPONENTS[..2],
    }
}

impl Program {
    /// Its answer to a call. Nothing is switched off.
    fn answer(self, book: &[u8], layer: u32, call: Call) -> u64 {
        let drive = at(layer);
        match self {
            Program::Engine => ffi::answer(Some(book), drive, call),
            Program::Before => before::answer(book, drive, call),
            Program::Clingo => clingo::answer(book, layer, call),
            Program::Plain => match call {
                Call::Check => reader::first_cause(book).into(),
                Call::Test(candidate) => plain::test(book, drive, candidate.unwrap_or_default()),
                Call::List(buffer) => plain::list(book, drive, buffer.unwrap_or_default()),
                Call::One(buffer) => plain::one(book, drive, buffer.unwrap_or_default()),
                Call::Place(fact) => plain::place(book, drive, fact),
                Call::Nearest(candidate, buffer) => {
                    let (candidate, buffer) = slices(candidate, buffer);
                    plain::nearest(book, drive, candidate, buffer)
                }
                Call::Count(condition) => plain::count(book, drive, condition.unwrap_or_default()),
            },
            Program::Bits => match call {
                Call::Check => bitset::check(book),
                Call::Test(candidate) => bitset::test(book, drive, candidate.unwrap_or_default()),
                Call::List(buffer) => bitset::list(book, drive, buffer.unwrap_or_default()),
                Call::One(buffer) => bitset::one(book, drive, buffer.unwrap_or_default()),
                Call::Place(fact) => bitset::place(book, drive, fact),
                Call::Nearest(candidate, buffer) => {
                    let (candidate, buffer) = slices(candidate, buffer);
                    bitset::nearest(book, drive, candidate, buffer)
                }
                Call::Count(_) => unreachable!("no row asks the bit sets for it"),
            },
        }
    }

    /// What it has to answer where the engine has to answer so: clingo knows no g.
    fn expected(self, answer: u64) -> u64 {
        match self {
            Program::Clingo => answer & !0xFF00,
            _ => answer,
        }
    }
}

/// A candidate and a buffer, empty where they are NULL.
fn slices<'a>(
    candidate: Option<&'a [u8]>,
    buffer: Option<&'a mut [u8]>,
) -> (&'a [u8], &'a mut [u8]) {
    (candidate.unwrap_or_default(), buffer.unwrap_or_default())
}

/// Seconds for one call, over `calls` of them.
fn time(calls: u32, run: &mut dyn FnMut()) -> f64 {
    let start = Instant::now();
    for _ in 0..calls {
        run();
    }
    start.elapsed().as_secs_f64() / f64::from(calls)
}

/// So many calls that a round is long against the clock's grain, and the time of one of them.
fn enough(run: &mut dyn FnMut()) -> (u32, f64) {
    let mut calls = 1;
    loop {
        let one = time(calls, run);
        if one * f64::from(calls) >= SHORTEST.as_secs_f64() {
            return (calls, one);
        }
        calls *= 2;
    }
}

/// Seconds for a call of each of so many programs, the best round of each. They take turns, so that
/// a disturbance meets all of them.
fn best_rounds(programs: usize, run: &mut dyn FnMut(usize)) -> Vec<f64> {
    let start = Instant::now();
    let measured: Vec<(u32, f64)> = (0..programs).map(|at| enough(&mut || run(at))).collect();
    let mut best: Vec<f64> = measured.iter().map(|&(_, one)| one).collect();
    for round in 1..MOST {
        if round >= FEWEST && start.elapsed() >= BUDGET {
            break;
        }
        for (at, best) in best.iter_mut().enumerate() {
            *best = best.min(time(measured[at].0, &mut || run(at)));
        }
    }
    best
}

/// A time in the unit that suits it.
fn shown(seconds: f64) -> String {
    match seconds {
        long if long >= 1.0 => format!("{long:.2} s"),
        some if some >= 1e-3 => format!("{:.2} ms", some * 1e3),
        short => format!("{:.2} µs", short * 1e6),
    }
}

/// What a row asks of every program, and the answer that each must give.
#[derive(Default)]
struct Asked<'a> {
    name: String,
    book: &'a [u8],
    layer: u32,
    answer: u64,
    candidate: &'a [u8],
    /// The length of a buffer that the call may write.
    buffer: usize,
}

/// A table: of all rows those that have a word in their name.
#[derive(Clone)]
struct Table {
    word: String,
    opponents: Vec<Opponent>,
    /// One round of each program, and none of the plain one, which would take far longer.
    once: bool,
}

/// Whether the second archive takes the book, which is lawful: one from before a request of document 02 may
/// refuse what that let in.
fn before_accepts(book: &[u8]) -> bool {
    before::answer(book, at(0), Call::Check) == 0
}

impl Table {
    /// The same table, with rows of one round each.
    fn once(&self) -> Table {
        Table {
            once: true,
            ..self.clone()
        }
    }

    fn head(&self) {
        println!("Time of a call, best of {FEWEST} to {MOST} rounds, seed {SEED}.");
        println!("Rows without plain Rust are of one round each.\n");
        let columns = self.opponents.iter();
        let columns: String = columns
            .map(|(_, name, _)| format!(" {name} | ratio |"))
            .collect();
        println!("| Call and book | bytes | engine |{columns}");
        println!("{}|", "|---".repeat(3 + 2 * self.opponents.len()));
    }

    /// Prints a row, and gives the buffers that the programs wrote. `call` is made of the candidate
    /// and a program's buffer.
    fn row<F>(&self, asked: Asked, call: F) -> Vec<Vec<u8>>
    where
        F: for<'b> Fn(&'b [u8], &'b mut [u8]) -> Call<'b>,
    {
        let Asked { name, book, .. } = asked;
        if !name.contains(&self.word) {
            return Vec::new();
        }
        let mut programs = vec![Program::Engine];
        programs.extend(self.opponents.iter().map(|&(program, ..)| program));
        programs.retain(|&program| match program {
            Program::Plain => !self.once,
            Program::Before => before_accepts(book),
            _ => true,
        });
        let buffers = (0..).map(|filler| vec![filler; asked.buffer]);
        let mut buffers: Vec<Vec<u8>> = buffers.take(programs.len()).collect();
        let mut run = |at: usize| {
            let call = call(asked.candidate, &mut buffers[at]);
            let given = programs[at].answer(black_box(book), asked.layer, call);
            assert_eq!(given, programs[at].expected(asked.answer), "{name}");
        };
        let times = match self.once {
            true => (0..programs.len())
                .map(|at| enough(&mut || run(at)).1)
                .collect(),
            false => best_rounds(programs.len(), &mut run),
        };
        let engine = times[0];
        print!("| {name} | {} | {} |", book.len(), shown(engine));
        for &(opponent, _, digits) in &self.opponents {
            match programs.iter().position(|&program| program == opponent) {
                Some(at) => print!(" {} | {:.digits$} |", shown(times[at]), engine / times[at]),
                None => print!(" - | - |"),
            }
        }
        println!();
        buffers
    }

    /// A row for an accepted book. The bit sets' reader is the plain one.
    fn check(&self, name: &str, book: &Book) {
        let asked = Asked {
            name: format!("check, {name}"),
            book: &book.bytes(),
            ..Asked::default()
        };
        self.row(asked, |_, _| Call::Check);
    }

    /// A row for the test of the stable state of `planted`: a yes, which no early no shortens.
    fn test(&self, name: &str, planted: &Planted) {
        let asked = Asked {
            name: format!("test, {name}"),
            book: &planted.book.bytes(),
            layer: planted.layer.into(),
            answer: 1 << 16,
            candidate: &oracle::record(&planted.state),
            ..Asked::default()
        };
        self.row(asked, |candidate, _| Call::Test(Some(candidate)));
    }

    /// A row for a listing. All write the same bytes.
    fn list(&self, name: &str, known: &Known) {
        let asked = Asked {
            name: format!("list, {name}, g = {}, k = {}", known.branching, known.count),
            book: &known.book.bytes(),
            layer: known.layer.into(),
            answer: known.answer(),
            buffer: 11 + known.count * width(known.book.atoms),
            ..Asked::default()
        };
        let listings = self.row(asked, |_, buffer| Call::List(Some(buffer)));
        let same = listings.windows(2).all(|two| two[0] == two[1]);
        assert!(same, "{name}: the listings differ");
    }

    /// A row for the first state of the book, or for the search that finds none. An older archive and
    /// clingo hand out the first that they meet.
    fn one(&self, name: &str, known: &Known) {
        let asked = Asked {
            name: format!("one, {name}, g = {}, k = {}", known.branching, known.count),
            book: &known.book.bytes(),
            layer: known.layer.into(),
            answer: match known.count {
                0 => NO_STABLE_STATE,
                _ => branching(known.branching),
            },
            buffer: LONGEST_RECORD,
            ..Asked::default()
        };
        let states = self.row(asked, |_, buffer| Call::One(Some(buffer)));
        if let Some(first) = states.first().and_then(|_| known.first()) {
            let handed_out = &states[0][..first.len()];
            assert_eq!(handed_out, first, "{name}: not the first state");
        }
    }

    /// A row for the state closest to a candidate. All write the same bytes.
    fn nearest(&self, name: &str, known: &Known, candidate: &[bool]) {
        let (g, k) = (known.branching, known.count);
        let (facts, closest) = known.nearest(candidate).expect("there is a state");
        let asked = Asked {
            name: format!("nearest, {name}, g = {g}, k = {k}, {facts} differ"),
            book: &known.book.bytes(),
            layer: known.layer.into(),
            answer: differing(g, facts),
            candidate: &oracle::record(candidate),
            buffer: closest.len(),
        };
        let states = self.row(asked, |candidate, buffer| {
            Call::Nearest(Some(candidate), Some(buffer))
        });
        let right = states.iter().all(|state| *state == closest);
        assert!(right, "{name}: not the closest state");
    }

    /// A row for the place of a fact.
    fn place(&self, name: &str, known: &Known, fact: u16) {
        let answer = known.places()[usize::from(fact)];
        self.placed(name, known, fact, answer);
    }

    /// The same where the answer is known.
    fn placed(&self, name: &str, known: &Known, fact: u16, answer: u64) {
        let place = match answer >> 16 {
            0 if known.count == 0 => "no state",
            0 => "none",
            1 => "some",
            _ => "every",
        };
        let asked = Asked {
            name: format!("place, {name}, g = {}, {place}", known.branching),
            book: &known.book.bytes(),
            layer: known.layer.into(),
            answer,
            ..Asked::default()
        };
        self.row(asked, |_, _| Call::Place(fact.into()));
    }

    /// A row for each call that searches. The place is that of the last fact.
    fn every_search(&self, name: &str, known: &Known) {
        self.list(name, known);
        self.one(name, known);
        self.place(name, known, known.book.atoms - 1);
    }
}

fn rng(name: &str) -> Rng {
    Rng::named(SEED, name)
}

fn busy(branching: u16) -> Known {
    known::busy(&mut rng("busy"), branching, BYTE_ATOMS)
}

// A free fact is set false first, so that the records of free facts rise as they are found; where
// the first facts follow these and say the opposite, they fall. A free fact has a helper that stands
// with it, and a follower where its record is to come in another order: with these, 2^20 records
// take 5 bytes where they rise, and 8 where they fall. Three bytes have no room for 2^20 records, as
// `known::free_three` says.
const FALLING: Following = Following {
    turned_round: false,
    opposite: true,
};
const REVERSED: Following = Following {
    turned_round: true,
    opposite: false,
};

fn checks_and_tests(table: &Table) {
    let largest = shapes::largest(&mut rng("largest"), BYTE_ATOMS);
    table.check("largest lawful book", &largest);
    table.check("B", &shapes::book_b());
    let planted = shapes::planted_largest(&mut rng("planted largest"), BYTE_ATOMS);
    table.test("largest lawful book", &planted);
    table.test(
        "1,024 rules, worst order for filling",
        &shapes::worst_order(BYTE_ATOMS),
    );
    let b = Planted {
        book: shapes::book_b(),
        layer: 3,
        state: vec![false, false, true],
    };
    table.test("B", &b);
}

fn searches(table: &Table) {
    table.list("displacing pairs", &known::displacing_pairs(10, 0));
    table.list("largest lawful book", &busy(10));
    table.list("largest lawful book", &busy(14));
    table.list("worst order for filling", &known::chained(5, BYTE_ATOMS));
    let leaning = known::leaning(&mut rng("leaning"), 10, 0, BYTE_ATOMS);
    table.list("1,024 rules, most lean on themselves", &leaning);
    table.list("rising, 3 bytes", &known::free(12, 0, 24));
    table.list("rising, 4 bytes", &known::free(14, 0, 28));
    table.list("falling, 6 bytes", &known::followed(14, 14, 42, FALLING));
    table.list("rising, 32 bytes", &known::free(14, 0, BYTE_ATOMS));
    table.list(
        "falling, 32 bytes",
        &known::followed(14, 14, BYTE_ATOMS, FALLING),
    );
    table.list("permuted, 4 bytes", &known::followed(10, 10, 30, REVERSED));
    for order in [Order::BitReversed, Order::ParityFirst, Order::Shuffled] {
        let name = format!("{}, 5 bytes", order.name());
        let ordered = Ordered::new(order, 14, 40);
        table.list(&name, &ordered.known(&mut rng("orders")));
    }
    table.one("pairs", &known::pairs(10, 0));
    table.one("largest lawful book", &busy(14));
    table.place("pairs", &known::pairs(10, 0), 0);
    let no_state = known::quarrelled(known::pairs(10, 0));
    table.place("pairs and a quarrel", &no_state, 0);
    // The facts after the branching ones always stand.
    table.place("largest lawful book", &busy(14), 14);
}

/// How the time grows: with g, with the rules at g = 10, and with k at g = 20.
fn growth(table: &Table, most_states: u16) {
    for choices in 5..=10 {
        table.list("pairs", &known::pairs(choices, 0));
    }
    for choices in 5..=10 {
        let no_state = known::quarrelled(known::pairs(choices, 0));
        table.one("pairs and a quarrel", &no_state);
    }
    for choices in 5..=10 {
        let spared = known::spared(known::pairs(choices, 0));
        table.place("pairs and a fact without rules", &spared, 2 * choices);
    }
    for rules in [8, 32, 128, 512, 1_024] {
        let known = known::sized(&mut rng("sized"), rules, BYTE_ATOMS);
        let name = format!("{rules} rules");
        table.check(&name, &known.book);
        table.test(&name, &known.planted(0));
        table.list(&name, &known);
    }
    for choices in [0, 5, 10, 15, 20]
        .into_iter()
        .filter(|&choices| choices <= most_states)
    {
        table.list("some facts free", &known::chosen(choices, 20));
    }
}

fn long_searches(table: &Table) {
    table.list("largest lawful book", &busy(16));
    table.list("largest lawful book", &busy(20));
    table.list("worst order for filling", &known::chained(10, BYTE_ATOMS));
    table.list("rising, 5 bytes", &known::free(20, 0, 40));
    let by_64ths = Ordered::new(Order::Falling, 20, 40);
    assert_eq!(by_64ths.told(), 6);
    let by_64ths = by_64ths.known(&mut rng("orders"));
    table.list("falling by 64ths, 5 bytes", &by_64ths);
    table.list("falling, 8 bytes", &known::followed(20, 20, 60, FALLING));
    table.list("rising, 32 bytes", &known::free(20, 0, BYTE_ATOMS));
    table.list(
        "falling, 32 bytes",
        &known::followed(20, 20, BYTE_ATOMS, FALLING),
    );
    table.list("permuted, 6 bytes", &known::followed(14, 14, 42, REVERSED));
    table.one("largest lawful book", &busy(20));
    table.place("largest lawful book", &busy(20), 20);
}

fn slow(choices: u16, ending: Ending) -> Slow {
    Slow {
        choices,
        ending,
        atoms: BYTE_ATOMS,
    }
}

/// The slowest lawful books that we found, with so few choices that the plain program can follow,
/// and records each of which goes past all others.
fn worst_books(table: &Table) {
    let slowest = |choices, ending| known::slowest(&mut rng("slowest"), slow(choices, ending));
    table.list("slowest", &slowest(5, Ending::Stable));
    for (name, known) in known::every_slow(&mut rng("slow"), 8, BYTE_ATOMS) {
        match known.count {
            0 => table.one(&name, &known),
            _ => table.list(&name, &known),
        }
    }
    table.place("slowest", &slowest(8, Ending::Unstable), 0);
    for choices in [14, 16] {
        let in_turn = known::front_and_end(choices, BYTE_ATOMS);
        table.list("front and end in turn, 32 bytes", &in_turn);
    }
}

/// The same kinds of books at g = 20: what the longest calls take, measured.
fn longest_searches(table: &Table) {
    use Ending::{Doubtful, Stable, Unstable};
    let table = &table.once();
    let rng = &mut rng("longest");
    let (stable, doubtful) = (slow(19, Stable), slow(17, Doubtful));
    table.list("slowest, stable", &known::slowest(rng, stable));
    table.list("slowest, doubtful", &known::slowest(rng, doubtful));
    let unstable = known::slowest(rng, slow(17, Unstable));
    table.list("slowest, unstable", &unstable);
    table.list("ring, stable", &known::ring(rng, stable));
    table.list("both ways, stable", &known::both_ways(rng, stable));
    table.list("blocks, stable", &known::blocks(rng, stable));
    table.list("blocks, doubtful", &known::blocks(rng, doubtful));
    let displaced = known::displaced(stable, 200);
    table.list("displaced, and a chain, stable", &displaced);
    table.list("worst order for filling", &known::chained(19, BYTE_ATOMS));
}

/// The standing table.
fn standing(word: String, full: bool) {
    let table = &Table {
        word,
        opponents: opponents().to_vec(),
        once: false,
    };
    table.head();
    checks_and_tests(table);
    searches(table);
    growth(table, if full { 20 } else { 15 });
    if full {
        long_searches(table);
        worst_books(table);
        longest_searches(table);
    }
}

fn main() {
    let (mut full, mut orders, mut limit) = (false, false, orders::LIMIT);
    let (mut word, mut constraints_only, mut junctions) = (String::new(), false, false);
    let (mut one_only, mut nearest_only) = (false, false);
    let mut options = env::args().skip(1);
    while let Some(option) = options.next() {
        let mut value = || {
            options
                .next()
                .unwrap_or_else(|| panic!("{option} takes a value"))
        };
        match option.as_str() {
            "--full" => full = true,
            "--only" => word = value(),
            "--constraints" => constraints_only = true,
            "--junctions" => junctions = true,
            "--opening" => return opening::table(),
            "--conditions" => return conditions::table(),
            "--one" => one_only = true,
            "--nearest" => nearest_only = true,
            "--orders" => orders = true,
            "--limit" => limit = value().parse().expect("--limit takes seconds"),
            other => panic!(
                "{other}: the options are --full, --only WORD, --constraints, --junctions, --opening, \
                 --conditions, --one, --nearest, --orders and --limit SECONDS"
            ),
        }
    }
    if one_only {
        return one::table(word, full);
    }
    if nearest_only {
        return nearest::table(word);
    }
    if orders {
        return orders::table(word, limit);
    }
    if junctions {
        return junctions::table(word, full);
    }
    if !constraints_only {
        standing(word.clone(), full);
        println!();
    }
    constraints::table(word, full);
}
