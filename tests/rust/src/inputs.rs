//! The fault trial's inputs: a drive of a book, and questions to all calls, each with what must
//! come of it. Seed and number give the input, so that one of them can be tried again alone.

use crate::book::{hex, Book, BYTE_ATOMS, LONGEST_RECORD, MAX_ATOMS, WIDE};
use crate::causes::fields;
use crate::conditions;
use crate::drive::Drive;
use crate::expected::yes_or_no;
use crate::ffi::Outcome;
use crate::known::{self, EVERY_FOLLOWING};
use crate::orders::{Order, Ordered};
use crate::plain;
use crate::reader;
use crate::rng::Rng;
use crate::shapes::{self, Layering, EVERY_SHAPE};
use crate::truth::Truth;
use std::fmt;

pub const CALLS: [&str; 7] = ["check", "test", "list", "one", "place", "nearest", "count"];

/// A call, with what it takes beside the book and the drive.
#[derive(Clone, Debug, PartialEq, Eq)]
pub enum Question {
    Check,
    Test { candidate: Vec<u8> },
    List { buffer: Vec<u8> },
    One { buffer: Vec<u8> },
    Place { fact: u32 },
    Nearest { candidate: Vec<u8>, buffer: Vec<u8> },
    Count { condition: Vec<u8> },
}

impl Question {
    /// Its place in `CALLS`.
    pub fn call(&self) -> usize {
        match self {
            Question::Check => 0,
            Question::Test { .. } => 1,
            Question::List { .. } => 2,
            Question::One { .. } => 3,
            Question::Place { .. } => 4,
            Question::Nearest { .. } => 5,
            Question::Count { .. } => 6,
        }
    }

    /// The candidate or the condition, where the call is lent one.
    pub fn read(&self) -> Option<&[u8]> {
        match self {
            Question::Test { candidate } | Question::Nearest { candidate, .. } => Some(candidate),
            Question::Count { condition } => Some(condition),
            _ => None,
        }
    }

    /// The buffer, where the call is lent one.
    pub fn buffer(&self) -> Option<&[u8]> {
        match self {
            Question::List { buffer }
            | Question::One { buffer }
            | Question::Nearest { buffer, .. } => Some(buffer),
            _ => None,
        }
    }
}

impl fmt::Display for Question {
    fn fmt(&self, f: &mut fmt::Formatter) -> fmt::Result {
        write!(f, "lesson_{}", CALLS[self.call()])?;
        if let Question::Place { fact } = self {
            write!(f, ", fact {fact}")?;
        }
        if let Some(text) = self.read() {
            write!(f, ", lent {}", hex(text))?;
        }
        if let Some(buffer) = self.buffer() {
            write!(f, ", buffer of {} bytes, {}", buffer.len(), hex(buffer))?;
        }
        Ok(())
    }
}

/// What must come of a question.
#[derive(Clone, Debug, PartialEq, Eq)]
pub struct Wanted {
    pub answer: u64,
    /// The buffer after the call. Empty where the call has none.
    pub buffer: Vec<u8>,
}

impl Wanted {
    fn answer(answer: u64) -> Wanted {
        let buffer = Vec::new();
        Wanted { answer, buffer }
    }

    fn outcome((answer, buffer): Outcome) -> Wanted {
        Wanted { answer, buffer }
    }
}

/// A question and what must come of it.
pub type Asked = (Question, Wanted);

pub struct Input {
    pub number: u64,
    pub book: Vec<u8>,
    pub drive: Drive,
    pub questions: Vec<Asked>,
    /// A lawful book with constraints without these.
    unconstrained: Option<Vec<u8>>,
}

/// The longest listing of a book that is tried: 8 branching facts in the longest records.
const LONGEST_LISTING: usize = 11 + (1 << 8) * LONGEST_RECORD;

impl Input {
    pub fn new(seed: u64, number: u64) -> Input {
        let mut rng = Rng::named(seed, &format!("fault trial {number}"));
        let (book, drive) = loop {
            let book = book(&mut rng);
            let drive = shapes::any_drive(&mut rng, &book);
            if !long_search(&book, drive) {
                break (book, drive);
            }
        };
        let unconstrained = unconstrained(&book);
        let mut questions = questions(&mut rng, &book, drive);
        if let Some(rest) = &unconstrained {
            questions.extend(forbidden(&mut rng, &book, rest, drive));
        }
        Input {
            number,
            book,
            drive,
            questions,
            unconstrained,
        }
    }

    /// Whether it is a lawful book with constraints.
    pub fn has_constraints(&self) -> bool {
        self.unconstrained.is_some()
    }

    /// Whether the book has facts whose numbers take more than a byte.
    pub fn is_wide(&self) -> bool {
        fields(&self.book).0 > BYTE_ATOMS.into()
    }

    /// Whether only a constraint keeps a candidate from being stable.
    pub fn forbids(&self, candidate: &[u8]) -> bool {
        let yes = yes_or_no(true);
        let rest = self.unconstrained.as_deref();
        rest.is_some_and(|rest| Truth::new(rest, self.drive).test(candidate) == yes)
            && Truth::new(&self.book, self.drive).test(candidate) != yes
    }
}

/// A lawful book with constraints without these.
fn unconstrained(book: &[u8]) -> Option<Vec<u8>> {
    let read = reader::read(book).ok()?;
    let rest = || read.without_constraints().bytes();
    read.has_constraints().then(rest)
}

/// A question about a state that only constraints keep from being stable, if there is one.
fn forbidden(rng: &mut Rng, book: &[u8], rest: &[u8], drive: Drive) -> Option<Asked> {
    let (facts, _) = fields(book);
    let (truth, rules_alone) = (Truth::new(book, drive), Truth::new(rest, drive));
    let mut records = records(&rules_alone, facts.div_ceil(8));
    records.retain(|record| truth.test(record) == yes_or_no(false));
    let candidate = records.get(rng.below(records.len().max(1)))?.clone();
    Some((
        Question::Test { candidate },
        Wanted::answer(yes_or_no(false)),
    ))
}

/// Of a book with few facts every search is short.
fn long_search(book: &[u8], drive: Drive) -> bool {
    plain::branching_count(book, drive).is_ok_and(|branching| branching > 8)
}

/// Any bytes: lawful books of all kinds, damaged ones, and such as are refused by each cause.
fn book(rng: &mut Rng) -> Vec<u8> {
    match rng.below(100) {
        0..=2 => Vec::new(),
        3 => shapes::large_lawful(rng),
        4 => shapes::large_damaged(rng),
        5..=8 => too_many_branching(rng).bytes(),
        9..=19 => many_facts(rng).bytes(),
        20..=54 => searched(rng).bytes(),
        55..=69 => {
            let cause = rng.below(8);
            shapes::with_causes(rng, 1 << cause)
        }
        _ => loop {
            let (name, generate) = rng.pick(&EVERY_SHAPE);
            if !name.starts_with("large") {
                return shapes::quick(rng, generate);
            }
        },
    }
}

/// A small lawful book with something to search in it.
fn searched(rng: &mut Rng) -> Book {
    let layering = rng.pick(&[
        Layering::Chain,
        Layering::Diamond,
        Layering::Branches,
        Layering::Any,
    ]);
    match rng.below(7) {
        0 => shapes::choices(rng),
        1 => shapes::crowded(rng, layering),
        2 => shapes::leaning(rng, layering),
        3..=4 => shapes::constrained(rng, layering),
        _ => shapes::layered(rng, layering),
    }
}

/// A lawful book of up to as many facts as there can be, few of which branch.
fn many_facts(rng: &mut Rng) -> Book {
    let few = rng.pick(&[9, 15, 16, 17, 64, 65, BYTE_ATOMS - 1, BYTE_ATOMS]);
    let many = rng.pick(&WIDE);
    let atoms = rng.pick(&[few, many]);
    match rng.below(8) {
        0 => Book::new(atoms, rng.range(1, 32) as u8),
        1 => {
            let following = rng.pick(&EVERY_FOLLOWING);
            let choices = rng.range(1, usize::from(atoms / 3).min(4)) as u16;
            known::followed(choices, choices, atoms, following).book
        }
        2 => known::quarrelled(known::free(rng.below(4) as u16, 2, atoms - 1)).book,
        3 => {
            let ordered = Ordered {
                order: rng.pick(&Order::ALL),
                choices: rng.range(1, usize::from(atoms / 2).min(6)) as u16,
                idle: rng.below(2) as u16,
                cuts: rng.below(2) as u16,
                atoms,
                at_the_end: rng.chance(50),
            };
            ordered.known(rng).book
        }
        4 => {
            let choices = rng.range(1, 5) as u16;
            let constraints = rng.pick(&[1, 8, 900]);
            let atoms = rng.pick(&[BYTE_ATOMS, MAX_ATOMS]);
            known::randomly_constrained(rng, choices, constraints, atoms).book
        }
        5 => {
            let small = searched(rng);
            let layer = rng.below(small.layers.into()) as u8;
            known::colliding(rng, &small, layer).book
        }
        6 => {
            let known = known::pairs(rng.range(1, 4) as u16, 0);
            known::scattered(rng, known, atoms).book
        }
        _ => {
            let small = searched(rng);
            let layer = rng.below(small.layers.into()) as u8;
            known::spread(rng, &small, layer, atoms).book
        }
    }
}

/// A lawful book with more than 20 branching facts, in one of its layers at least.
fn too_many_branching(rng: &mut Rng) -> Book {
    let known = match rng.below(5) {
        0 => known::pairs(10, 1),
        1 => known::displacing_pairs(rng.range(10, 16) as u16, 1),
        2 => known::single(rng.range(21, 40) as u16, rng.chance(50)),
        3 => known::quarrelled(known::pairs(11, 0)),
        _ => known::pairs(rng.pick(&[BYTE_ATOMS, MAX_ATOMS]) / 2, 0),
    };
    known.book
}

/// Every call is asked, and so that where the book is lawful each of its own causes comes up.
pub fn questions(rng: &mut Rng, book: &[u8], drive: Drive) -> Vec<Asked> {
    let truth = Truth::new(book, drive);
    let (facts, _) = fields(book);
    let width = facts.div_ceil(8);
    let records = records(&truth, width);
    let length = 11 + records.len() * width;
    let cause = reader::first_cause(book);
    let mut questions = vec![(Question::Check, Wanted::answer(cause.into()))];
    let [stable, state, wrong] = candidates(rng, facts, width, &records);
    let any_room = rng.range(0, width + 9);
    let too_few = width.saturating_sub(1);
    for (candidate, length) in [
        (&stable, width),
        (&state, any_room),
        (&state, too_few),
        (&wrong, any_room),
    ] {
        let (candidate, buffer) = (candidate.clone(), rng.bytes(length));
        let wanted = Wanted::outcome(truth.nearest(&candidate, &buffer));
        questions.push((Question::Nearest { candidate, buffer }, wanted));
    }
    for candidate in [stable, state, wrong] {
        let answer = truth.test(&candidate);
        questions.push((Question::Test { candidate }, Wanted::answer(answer)));
    }
    let any_length = rng.range(0, length + 40) * rng.below(2);
    let branching = plain::branching_count(book, drive).unwrap_or(0);
    let room_for_all = 11 + width * ((1 << branching.min(8)) - rng.below(2));
    for length in [length, length - 1, any_length, room_for_all] {
        let buffer = rng.bytes(length);
        let wanted = Wanted::outcome(truth.list(&buffer));
        questions.push((Question::List { buffer }, wanted));
    }
    for length in [width, too_few, any_room] {
        let buffer = rng.bytes(length);
        let wanted = Wanted::outcome(truth.one(&buffer));
        questions.push((Question::One { buffer }, wanted));
    }
    for fact in [
        rng.below(facts.max(1)) as u32,
        rng.below(facts.max(1)) as u32,
        rng.pick(&[facts as u32, MAX_ATOMS.into(), 1 << 16, 1 << 31, u32::MAX]),
    ] {
        let wanted = Wanted::answer(truth.place(fact));
        questions.push((Question::Place { fact }, wanted));
    }
    for _ in 0..4 {
        let condition = conditions::any_bytes(rng, (facts as u16).max(1));
        let wanted = Wanted::answer(truth.count(&condition));
        questions.push((Question::Count { condition }, wanted));
    }
    questions
}

/// The records of the stable states; none where the listing is refused.
fn records(truth: &Truth, width: usize) -> Vec<Vec<u8>> {
    let (answer, listing) = truth.list(&[0; LONGEST_LISTING]);
    match answer & 0xFF {
        0 => {
            let records = listing[11..].chunks_exact(width);
            let count = (answer >> 16) as usize;
            records.take(count).map(<[u8]>::to_vec).collect()
        }
        _ => Vec::new(),
    }
}

/// A stable state where there is one, any state, and what is no state.
fn candidates(rng: &mut Rng, facts: usize, width: usize, records: &[Vec<u8>]) -> [Vec<u8>; 3] {
    let spare = 8 * width - facts;
    let mut state = rng.bytes(width);
    if let Some(last) = state.last_mut() {
        *last &= (0xFF00u32 >> (8 - spare)) as u8;
    }
    let stable = match records {
        [] => state.clone(),
        _ => records[rng.below(records.len())].clone(),
    };
    let mut wrong = state.clone();
    match rng.below(4) {
        0 if spare > 0 => wrong[width - 1] |= 1 << rng.below(spare),
        1 => wrong.push(0),
        2 => wrong.clear(),
        _ => wrong.truncate(width.saturating_sub(1)),
    }
    [stable, state, wrong]
}
