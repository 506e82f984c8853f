//! Sets of causes, and counts of them: what the tests of several calls share.

use crate::book::MAX_ATOMS;
use crate::drive::{at, Drive};
use crate::known::{self, Known};
use crate::rng::{seed, Rng};
use crate::shapes::{absent_layers, broken, EVERY_SHAPE, NO_LAYERS};
use std::fmt;

/// The causes in the order in which they are tested: document 02, (h) puts 19 right after 9, and (e) puts
/// 16 and 17 before 11.
pub const IN_ORDER: [u64; 17] = [1, 2, 3, 4, 5, 6, 7, 8, 9, 19, 10, 16, 17, 11, 12, 13, 14];

/// The answers that a tally of causes has room for, 0 for none.
pub const ANSWERS: usize = 20;

/// Some of the causes. Bit i is for the one at place i of the order.
#[derive(Clone, Copy)]
pub struct Causes(u32);

fn bit(cause: u64) -> u32 {
    let place = IN_ORDER.iter().position(|&other| other == cause);
    1 << place.expect("a cause")
}

/// Every set of these causes, the empty one first.
pub fn every_set(causes: &[u64]) -> impl Iterator<Item = Causes> {
    let all = causes.iter().fold(0, |all, &cause| all | bit(cause));
    (0..1u32 << IN_ORDER.len())
        .filter(move |set| set & !all == 0)
        .map(Causes)
}

impl Causes {
    pub fn has(self, cause: u64) -> bool {
        self.0 & bit(cause) != 0
    }

    /// The one that is tested first.
    pub fn first(self) -> Option<u64> {
        IN_ORDER.into_iter().find(|&cause| self.has(cause))
    }

    /// Those of the book, causes 1 to 8, as `shapes::broken` takes them.
    pub fn of_the_book(self) -> u8 {
        self.0 as u8
    }

    /// A drive of a book with so many layers: the right layer, or one for cause 9, and nothing
    /// switched off, or a set for cause 19.
    pub fn drive(self, rng: &mut Rng, layers: u8, right: u8) -> Drive {
        let layer = match self.has(9) {
            true => rng.pick(&NO_LAYERS),
            false => right.into(),
        };
        at(layer).off(match self.has(19) {
            true => absent_layers(rng, layers),
            false => 0,
        })
    }
}

/// What a call that writes one record is lent, beside a candidate.
pub struct OneRecord {
    /// The lawful book.
    pub known: Known,
    /// The bytes lent for it.
    pub book: Vec<u8>,
    pub drive: Drive,
    pub buffer: Vec<u8>,
}

impl Causes {
    /// A call for a record of three bytes, to which these causes apply, 10 aside: the book has too many
    /// branching facts for 12 and no state for 14, and the buffer is too short for 13.
    pub fn one_record(self, rng: &mut Rng) -> OneRecord {
        let mut known = known::widened(
            match self.has(12) {
                true => known::displacing_pairs(10, 1),
                false => known::displacing_pairs(2, 0),
            },
            22,
        );
        if self.has(14) {
            known = known::quarrelled(known);
        }
        let book = broken(rng, &known.book, self.of_the_book());
        let drive = self.drive(rng, known.book.layers, known.layer);
        let length = match self.has(13) {
            true => rng.below(3),
            false => rng.range(3, 9),
        };
        let buffer = rng.bytes(length);
        OneRecord {
            known,
            book,
            drive,
            buffer,
        }
    }
}

impl fmt::Display for Causes {
    fn fmt(&self, f: &mut fmt::Formatter) -> fmt::Result {
        let causes = IN_ORDER.into_iter().filter(|&cause| self.has(cause));
        let causes: Vec<u64> = causes.collect();
        write!(f, "causes {causes:?}")
    }
}

/// How many books of every shape a call is asked about, and what it may answer.
pub struct AnyBytes<'a> {
    /// Names the books' stream.
    pub name: &'a str,
    pub large: usize,
    pub other: usize,
    /// The causes that must come up, 0 for none, each `least` times; no others may.
    pub given: &'a [usize],
    pub least: usize,
}

/// A book of a shape, from its generator.
type Take = fn(&mut Rng, fn(&mut Rng) -> Vec<u8>) -> Vec<u8>;

impl AnyBytes<'_> {
    /// Asks a call about books of every shape. `ask` takes what to say in a message and the book,
    /// and gives the cause, or 0.
    pub fn ask(&self, take: Take, mut ask: impl FnMut(&mut Rng, &str, &[u8]) -> u64) {
        let (seed, name) = (seed(), self.name);
        let mut rng = Rng::named(seed, name);
        let mut tally = [0; ANSWERS];
        let mut books = 0;
        for (shape, generate) in EVERY_SHAPE {
            let number = match shape.starts_with("large") {
                true => self.large,
                false => self.other,
            };
            for index in 0..number {
                let bytes = take(&mut rng, generate);
                let what = format!("seed {seed}, {shape}, book {index}");
                tally[ask(&mut rng, &what, &bytes) as usize] += 1;
            }
            books += number;
        }
        println!("seed {seed}, {name}: {books} books, answers 0 to 19: {tally:?}");
        for (cause, &times) in tally.iter().enumerate() {
            let enough = match self.given.contains(&cause) {
                true => times >= self.least,
                false => times == 0,
            };
            assert!(enough, "{cause}, {times} times: {tally:?}");
        }
    }
}

/// The facts and the layers that a book's fields give, lawful or not: what a host would go by. Numbers of
/// facts that are far too large are taken for smaller ones.
pub fn fields(book: &[u8]) -> (usize, usize) {
    let field = |at: usize| book.get(at).copied().unwrap_or(1);
    let facts = u16::from_be_bytes([field(5), field(6)]) % (2 * MAX_ATOMS);
    (facts.into(), field(7).into())
}
