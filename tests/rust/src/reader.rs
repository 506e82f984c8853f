//! An independent reader of books, written from documents 01 and 02 alone: the first of causes 1 to
//! 8, or the book. It allocates nothing to find the cause and is the benchmark's yardstick too.

use crate::book::{Arrow, Book, Literal, Rule, MAX_ATOMS};

pub const GRANTED: u8 = 0;
pub const TOO_SHORT: u8 = 1;
pub const WRONG_VERSION: u8 = 2;
pub const WRONG_LENGTH: u8 = 3;
pub const BROKEN_SECTION: u8 = 4;
pub const OUT_OF_RANGE: u8 = 5;
pub const BAD_RECORD: u8 = 6;
pub const REPEATED_ARROW: u8 = 7;
pub const CYCLE: u8 = 8;

const MIN_BYTES: usize = 20;
const MAX_LAYERS: usize = 32;
const MAX_ARROWS: u16 = 496;
const MAX_RULES: u16 = 1024;
const MAX_BODY: usize = 16;

/// The head fields, and the sections once their ends are known to fit.
pub(crate) struct Parts<'a> {
    pub atoms: u16,
    pub layers: u8,
    pub arrows: Section<'a>,
    pub rules: Section<'a>,
}

pub(crate) struct Section<'a> {
    records: &'a [u8],
    pub count: u16,
}

/// The first cause that applies to `bytes`, or 0.
pub fn first_cause(bytes: &[u8]) -> u8 {
    match parts(bytes) {
        Err(cause) => cause,
        Ok(book) if out_of_range(&book) => OUT_OF_RANGE,
        Ok(book) if bad_record(&book) => BAD_RECORD,
        Ok(book) if repeated_arrow(&book) => REPEATED_ARROW,
        Ok(book) if cycle(&book) => CYCLE,
        Ok(_) => GRANTED,
    }
}

/// The book that `bytes` are, or the first cause that applies.
pub fn read(bytes: &[u8]) -> Result<Book, u8> {
    match first_cause(bytes) {
        GRANTED => parts(bytes).map(|book| Book {
            atoms: book.atoms,
            layers: book.layers,
            arrows: book.arrows.records().map(arrow).collect(),
            rules: book.rules.records().map(rule).collect(),
        }),
        cause => Err(cause),
    }
}

/// Causes 1 to 4.
pub(crate) fn parts(bytes: &[u8]) -> Result<Parts<'_>, u8> {
    if bytes.len() < MIN_BYTES {
        return Err(TOO_SHORT);
    }
    if bytes[0] != 1 {
        return Err(WRONG_VERSION);
    }
    if be32(&bytes[1..5]) != bytes.len() as u64 {
        return Err(WRONG_LENGTH);
    }
    let (arrows, rest) = section(&bytes[8..]).ok_or(BROKEN_SECTION)?;
    let (rules, rest) = section(rest).ok_or(BROKEN_SECTION)?;
    if !rest.is_empty() {
        return Err(BROKEN_SECTION);
    }
    Ok(Parts {
        atoms: be16(&bytes[5..7]),
        layers: bytes[7],
        arrows,
        rules,
    })
}

/// The section at the start of `bytes` and what follows it. `None` where it passes the end, its
/// records miss its end, or their number is not the count.
fn section(bytes: &[u8]) -> Option<(Section<'_>, &[u8])> {
    if bytes.len() < 6 {
        return None;
    }
    let size = be32(&bytes[0..4]);
    let count = be16(&bytes[4..6]);
    let after = &bytes[6..];
    if size > after.len() as u64 {
        return None;
    }
    let (records, rest) = after.split_at(size as usize);
    let mut number = 0u64;
    let mut left = records;
    while let Some((&length, behind)) = left.split_first() {
        left = behind.get(usize::from(length)..)?;
        number += 1;
    }
    (number == u64::from(count)).then_some((Section { records, count }, rest))
}

impl<'a> Section<'a> {
    /// The records without their length bytes. They are known to end where the section ends.
    pub fn records(&self) -> impl Iterator<Item = &'a [u8]> {
        let mut left = self.records;
        std::iter::from_fn(move || {
            let (&length, behind) = left.split_first()?;
            let (contents, next) = behind.split_at(usize::from(length));
            left = next;
            Some(contents)
        })
    }
}

/// Cause 5.
fn out_of_range(book: &Parts) -> bool {
    !(1..=MAX_ATOMS).contains(&book.atoms)
        || !(1..=MAX_LAYERS).contains(&usize::from(book.layers))
        || book.arrows.count > MAX_ARROWS
        || book.rules.count > MAX_RULES
}

/// Cause 6. Of all numbers that are no fact's, document 02, (c) lets one through, as a head.
fn bad_record(book: &Parts) -> bool {
    let lawful_literal = |literal: &[u8]| be16(literal) & 0x7FFF < book.atoms;
    let lawful_head = |head: &[u8]| is_falsity(head) || lawful_literal(head);
    let lawful_arrow =
        |contents: &[u8]| contents.len() == 2 && contents.iter().all(|&layer| layer < book.layers);
    let lawful_rule = |contents: &[u8]| {
        contents.len() % 2 == 1
            && (3..=3 + 2 * MAX_BODY).contains(&contents.len())
            && contents[0] < book.layers
            && lawful_head(&contents[1..3])
            && contents[3..].chunks_exact(2).all(lawful_literal)
    };
    !(book.arrows.records().all(lawful_arrow) && book.rules.records().all(lawful_rule))
}

/// Cause 7.
fn repeated_arrow(book: &Parts) -> bool {
    let mut seen = [[false; MAX_LAYERS]; MAX_LAYERS];
    book.arrows.records().map(arrow).any(|arrow| {
        let at = &mut seen[usize::from(arrow.earlier)][usize::from(arrow.later)];
        std::mem::replace(at, true)
    })
}

/// Cause 8. Layers into which no arrow leads are taken away, with their arrows, until there are
/// none of the kind; what is left then has a cycle.
fn cycle(book: &Parts) -> bool {
    let mut earlier_than = [0u32; MAX_LAYERS];
    for arrow in book.arrows.records().map(arrow) {
        earlier_than[usize::from(arrow.later)] |= 1 << arrow.earlier;
    }
    let mut left = u32::MAX;
    loop {
        let free = (0..MAX_LAYERS)
            .filter(|&layer| earlier_than[layer] & left == 0)
            .fold(0, |free, layer| free | 1 << layer);
        if free & left == 0 {
            return left != 0;
        }
        left &= !free;
    }
}

fn arrow(contents: &[u8]) -> Arrow {
    Arrow {
        earlier: contents[0],
        later: contents[1],
    }
}

fn rule(contents: &[u8]) -> Rule {
    Rule {
        layer: contents[0],
        head: literal(&contents[1..3]),
        body: contents[3..].chunks_exact(2).map(literal).collect(),
    }
}

fn literal(bytes: &[u8]) -> Literal {
    let number = be16(bytes);
    Literal {
        atom: number & 0x7FFF,
        negated: number & 0x8000 != 0,
    }
}

/// Whether a head is that of a constraint: the plain 32,767, and not 65,535.
pub(crate) fn is_falsity(head: &[u8]) -> bool {
    be16(head) == 32_767
}

fn be16(bytes: &[u8]) -> u16 {
    u16::from_be_bytes([bytes[0], bytes[1]])
}

fn be32(bytes: &[u8]) -> u64 {
    u64::from(u32::from_be_bytes([bytes[0], bytes[1], bytes[2], bytes[3]]))
}

#[cfg(test)]
mod tests {
    use super::*;
    use crate::book::hex;
    use crate::oracle;
    use crate::rng::{seed, Rng};
    use crate::shapes;

    #[test]
    fn book_b_is_read_as_document_01_describes_it() {
        assert_eq!(read(&shapes::B), Ok(shapes::book_b()));
    }

    #[test]
    fn every_lawful_book_is_read_back_from_its_bytes() {
        let seed = seed();
        let mut rng = Rng::named(seed, "read back");
        for index in 0..2_050 {
            let book = match index < 2_000 {
                true => shapes::small(&mut rng),
                false => shapes::large(&mut rng),
            };
            let bytes = book.bytes();
            assert_eq!(read(&bytes), Ok(book), "seed {seed}, {}", hex(&bytes));
        }
    }

    #[test]
    fn cause_8_is_given_exactly_when_a_layer_is_below_itself() {
        let seed = seed();
        let mut rng = Rng::named(seed, "layer below itself");
        let mut answers = [0; 2];
        for _ in 0..5_000 {
            let book = shapes::arrow_graph(&mut rng);
            let bytes = book.bytes();
            let cause = first_cause(&bytes);
            if cause == REPEATED_ARROW {
                continue;
            }
            let below = oracle::below(&book);
            let circular = (0..usize::from(book.layers)).any(|layer| below[layer][layer]);
            assert_eq!(
                cause,
                if circular { CYCLE } else { GRANTED },
                "seed {seed}, book {}",
                hex(&bytes)
            );
            answers[usize::from(circular)] += 1;
        }
        assert!(answers.iter().all(|&times| times > 300), "{answers:?}");
    }
}
