//! Document 01's starred examples, and one with a constraint, as document 02, (c) has it: books whose
//! listings are also proved of the definitions. Of the last but one document 02, (i) says that it has
//! no state now, and that no fact branches in it.

use crate::book::{not, plain, Book};
use crate::shapes;

const P: u16 = 0;
const Q: u16 = 1;

/// A book at a driven layer.
pub struct Example {
    pub book: Book,
    pub layer: u8,
    /// The states' records, one byte each, in their order.
    pub records: &'static [u8],
    /// Document 01: g.
    pub branching: usize,
}

/// A quarrel about p in layer 0.
fn quarrel(book: Book) -> Book {
    book.rule(0, plain(P), &[]).rule(0, not(P), &[])
}

pub fn starred() -> Vec<Example> {
    let one = || Book::new(1, 1);
    let above = |atoms| Book::new(atoms, 2).arrow(0, 1);
    let two_layers_below = Book::new(1, 3).arrow(0, 2).arrow(1, 2);
    let choice = Book::new(2, 1)
        .rule(0, plain(P), &[not(Q)])
        .rule(0, plain(Q), &[not(P)]);
    let each_displaces_the_other = above(2)
        .rule(0, plain(P), &[])
        .rule(0, plain(Q), &[])
        .rule(1, not(P), &[plain(Q)])
        .rule(1, not(Q), &[plain(P)]);
    let unrelated = two_layers_below.rule(0, plain(P), &[]).rule(1, not(P), &[]);
    let leaning = above(1).rule(0, plain(P), &[]).rule(1, not(P), &[not(P)]);
    let unsettled = quarrel(above(1)).rule(1, plain(P), &[plain(P)]);
    let without_p = choice.clone().never(0, &[plain(P)]);
    let examples: [(Book, u8, &[u8], usize); 12] = [
        (shapes::book_b(), 3, &[0x20], 2),
        (shapes::book_b(), 1, &[0xA0], 1),
        (shapes::book_b(), 2, &[0x80], 2),
        (choice, 0, &[0x40, 0x80], 2),
        (one().rule(0, plain(P), &[not(P)]), 0, &[], 1),
        (quarrel(one()), 0, &[], 0),
        (one().rule(0, plain(P), &[plain(P)]), 0, &[0x00], 0),
        (unrelated, 2, &[], 0),
        (each_displaces_the_other, 1, &[0x40, 0x80], 2),
        (leaning, 1, &[0x80], 1),
        (unsettled, 1, &[], 0),
        (without_p, 0, &[0x40], 2),
    ];
    examples
        .into_iter()
        .map(|(book, layer, records, branching)| Example {
            book,
            layer,
            records,
            branching,
        })
        .collect()
}
