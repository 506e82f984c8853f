//! Random books, each driven at each of its layers under some set, or under several: the loops that
//! the sweeps share.

use crate::book::Book;
use crate::drive::{all_layers, Drive};
use crate::oracle::Driven;
use crate::rng::{seed, Rng};
use crate::shapes;

/// A random book at one of its layers, with some of them switched off or none.
pub struct Swept<'a> {
    /// The seed, the shape and the book's number, for messages.
    pub what: &'a str,
    pub index: usize,
    pub book: &'a Book,
    pub bytes: &'a [u8],
    pub drive: Drive,
    pub driven: Driven,
}

/// Hands every layer of `number` books to `each`, with the generator that made them, and returns
/// how the line begins that says what was tried.
pub fn layers(
    shape: &str,
    number: usize,
    generate: impl Fn(&mut Rng) -> Book,
    mut each: impl FnMut(&Swept, &mut Rng),
) -> String {
    let seed = seed();
    let mut rng = Rng::named(seed, shape);
    for index in 0..number {
        let book = generate(&mut rng);
        let bytes = book.bytes();
        let what = format!("seed {seed}, {shape}, book {index}");
        for layer in 0..book.layers {
            let off = shapes::some_layers(&mut rng, book.layers);
            let drive = Drive::from(layer).off(off);
            let swept = Swept {
                what: &what,
                index,
                book: &book,
                bytes: &bytes,
                drive,
                driven: Driven::new(&book, drive),
            };
            each(&swept, &mut rng);
        }
    }
    format!("seed {seed}, {shape}: {number} books")
}

/// Hands every layer of `number` books to `each`, under each of the sets that are chosen for so many
/// layers, with what to say in a message; and returns how the line begins that says what was tried.
pub fn drives(
    shape: &str,
    number: usize,
    generate: impl Fn(&mut Rng) -> Book,
    sets: impl Fn(&mut Rng, u8) -> Vec<u32>,
    mut each: impl FnMut(&str, &Book, Drive),
) -> String {
    let seed = seed();
    let mut rng = Rng::named(seed, shape);
    for index in 0..number {
        let book = generate(&mut rng);
        let what = format!("seed {seed}, {shape}, book {index}");
        for layer in 0..book.layers {
            for off in sets(&mut rng, book.layers) {
                each(&what, &book, Drive::from(layer).off(off));
            }
        }
    }
    format!("seed {seed}, {shape}: {number} books")
}

/// No layer off, and some.
pub fn two_sets(rng: &mut Rng, layers: u8) -> Vec<u32> {
    vec![0, shapes::some_layers(rng, layers)]
}

/// All sets of the layers of a book that has four at most; else none, all, and some at random.
pub fn many_sets(rng: &mut Rng, layers: u8) -> Vec<u32> {
    let all = all_layers(layers);
    match layers {
        0..=4 => (0..=all).collect(),
        _ => {
            let some = (0..12).map(|_| rng.word() as u32 & all);
            [0, all].into_iter().chain(some).collect()
        }
    }
}
