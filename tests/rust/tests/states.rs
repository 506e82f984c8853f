//! Runs of the program `states`: what it prints for a book on its standard input. LESSON_STATES
//! names the program, and else it is the one that `bash tests/build` leaves in `target/bin`.

use lesson_tests::book::{
    framed, hex, not, plain, width, Book, BYTE_ATOMS, FALSITY, MAX_ATOMS, WIDE,
};
use lesson_tests::expected;
use lesson_tests::known::{self, EVERY_FOLLOWING};
use lesson_tests::oracle;
use lesson_tests::reader;
use lesson_tests::rng::{seed, Rng};
use lesson_tests::shapes::{self, Layering, B};
use std::env;
use std::fs::File;
use std::io::{ErrorKind, Write};
use std::path::{Path, PathBuf};
use std::process::{Command, Stdio};
use std::thread;
use std::time::Duration;

/// The most bytes that the program reads, and the bytes of its listing buffer.
const LIMIT: usize = 65_536;

fn program() -> PathBuf {
    let path = match env::var_os("LESSON_STATES") {
        Some(named) => PathBuf::from(named),
        None => Path::new(env!("CARGO_MANIFEST_DIR")).join("../../target/bin/states"),
    };
    assert!(
        path.is_file(),
        "{} is missing: build it first",
        path.display()
    );
    path
}

/// What the program prints, given pieces of input one after another.
fn run_in_pieces(pieces: &[&[u8]], pause: Duration) -> String {
    let mut child = Command::new(program())
        .stdin(Stdio::piped())
        .stdout(Stdio::piped())
        .stderr(Stdio::piped())
        .spawn()
        .expect("it starts");
    let mut input = child.stdin.take().expect("it is piped");
    thread::scope(|scope| {
        scope.spawn(move || {
            for piece in pieces {
                match input.write_all(piece) {
                    // The program may stop reading once there is too much.
                    Err(error) if error.kind() == ErrorKind::BrokenPipe => return,
                    result => result.expect("its input is written"),
                }
                thread::sleep(pause);
            }
        });
        printed(child.wait_with_output().expect("it ends"))
    })
}

fn printed(output: std::process::Output) -> String {
    assert!(output.status.code().is_some(), "it was stopped: {output:?}");
    assert!(output.stderr.is_empty(), "{output:?}");
    String::from_utf8(output.stdout).expect("it prints text")
}

fn run(input: &[u8]) -> String {
    run_in_pieces(&[input], Duration::ZERO)
}

fn refused(cause: u64) -> String {
    format!("refused {cause}\n")
}

/// The text of a granted listing.
fn text(listing: &[u8], branching: usize) -> String {
    let atoms = u16::from_be_bytes([listing[5], listing[6]]);
    let count = oracle::count(listing);
    let mut text = format!("facts {atoms} models {count} branching {branching}\n");
    for record in listing[11..].chunks(width(atoms)) {
        let state = oracle::state(record, atoms).expect("a record");
        text.extend(state.iter().map(|&stands| if stands { '1' } else { '0' }));
        text.push('\n');
    }
    text
}

/// What document 01 asks for, for a book that is small or refused. Nothing is switched off.
fn expected_text(book: &[u8]) -> String {
    let last = reader::read(book).map_or(0, |book| book.layers - 1);
    let (answer, buffer) = expected::list(book, last.into(), &vec![0; LIMIT]);
    match answer & 0xFF {
        0 => {
            let length = u32::from_be_bytes(buffer[1..5].try_into().expect("four bytes"));
            text(&buffer[..length as usize], (answer >> 8 & 0xFF) as usize)
        }
        cause => refused(cause),
    }
}

fn assert_printed(what: &str, input: &[u8], expected: &str) {
    let printed = run(input);
    assert!(
        printed == expected,
        "{what}: printed {printed:?}, expected {expected:?}\n{}",
        hex(&input[..input.len().min(4_000)])
    );
}

#[test]
fn book_b_is_printed_as_document_01_has_it() {
    assert_printed("B", &B, "facts 3 models 1 branching 2\n001\n");
}

#[test]
fn input_from_a_file_is_read_too() {
    let shipped = Path::new(env!("CARGO_MANIFEST_DIR")).join("../../examples/B.book");
    let output = Command::new(program())
        .stdin(File::open(shipped).expect("B is shipped"))
        .output()
        .expect("it starts");
    assert_eq!(printed(output), "facts 3 models 1 branching 2\n001\n");
}

#[test]
fn no_input_and_19_bytes_are_refused_1() {
    assert_printed("no input", &[], "refused 1\n");
    let smallest = shapes::smallest().bytes();
    assert_printed("19 bytes", &smallest[..19], "refused 1\n");
    let all = "facts 1 models 1 branching 0\n0\n";
    assert_printed("20 bytes", &smallest, all);
}

#[test]
fn a_book_without_states_has_one_line() {
    let book = Book::new(1, 1).rule(0, plain(0), &[not(0)]);
    let line = "facts 1 models 0 branching 1\n";
    assert_printed("p if not p", &book.bytes(), line);
    let book = Book::new(1, 2)
        .arrow(0, 1)
        .rule(0, plain(0), &[])
        .rule(0, not(0), &[])
        .rule(1, plain(0), &[plain(0)]);
    let line = "facts 1 models 0 branching 0\n";
    assert_printed("p, not p, and above them p if p", &book.bytes(), line);
}

/// The last layer's constraint rules out one of two states, an empty one both, and another layer's none;
/// and 65,535 is no head.
#[test]
fn states_that_must_never_be_are_not_printed() {
    let choice = Book::new(2, 2)
        .rule(1, plain(0), &[not(1)])
        .rule(1, plain(1), &[not(0)]);
    for (book, lines) in [
        (choice.clone().never(1, &[plain(0)]), "1 branching 2\n01\n"),
        (choice.clone().never(1, &[]), "0 branching 2\n"),
        (choice.clone().never(0, &[]), "2 branching 2\n01\n10\n"),
    ] {
        let lines = format!("facts 2 models {lines}");
        assert_printed("a constraint", &book.bytes(), &lines);
    }
    let negated = choice.rule(1, FALSITY.opposite(), &[]);
    assert_printed("head 65,535", &negated.bytes(), "refused 6\n");
}

#[test]
fn states_are_printed_in_the_order_of_the_listing() {
    let book = Book::new(9, 1)
        .rule(0, plain(0), &[not(8)])
        .rule(0, plain(8), &[not(0)]);
    let lines = "facts 9 models 2 branching 2\n000000001\n100000000\n";
    assert_printed("one of two", &book.bytes(), lines);
}

/// The last layer has a rule that no other sees.
#[test]
fn the_last_layer_is_driven() {
    for layers in 1..=32 {
        let book = Book::new(1, layers).rule(layers - 1, plain(0), &[]);
        let lines = "facts 1 models 1 branching 0\n1\n";
        assert_printed("last layer", &book.bytes(), lines);
    }
}

#[test]
fn a_listing_of_65_536_bytes_fits_and_a_longer_one_is_refused_13() {
    // 11 bytes and 2,621 records of 25.
    let fits = known::counted(2_621, 200);
    let listing = fits.listing();
    assert_eq!(listing.len(), LIMIT);
    let lines = text(&listing, fits.branching);
    assert_printed("it fits", &fits.book.bytes(), &lines);
    let longer = known::counted(2_622, 200);
    assert_printed("one record more", &longer.book.bytes(), "refused 13\n");
    let much_longer = known::free(17, 0, 34);
    assert_printed("2^17 records", &much_longer.book.bytes(), "refused 13\n");
    // As many of the longest records as there is room for, and one more.
    let most = (LIMIT - 11) / width(MAX_ATOMS);
    let fits = known::counted(most, MAX_ATOMS);
    let lines = text(&fits.listing(), fits.branching);
    assert_printed("they fit", &fits.book.bytes(), &lines);
    let longer = known::counted(most + 1, MAX_ATOMS);
    assert_printed("one more", &longer.book.bytes(), "refused 13\n");
    let refused = Book::new(MAX_ATOMS + 1, 1);
    assert_printed("a fact too many", &refused.bytes(), "refused 5\n");
}

#[test]
fn twenty_branching_facts_are_printed_and_21_are_refused_12() {
    let ten_pairs = known::pairs(10, 0);
    let lines = text(&ten_pairs.listing(), 20);
    assert_printed("g = 20", &ten_pairs.book.bytes(), &lines);
    assert_printed("g = 21", &known::pairs(10, 1).book.bytes(), "refused 12\n");
}

/// A well-framed book of so many bytes whose records are no arrows.
fn framed_book(length: usize) -> Vec<u8> {
    let mut draft = Book::new(1, 1).draft();
    let mut left = length - 20;
    while left > 0 {
        let contents = (left - 1).min(255);
        draft.arrows.records.push(framed(&vec![0; contents]));
        left -= contents + 1;
    }
    let bytes = draft.bytes();
    assert_eq!(bytes.len(), length);
    bytes
}

/// Its last byte is looked at: without it the length would differ, and that is 3.
#[test]
fn input_of_65_536_bytes_is_taken_for_a_book() {
    let mut bytes = framed_book(LIMIT);
    assert_eq!(reader::first_cause(&bytes), 6);
    assert_printed("well framed", &bytes, "refused 6\n");
    bytes[0] = 2;
    assert_printed("version 2", &bytes, "refused 2\n");
    bytes[0] = 1;
    bytes[4] = 1;
    assert_printed("length field 65,537", &bytes, "refused 3\n");
}

#[test]
fn input_over_65_536_bytes_is_refused_3_with_any_version_byte() {
    let mut bytes = framed_book(LIMIT + 1);
    assert_eq!(reader::first_cause(&bytes), 6);
    for version in 0..=255 {
        bytes[0] = version;
        assert_printed("one byte more", &bytes, "refused 3\n");
    }
    for length in [65_538, 100_000, 2 * LIMIT, 1 << 20] {
        let mut longer = B.to_vec();
        longer.resize(length, 0);
        assert_printed("much more", &longer, "refused 3\n");
        // Its end would be a book.
        longer[length - B.len()..].copy_from_slice(&B);
        longer[0] = 7;
        assert_printed("another version", &longer, "refused 3\n");
    }
}

#[test]
fn input_that_comes_in_pieces_is_put_together() {
    let pause = Duration::from_millis(2);
    let bytes: Vec<&[u8]> = B.chunks(1).collect();
    let lines = "facts 3 models 1 branching 2\n001\n";
    assert_eq!(run_in_pieces(&bytes, pause), lines);
    let seed = seed();
    let largest = shapes::largest(&mut Rng::named(seed, "states, largest"), MAX_ATOMS).bytes();
    let pieces: Vec<&[u8]> = largest.chunks(4_099).collect();
    assert_eq!(run_in_pieces(&pieces, pause), "refused 12\n", "seed {seed}");
    let over = framed_book(LIMIT + 1);
    let (most, last) = over.split_at(LIMIT);
    let pause = Duration::from_millis(20);
    assert_eq!(run_in_pieces(&[most, last], pause), "refused 3\n");
    assert_eq!(run_in_pieces(&[most, &[]], pause), "refused 3\n");
}

#[test]
fn each_fact_has_a_character() {
    let few = [8, 9, 17, 64, BYTE_ATOMS - 1, BYTE_ATOMS];
    for atoms in few.into_iter().chain(WIDE) {
        for following in EVERY_FOLLOWING {
            let known = known::followed(2, 2, atoms, following);
            assert_eq!(known.layer, known.book.layers - 1);
            let lines = text(&known.listing(), known.branching);
            let what = format!("{atoms} facts, {following:?}");
            assert_printed(&what, &known.book.bytes(), &lines);
        }
    }
}

#[test]
fn random_books_are_printed_as_the_oracle_lists_them() {
    let seed = seed();
    let mut rng = Rng::named(seed, "states, random");
    let mut books = Vec::new();
    for _ in 0..150 {
        books.push(shapes::crowded(&mut rng, Layering::Any).bytes());
        books.push(shapes::layered(&mut rng, Layering::Diamond).bytes());
        books.push(shapes::constrained(&mut rng, Layering::Chain).bytes());
    }
    for (_, generate) in shapes::EVERY_SHAPE {
        let mut some: Vec<Vec<u8>> = (0..20).map(|_| generate(&mut rng)).collect();
        // The oracle tries every state.
        some.retain(|bytes| reader::read(bytes).map_or(true, |book| book.atoms <= 10));
        books.extend(some);
    }
    let mut refusals = 0;
    for bytes in &books {
        let expected = expected_text(bytes);
        assert_printed(&format!("seed {seed}"), bytes, &expected);
        refusals += usize::from(expected.starts_with("refused"));
    }
    let number = books.len();
    println!("seed {seed}, states, random: {number} books, {refusals} refused");
    assert!(refusals > 100 && number - refusals > 200);
}
