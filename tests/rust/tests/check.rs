//! `lesson_check` of the compiled archive against the reader and against document 01's numbers.

use lesson_tests::book::{
    framed, hex, not, plain, set_length, Book, Draft, BYTE_ATOMS, FALSITY, MAX_ATOMS, WIDE,
};
use lesson_tests::ffi;
use lesson_tests::reader;
use lesson_tests::rng::{seed, Rng};
use lesson_tests::shapes::{self, B};
use std::thread;

/// How often each answer came up.
type Tally = [usize; 9];

/// Compares engine and reader on `number` books of one shape.
fn agree(shape: &str, number: usize, generate: fn(&mut Rng) -> Vec<u8>) -> Tally {
    let seed = seed();
    let mut rng = Rng::named(seed, shape);
    let mut tally = [0; 9];
    for index in 0..number {
        let bytes = generate(&mut rng);
        let engine = ffi::check(&bytes);
        let reader = reader::first_cause(&bytes);
        assert!(
            engine == u64::from(reader),
            "seed {seed}, {shape}, book {index}: engine {engine}, reader {reader}\n{}",
            hex(&bytes)
        );
        tally[usize::from(reader)] += 1;
    }
    println!("seed {seed}, {shape}: {number} books, answers 0 to 8: {tally:?}");
    tally
}

/// A shape is worth its test only if the answers it is there for come up.
fn assert_reached(tally: Tally, causes: &[usize], times: usize) {
    for &cause in causes {
        assert!(tally[cause] >= times, "{cause} is rare: {tally:?}");
    }
}

/// Engine and reader both give `cause`.
fn assert_cause(what: &str, bytes: &[u8], cause: u8) {
    let engine = ffi::check(bytes);
    let reader = reader::first_cause(bytes);
    assert!(
        engine == u64::from(cause) && reader == cause,
        "{what}: expected {cause}, engine {engine}, reader {reader}\n{}",
        hex(bytes)
    );
}

#[test]
fn small_lawful_books_are_accepted() {
    let tally = agree("small lawful", 100_000, shapes::small_lawful);
    assert_eq!(tally[0], 100_000);
}

#[test]
fn large_lawful_books_are_accepted() {
    let tally = agree("large lawful", 1_000, shapes::large_lawful);
    assert_eq!(tally[0], 1_000);
}

#[test]
fn engine_and_reader_agree_on_arrow_graphs() {
    let tally = agree("arrow graphs", 50_000, shapes::arrow_graphs);
    assert_reached(tally, &[0, 7, 8], 1_000);
}

#[test]
fn engine_and_reader_agree_on_truncated_books() {
    let tally = agree("truncated", 50_000, shapes::truncated);
    assert_reached(tally, &[1, 3, 4], 1_000);
}

#[test]
fn engine_and_reader_agree_on_damaged_books() {
    let tally = agree("damaged once", 100_000, shapes::damaged_once);
    assert_reached(tally, &[0, 2, 3, 4, 5, 6, 7, 8], 300);
    let tally = agree("damaged twice", 200_000, shapes::damaged_twice);
    assert_reached(tally, &[0, 2, 3, 4, 5, 6, 7, 8], 100);
    let tally = agree("large damaged", 2_000, shapes::large_damaged);
    assert_reached(tally, &[0, 4, 6], 50);
}

#[test]
fn engine_and_reader_agree_on_resized_books() {
    let tally = agree("resized", 50_000, shapes::resized);
    assert_reached(tally, &[4], 10_000);
}

#[test]
fn sections_that_miss_their_ends_are_refused() {
    let tally = agree("missed ends", 50_000, shapes::missed_ends);
    assert_eq!(tally[4], 50_000);
}

#[test]
fn wrong_counts_are_refused() {
    let tally = agree("wrong counts", 50_000, shapes::wrong_counts);
    assert_eq!(tally[4], 50_000);
}

#[test]
fn engine_and_reader_agree_on_fields_around_their_ranges() {
    let tally = agree("odd ranges", 50_000, shapes::odd_ranges);
    assert_reached(tally, &[0, 5, 6], 300);
}

#[test]
fn unlawful_records_are_refused() {
    let tally = agree("unlawful records", 50_000, shapes::unlawful_records);
    assert_eq!(tally[6], 50_000);
}

#[test]
fn engine_and_reader_agree_on_numbers_that_are_no_facts() {
    let tally = agree("odd literals", 50_000, shapes::odd_literals);
    assert_reached(tally, &[0, 6], 10_000);
}

#[test]
fn engine_and_reader_agree_on_random_records() {
    let tally = agree("random records", 50_000, shapes::random_records);
    assert_reached(tally, &[0, 5, 6, 8], 300);
}

#[test]
fn engine_and_reader_agree_on_noise() {
    let tally = agree("noise", 50_000, shapes::noise);
    assert_reached(tally, &[1, 2, 3, 4], 300);
}

#[test]
fn engine_and_reader_agree_on_books_with_several_causes() {
    let tally = agree("several causes", 50_000, shapes::several_causes);
    assert_reached(tally, &[0, 1, 2, 3, 4, 5, 6, 7, 8], 100);
}

#[test]
fn every_answer_comes_up_hundreds_of_times() {
    let mut total = [0; 9];
    for (shape, generate) in shapes::EVERY_SHAPE {
        let number = match shape.starts_with("large") {
            true => 100,
            false => 2_000,
        };
        let tally = agree(&format!("all shapes, {shape}"), number, generate);
        for (sum, times) in total.iter_mut().zip(tally) {
            *sum += times;
        }
    }
    assert_reached(total, &[0, 1, 2, 3, 4, 5, 6, 7, 8], 300);
}

#[test]
fn of_several_causes_the_smallest_is_given() {
    let seed = seed();
    let mut rng = Rng::named(seed, "smallest cause");
    for causes in 0..=255u8 {
        let smallest = match causes {
            0 => 0,
            _ => causes.trailing_zeros() as u8 + 1,
        };
        for _ in 0..100 {
            let bytes = shapes::with_causes(&mut rng, causes);
            let what = format!("seed {seed}, causes {causes:08b}");
            assert_cause(&what, &bytes, smallest);
        }
    }
}

#[test]
fn shipped_book_b_is_document_01s() {
    assert_eq!(hex(include_bytes!("../../../examples/B.book")), hex(&B));
    assert_eq!(hex(&shapes::book_b().bytes()), hex(&B));
    assert_cause("B", &B, 0);
}

#[test]
fn book_b_with_arrow_count_5_is_refused_4() {
    let mut bytes = B;
    bytes[13] = 5;
    assert_cause("B with arrow count 5", &bytes, 4);
}

#[test]
fn smallest_book_is_accepted_and_its_first_19_bytes_are_refused_1() {
    let bytes = shapes::smallest().bytes();
    assert_eq!(bytes.len(), 20);
    assert_cause("smallest book", &bytes, 0);
    assert_cause("first 19 bytes", &bytes[..19], 1);
}

#[test]
fn self_arrow_is_refused_8() {
    for (layers, layer) in [(1, 0), (2, 1), (32, 0), (32, 31)] {
        let book = Book::new(1, layers).arrow(layer, layer);
        assert_cause("self-arrow", &book.bytes(), 8);
        // Equal arrows come before circles.
        assert_cause("two", &book.arrow(layer, layer).bytes(), 7);
    }
}

#[test]
fn facts_and_layers_pass_at_their_bounds_and_not_past_them() {
    for facts in [1, BYTE_ATOMS - 1, BYTE_ATOMS].into_iter().chain(WIDE) {
        assert_cause("facts", &Book::new(facts, 1).bytes(), 0);
    }
    let low_byte_alone = MAX_ATOMS + BYTE_ATOMS + 1;
    let ten_bits_alone = 2 * MAX_ATOMS + 1;
    for facts in [
        0,
        MAX_ATOMS + 1,
        low_byte_alone,
        ten_bits_alone,
        32_767,
        32_768 + 1,
        65_535,
    ] {
        assert_cause("facts", &Book::new(facts, 1).bytes(), 5);
    }
    for (layers, cause) in [
        (0, 5),
        (1, 0),
        (31, 0),
        (32, 0),
        (33, 5),
        (128, 5),
        (255, 5),
    ] {
        assert_cause("layers", &Book::new(1, layers).bytes(), cause);
    }
}

#[test]
fn record_lengths_of_their_kind_pass_and_all_others_are_refused_6() {
    for length in 0..=255 {
        let record = framed(&vec![0; length]);
        let mut draft = Book::new(1, 2).draft();
        draft.rules.records = vec![record.clone()];
        let lawful = (3..=35).contains(&length) && length % 2 == 1;
        assert_cause("rule", &draft.bytes(), if lawful { 0 } else { 6 });

        let mut draft = Book::new(1, 2).draft();
        draft.arrows.records = vec![record];
        // Two zeros are a self-arrow, the first cause that a lawful length lets show.
        assert_cause("arrow", &draft.bytes(), if length == 2 { 8 } else { 6 });
    }
}

#[test]
fn layers_and_facts_of_records_stay_below_the_books() {
    for layers in [1, 2, 31, 32] {
        for layer in 0..=255 {
            let cause = if layer < layers { 0 } else { 6 };
            let book = Book::new(1, layers).rule(layer, plain(0), &[]);
            assert_cause("rule layer", &book.bytes(), cause);
            if layer != 0 {
                let book = Book::new(1, layers);
                assert_cause("later", &book.clone().arrow(0, layer).bytes(), cause);
                assert_cause("earlier", &book.arrow(layer, 0).bytes(), cause);
            }
        }
    }
    for facts in [1, 2, BYTE_ATOMS - 1, BYTE_ATOMS].into_iter().chain(WIDE) {
        let edges = [facts - 1, facts, facts + 1, facts + BYTE_ATOMS, 2 * facts];
        let numbers = [0, 1, 2, 0x4000, 0x7FFE, 0x7FFF].into_iter();
        let numbers = numbers.chain([BYTE_ATOMS - 1, BYTE_ATOMS, BYTE_ATOMS + 1]);
        let numbers = numbers.chain([MAX_ATOMS - 1, MAX_ATOMS, MAX_ATOMS + 1]);
        for fact in numbers.chain(edges) {
            let cause = if fact < facts { 0 } else { 6 };
            for literal in [plain(fact), not(fact)] {
                let book = Book::new(facts, 1);
                let bodies = [[literal, plain(0)], [not(0), literal]];
                let of_the_head = if literal == FALSITY { 0 } else { cause };
                let head = book.clone().rule(0, literal, &[]);
                assert_cause("head", &head.bytes(), of_the_head);
                for body in bodies {
                    let rule = book.clone().rule(0, plain(0), &body);
                    assert_cause("body", &rule.bytes(), cause);
                }
            }
        }
    }
}

#[test]
fn every_truncation_of_b_is_refused() {
    for length in 0..B.len() {
        let mut bytes = B[..length].to_vec();
        assert_cause("cut", &bytes, if length < 20 { 1 } else { 3 });
        set_length(&mut bytes, length as u32);
        let cause = if length < 20 { 1 } else { 4 };
        assert_cause("cut, with its length repaired", &bytes, cause);
    }
}

#[test]
fn engine_and_reader_agree_on_every_change_of_one_byte_of_b() {
    let mut tally = [0; 9];
    for at in 0..B.len() {
        for value in 0..=255 {
            let mut bytes = B;
            bytes[at] = value;
            let cause = reader::first_cause(&bytes);
            assert_cause("B with one byte changed", &bytes, cause);
            tally[usize::from(cause)] += 1;
        }
    }
    assert_reached(tally, &[0, 2, 3, 4, 5, 6, 7, 8], 2);
}

/// The largest lawful book after an edit of its draft.
fn largest_with(edit: impl Fn(&mut Draft)) -> Vec<u8> {
    let mut draft = shapes::largest(&mut Rng::named(seed(), "largest"), MAX_ATOMS).draft();
    edit(&mut draft);
    draft.bytes()
}

/// With that edit it is refused by `cause`.
fn assert_largest(what: &str, cause: u8, edit: impl Fn(&mut Draft)) {
    let what = format!("seed {}, largest, {what}", seed());
    assert_cause(&what, &largest_with(edit), cause);
}

#[test]
fn largest_lawful_book_is_accepted() {
    assert_eq!(largest_with(|_| ()).len(), 38_372);
    assert_largest("as it is", 0, |_| ());
}

#[test]
fn largest_lawful_book_with_one_bound_passed_is_refused() {
    assert_largest("version", 2, |draft| draft.version = 2);
    assert_largest("length", 3, |draft| draft.length = Some(38_373));
    assert_largest("a byte more", 4, |draft| draft.tail.push(0));
    assert_largest("arrow count", 4, |draft| draft.arrows.count = Some(495));
    assert_largest("rule count", 4, |draft| draft.rules.count = Some(1_023));
    assert_largest("facts", 5, |draft| draft.atoms = MAX_ATOMS + 1);
    assert_largest("layers", 5, |draft| draft.layers = 33);
    assert_largest("497 arrows", 5, |draft| {
        draft.arrows.records.push(framed(&[0, 1]))
    });
    assert_largest("1,025 rules", 5, |draft| {
        draft.rules.records.push(framed(&[0, 0, 0]))
    });
    assert_largest("17 body literals", 6, |draft| {
        draft.rules.records[1_023] = framed(&[0; 37])
    });
    assert_largest("arrow of length 3", 6, |draft| {
        draft.arrows.records[495] = framed(&[0, 1, 0])
    });
    assert_largest("a fact too many in a body", 6, |draft| {
        let negated = (0x8000 | MAX_ATOMS).to_be_bytes();
        draft.rules.records[1_023][34..].copy_from_slice(&negated)
    });
    assert_largest("a fact too many in a head", 6, |draft| {
        draft.rules.records[1_023][2..4].copy_from_slice(&MAX_ATOMS.to_be_bytes())
    });
    assert_largest("the last fact in a head", 0, |draft| {
        let last = (MAX_ATOMS - 1).to_be_bytes();
        draft.rules.records[1_023][2..4].copy_from_slice(&last)
    });
    assert_largest("no fact in a head", 0, |draft| {
        draft.rules.records[1_023][2..4].copy_from_slice(&[0x7F, 0xFF])
    });
    assert_largest("layer 32", 6, |draft| draft.rules.records[1_023][1] = 32);
    assert_largest("layer 31 for 32", 6, |draft| draft.layers = 31);
    assert_largest("a fact less", 6, |draft| draft.atoms = MAX_ATOMS - 1);
    assert_largest("as many as a byte has", 6, |draft| draft.atoms = BYTE_ATOMS);
    assert_largest("last arrow equal to the first", 7, |draft| {
        draft.arrows.records[495] = draft.arrows.records[0].clone()
    });
    assert_largest("first arrow turned round", 8, turn_first_arrow_round);
}

/// The first arrow joins the ends of the line, so that turned round it closes a cycle.
fn turn_first_arrow_round(draft: &mut Draft) {
    let first = &mut draft.arrows.records[0];
    *first = framed(&[first[2], first[1]]);
}

#[test]
fn size_fields_near_their_ends_do_not_wrap_round() {
    for distance in 0..100 {
        let size = Some(u32::MAX - distance);
        let mut draft = shapes::book_b().draft();
        draft.arrows.size = size;
        assert_cause("arrow section", &draft.bytes(), 4);
        let mut draft = shapes::book_b().draft();
        draft.rules.size = size;
        assert_cause("rule section", &draft.bytes(), 4);
    }
}

#[test]
fn empty_records_are_records() {
    let empty = |number: usize, count: u16| {
        let mut draft = shapes::smallest().draft();
        draft.arrows.records = vec![framed(&[]); number];
        draft.arrows.count = Some(count);
        draft.bytes()
    };
    assert_cause("one", &empty(1, 1), 6);
    assert_cause("one, not counted", &empty(1, 0), 4);
    assert_cause("496", &empty(496, 496), 6);
    assert_cause("497", &empty(497, 497), 5);
    assert_cause("65,535", &empty(65_535, 65_535), 5);
    // Their number must not be taken modulo 65,536.
    assert_cause("65,536 counted as 0", &empty(65_536, 0), 4);
    assert_cause("65,537 counted as 1", &empty(65_537, 1), 4);
}

#[test]
fn sections_are_walked_before_ranges_and_ranges_before_records() {
    let mut draft = Book::new(MAX_ATOMS + 1, 33).draft();
    draft.arrows.records = vec![framed(&[255])];
    assert_cause("ranges and record", &draft.bytes(), 5);
    draft.rules.count = Some(1);
    assert_cause("and a count in the second section", &draft.bytes(), 4);
}

#[test]
fn null_with_length_0_is_refused_1() {
    assert_eq!(ffi::check_null(), 1);
    assert_cause("empty", &[], 1);
}

/// The length field has four bytes, so the low half of a longer length must not be enough.
#[test]
fn book_of_more_than_4_gib_is_refused_3() {
    let start = shapes::smallest().bytes();
    let mut bytes = vec![0; (1 << 32) + start.len()];
    bytes[..start.len()].copy_from_slice(&start);
    assert_eq!(ffi::check_in_place(&bytes), 3);
    assert_eq!(reader::first_cause(&bytes), 3);
}

#[test]
fn four_threads_on_one_book_get_the_same_answer() {
    let lawful = largest_with(|_| ());
    let circular = largest_with(turn_first_arrow_round);
    let seed = seed();
    thread::scope(|scope| {
        for _ in 0..4 {
            scope.spawn(|| {
                for _ in 0..500 {
                    assert_eq!(ffi::check_in_place(&lawful), 0, "seed {seed}");
                    assert_eq!(ffi::check_in_place(&circular), 8, "seed {seed}");
                    assert_eq!(ffi::check_in_place(&B), 0);
                }
            });
        }
    });
}
