//! What `lesson_list`, `lesson_one` and `lesson_nearest` are to do to a buffer, for every test of them.

use crate::book::hex;
use crate::causes::fields;
use crate::drive::Drive;
use crate::expected::{branching, differing, BUFFER_TOO_SHORT, NO_STABLE_STATE};
use crate::ffi;
use crate::known::Known;
use crate::oracle;

/// The outcome on `buffer` of a call that would write `listing` and give `answer`.
pub fn outcome(listing: &[u8], answer: u64, buffer: &[u8]) -> ffi::Outcome {
    let mut after = buffer.to_vec();
    match after.get_mut(..listing.len()) {
        Some(place) => {
            place.copy_from_slice(listing);
            (answer, after)
        }
        None => (BUFFER_TOO_SHORT, after),
    }
}

/// The outcome on `buffer` of a call that would write a record of `width` bytes and give this answer, or
/// 14 where there is none; or 13 where it has no room.
fn record_outcome(written: Option<(u64, &[u8])>, width: usize, buffer: &[u8]) -> ffi::Outcome {
    let mut after = buffer.to_vec();
    let answer = match (after.get_mut(..width), written) {
        (None, _) => BUFFER_TOO_SHORT,
        (_, None) => NO_STABLE_STATE,
        (Some(place), Some((answer, record))) => {
            place.copy_from_slice(record);
            answer
        }
    };
    (answer, after)
}

/// The outcome on `buffer` of a call for one state of a book whose records have `width` bytes, of which
/// `first` is the first where there is one.
pub fn one_outcome(first: Option<&[u8]>, width: usize, g: usize, buffer: &[u8]) -> ffi::Outcome {
    record_outcome(first.map(|first| (branching(g), first)), width, buffer)
}

/// The same for the state closest to a candidate: in how many facts it differs, and its record.
pub fn nearest_outcome(
    nearest: Option<(usize, impl AsRef<[u8]>)>,
    width: usize,
    g: usize,
    buffer: &[u8],
) -> ffi::Outcome {
    let written = nearest.as_ref();
    let written = written.map(|(facts, record)| (differing(g, *facts), record.as_ref()));
    record_outcome(written, width, buffer)
}

/// The same by the oracle: of stable models in the order of the listing.
pub fn nearest_of_models(
    models: &[Vec<bool>],
    candidate: &[bool],
    g: usize,
    buffer: &[u8],
) -> ffi::Outcome {
    let nearest = oracle::nearest(models, candidate);
    let nearest = nearest.map(|(facts, model)| (facts, oracle::record(model)));
    nearest_outcome(nearest, candidate.len().div_ceil(8), g, buffer)
}

/// Of records in the order of the listing the one in which the fewest facts differ from a candidate,
/// among equals the first, and how many these are.
pub fn nearest_of<'a>(records: &[&'a [u8]], candidate: &[u8]) -> Option<(usize, &'a [u8])> {
    let differing = |record: &[u8]| {
        let bytes = record.iter().zip(candidate);
        bytes.map(|(byte, other)| (byte ^ other).count_ones()).sum()
    };
    let distances = records.iter().map(|record| differing(record));
    // Of equal ones the first is taken.
    let (facts, record): (u32, &&[u8]) = distances.zip(records).min_by_key(|at| at.0)?;
    Some((facts as usize, record))
}

/// The same for a book whose states are known.
pub fn one_of_known(known: &Known, buffer: &[u8]) -> ffi::Outcome {
    let width = usize::from(known.book.atoms).div_ceil(8);
    one_outcome(known.first().as_deref(), width, known.branching, buffer)
}

/// The bytes of a record, and the records that `lesson_list` writes, with so many bytes of room. The book
/// is lawful, and has a state.
fn records_listed(book: &[u8], drive: Drive, room: usize) -> (usize, Vec<u8>) {
    let mut buffer = vec![0; room];
    let answer = ffi::list_in_place(book, drive, &mut buffer);
    let told = || format!("{drive}, list: {answer:#X}\n{}", hex(book));
    assert!(answer & 0xFF == 0 && answer >> 16 != 0, "{}", told());
    let width = fields(book).0.div_ceil(8);
    let records = &buffer[11..][..(answer >> 16) as usize * width];
    (width, records.to_vec())
}

/// The first record that `lesson_list` writes.
pub fn first_listed(book: &[u8], drive: Drive, room: usize) -> Vec<u8> {
    let (width, mut records) = records_listed(book, drive, room);
    records.truncate(width);
    records
}

/// Of the records that `lesson_list` writes the closest to a candidate, among equals the first, and in
/// how many facts it differs.
pub fn nearest_listed(
    book: &[u8],
    drive: Drive,
    room: usize,
    candidate: &[u8],
) -> (usize, Vec<u8>) {
    let (width, records) = records_listed(book, drive, room);
    let records: Vec<&[u8]> = records.chunks(width).collect();
    let (facts, record) = nearest_of(&records, candidate).expect("a record");
    (facts, record.to_vec())
}

/// The engine's outcome of `lesson_list` on fenced copies is the one expected.
pub fn assert_outcome(
    what: &str,
    book: &[u8],
    drive: Drive,
    buffer: &[u8],
    expected: &ffi::Outcome,
) {
    let engine = ffi::list(book, drive, buffer);
    assert_same(what, book, drive, buffer, [&engine, expected]);
}

/// The engine's outcome of `lesson_one` on fenced copies is the one expected.
pub fn assert_one(what: &str, book: &[u8], drive: Drive, buffer: &[u8], expected: &ffi::Outcome) {
    let engine = ffi::one(book, drive, buffer);
    assert_same(what, book, drive, buffer, [&engine, expected]);
}

/// The engine's outcome of `lesson_nearest` on fenced copies is the one expected.
pub fn assert_nearest(
    what: &str,
    book: &[u8],
    drive: Drive,
    [candidate, buffer]: [&[u8]; 2],
    expected: &ffi::Outcome,
) {
    let engine = ffi::nearest(book, drive, candidate, buffer);
    let what = format!("{what}, candidate {}", hex(candidate));
    assert_same(&what, book, drive, buffer, [&engine, expected]);
}

/// The same of the call on a copy of the buffer alone, for what is asked often or takes long.
pub fn assert_nearest_in_place(
    what: &str,
    book: &[u8],
    drive: Drive,
    [candidate, buffer]: [&[u8]; 2],
    expected: &ffi::Outcome,
) {
    let mut after = buffer.to_vec();
    let answer = ffi::nearest_in_place(book, drive, candidate, &mut after);
    if (answer, &after) != (expected.0, &expected.1) {
        let what = format!("{what}, candidate {}", hex(candidate));
        assert_same(&what, book, drive, buffer, [&(answer, after), expected]);
    }
}

fn assert_same(
    what: &str,
    book: &[u8],
    drive: Drive,
    buffer: &[u8],
    [engine, expected]: [&ffi::Outcome; 2],
) {
    assert!(
        engine == expected,
        "{what}, {drive}, buffer of {} bytes: engine {:#X}, expected {:#X}\nbook {}\n\
         engine's buffer   {}\nexpected          {}\nbefore            {}",
        buffer.len(),
        engine.0,
        expected.0,
        hex(book),
        hex(&engine.1),
        hex(&expected.1),
        hex(buffer)
    );
}
