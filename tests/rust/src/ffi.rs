//! The calls of the archive, made safe.
//!
//! Each call has a form that lends fenced copies of its slices, in two surroundings, and one that
//! lends the slices themselves: for timing, for sharing, and for what is too large to copy.

use crate::book::hex;
use crate::drive::{at, Drive};
use std::ptr;

extern "C" {
    fn lesson_check(book: *const u8, book_len: usize) -> u64;
    fn lesson_test(
        book: *const u8,
        book_len: usize,
        layer: u32,
        off: u32,
        candidate: *const u8,
        candidate_len: usize,
    ) -> u64;
    fn lesson_list(
        book: *const u8,
        book_len: usize,
        layer: u32,
        off: u32,
        buffer: *mut u8,
        buffer_len: usize,
    ) -> u64;
    fn lesson_one(
        book: *const u8,
        book_len: usize,
        layer: u32,
        off: u32,
        buffer: *mut u8,
        buffer_len: usize,
    ) -> u64;
    fn lesson_place(book: *const u8, book_len: usize, layer: u32, off: u32, fact: u32) -> u64;
    fn lesson_nearest(
        book: *const u8,
        book_len: usize,
        layer: u32,
        off: u32,
        candidate: *const u8,
        candidate_len: usize,
        buffer: *mut u8,
        buffer_len: usize,
    ) -> u64;
    fn lesson_count(
        book: *const u8,
        book_len: usize,
        layer: u32,
        off: u32,
        condition: *const u8,
        condition_len: usize,
    ) -> u64;
}

/// A call, with what it is lent beside the book and the drive. `None` is NULL with length 0,
/// which the header allows.
pub enum Call<'a> {
    Check,
    Test(Option<&'a [u8]>),
    List(Option<&'a mut [u8]>),
    One(Option<&'a mut [u8]>),
    Place(u32),
    /// The candidate, and the buffer.
    Nearest(Option<&'a [u8]>, Option<&'a mut [u8]>),
    Count(Option<&'a [u8]>),
}

fn pointer(slice: Option<&[u8]>) -> (*const u8, usize) {
    slice.map_or((ptr::null(), 0), |slice| (slice.as_ptr(), slice.len()))
}

fn pointer_mut(slice: Option<&mut [u8]>) -> (*mut u8, usize) {
    slice.map_or((ptr::null_mut(), 0), |slice| {
        (slice.as_mut_ptr(), slice.len())
    })
}

/// The answer of a call on the slices themselves. `lesson_check` drives nothing.
pub fn answer(book: Option<&[u8]>, drive: Drive, call: Call) -> u64 {
    let (book, book_len) = pointer(book);
    let Drive { layer, off } = drive;
    // SAFETY: each pointer is NULL with length 0, or it and its length are those of a live slice;
    // and a buffer, which the call may write, overlaps nothing, being borrowed mutably.
    unsafe {
        match call {
            Call::Check => lesson_check(book, book_len),
            Call::Test(candidate) => {
                let (candidate, candidate_len) = pointer(candidate);
                lesson_test(book, book_len, layer, off, candidate, candidate_len)
            }
            Call::List(buffer) => {
                let (buffer, buffer_len) = pointer_mut(buffer);
                lesson_list(book, book_len, layer, off, buffer, buffer_len)
            }
            Call::One(buffer) => {
                let (buffer, buffer_len) = pointer_mut(buffer);
                lesson_one(book, book_len, layer, off, buffer, buffer_len)
            }
            Call::Place(fact) => lesson_place(book, book_len, layer, off, fact),
            Call::Nearest(candidate, buffer) => {
                let (near, near_len) = pointer(candidate);
                let (buffer, buffer_len) = pointer_mut(buffer);
                lesson_nearest(
                    book, book_len, layer, off, near, near_len, buffer, buffer_len,
                )
            }
            Call::Count(condition) => {
                let (condition, condition_len) = pointer(condition);
                lesson_count(book, book_len, layer, off, condition, condition_len)
            }
        }
    }
}

/// Odd, so that the slices are misaligned.
const FENCE: usize = 61;

/// Two surroundings for each call: a byte outside the slice must not show in the answer.
const CANARIES: [u8; 2] = [0xA5, 0x00];

/// A slice lent out of the middle of a larger allocation, with canary bytes on both sides.
struct Lent {
    whole: Vec<u8>,
    canary: u8,
}

impl Lent {
    fn new(contents: &[u8], canary: u8) -> Self {
        let mut whole = vec![canary; contents.len() + 2 * FENCE];
        whole[FENCE..FENCE + contents.len()].copy_from_slice(contents);
        Lent { whole, canary }
    }

    fn contents(&self) -> &[u8] {
        &self.whole[FENCE..self.whole.len() - FENCE]
    }

    /// What a call is lent. Among zeros an empty slice is NULL.
    fn slice(&self) -> Option<&[u8]> {
        Some(self.contents()).filter(|contents| self.canary != 0 || !contents.is_empty())
    }

    /// The same for a buffer, which the call may write.
    fn buffer(&mut self) -> Option<&mut [u8]> {
        let after = self.whole.len() - FENCE;
        let contents = &mut self.whole[FENCE..after];
        Some(contents).filter(|contents| self.canary != 0 || !contents.is_empty())
    }

    fn fences_stand(&self) -> bool {
        let after = self.whole.len() - FENCE;
        let mut fences = self.whole[..FENCE].iter().chain(&self.whole[after..]);
        fences.all(|&byte| byte == self.canary)
    }
}

/// What a call came to: its answer, and the bytes of its buffer.
pub type Outcome = (u64, Vec<u8>);

/// The outcome of `call` on fenced copies of `slices` and of `buffer`. Asserts that nothing but the
/// buffer was written and that the surroundings do not matter.
fn fenced<const N: usize>(
    slices: [&[u8]; N],
    buffer: &[u8],
    call: impl Fn(&[Lent; N], &mut Lent) -> u64,
) -> Outcome {
    let told = || slices.map(hex).join(", ");
    let [first, second] = CANARIES.map(|canary| {
        let lent = slices.map(|slice| Lent::new(slice, canary));
        let mut buffer = Lent::new(buffer, canary);
        let answer = call(&lent, &mut buffer);
        let unchanged =
            |(lent, slice): (&Lent, &[u8])| lent.fences_stand() && lent.contents() == slice;
        assert!(
            buffer.fences_stand() && lent.iter().zip(slices).all(unchanged),
            "a byte was written: slices {}",
            told()
        );
        (answer, buffer.contents().to_vec())
    });
    assert!(
        first == second,
        "bytes outside the slices change the outcome, answers {:#X} and {:#X}: slices {}",
        first.0,
        second.0,
        told()
    );
    first
}

/// `lesson_check` on a fenced copy.
pub fn check(book: &[u8]) -> u64 {
    let call = |[book]: &[Lent; 1], _: &mut Lent| answer(book.slice(), at(0), Call::Check);
    fenced([book], &[], call).0
}

/// `lesson_check` on `book` itself.
pub fn check_in_place(book: &[u8]) -> u64 {
    answer(Some(book), at(0), Call::Check)
}

/// `lesson_check` on NULL with length 0.
pub fn check_null() -> u64 {
    answer(None, at(0), Call::Check)
}

/// `lesson_test` on fenced copies.
pub fn test(book: &[u8], drive: Drive, candidate: &[u8]) -> u64 {
    let call = |[book, candidate]: &[Lent; 2], _: &mut Lent| {
        answer(book.slice(), drive, Call::Test(candidate.slice()))
    };
    fenced([book, candidate], &[], call).0
}

/// `lesson_test` on the slices themselves.
pub fn test_in_place(book: &[u8], drive: Drive, candidate: &[u8]) -> u64 {
    answer(Some(book), drive, Call::Test(Some(candidate)))
}

/// `lesson_list` on fenced copies.
pub fn list(book: &[u8], drive: Drive, buffer: &[u8]) -> Outcome {
    fenced([book], buffer, |[book], buffer| {
        answer(book.slice(), drive, Call::List(buffer.buffer()))
    })
}

/// `lesson_list` on the slices themselves.
pub fn list_in_place(book: &[u8], drive: Drive, buffer: &mut [u8]) -> u64 {
    answer(Some(book), drive, Call::List(Some(buffer)))
}

/// `lesson_one` on fenced copies.
pub fn one(book: &[u8], drive: Drive, buffer: &[u8]) -> Outcome {
    fenced([book], buffer, |[book], buffer| {
        answer(book.slice(), drive, Call::One(buffer.buffer()))
    })
}

/// `lesson_one` on the slices themselves.
pub fn one_in_place(book: &[u8], drive: Drive, buffer: &mut [u8]) -> u64 {
    answer(Some(book), drive, Call::One(Some(buffer)))
}

/// `lesson_place` on a fenced copy.
pub fn place(book: &[u8], drive: Drive, fact: u32) -> u64 {
    let call = |[book]: &[Lent; 1], _: &mut Lent| answer(book.slice(), drive, Call::Place(fact));
    fenced([book], &[], call).0
}

/// `lesson_place` on `book` itself.
pub fn place_in_place(book: &[u8], drive: Drive, fact: u32) -> u64 {
    answer(Some(book), drive, Call::Place(fact))
}

/// `lesson_nearest` on fenced copies.
pub fn nearest(book: &[u8], drive: Drive, candidate: &[u8], buffer: &[u8]) -> Outcome {
    fenced([book, candidate], buffer, |[book, candidate], buffer| {
        let call = Call::Nearest(candidate.slice(), buffer.buffer());
        answer(book.slice(), drive, call)
    })
}

/// `lesson_nearest` on the slices themselves.
pub fn nearest_in_place(book: &[u8], drive: Drive, candidate: &[u8], buffer: &mut [u8]) -> u64 {
    let call = Call::Nearest(Some(candidate), Some(buffer));
    answer(Some(book), drive, call)
}

/// `lesson_count` on fenced copies.
pub fn count(book: &[u8], drive: Drive, condition: &[u8]) -> u64 {
    let call = |[book, condition]: &[Lent; 2], _: &mut Lent| {
        answer(book.slice(), drive, Call::Count(condition.slice()))
    };
    fenced([book, condition], &[], call).0
}

/// `lesson_count` on the slices themselves.
pub fn count_in_place(book: &[u8], drive: Drive, condition: &[u8]) -> u64 {
    answer(Some(book), drive, Call::Count(Some(condition)))
}
