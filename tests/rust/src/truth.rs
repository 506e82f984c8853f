//! What the calls must come to on any book: by reader and oracle, or by plain Rust where there are
//! too many facts to try every state.

use crate::drive::Drive;
use crate::expected::Asked;
use crate::ffi::Outcome;
use crate::plain;
use crate::reader;

/// The most facts of which every state is tried.
const TRIED: u16 = 10;

/// A drive of a book.
pub enum Truth<'a> {
    Oracle(Asked),
    Plain { book: &'a [u8], drive: Drive },
}

impl<'a> Truth<'a> {
    pub fn new(book: &'a [u8], drive: Drive) -> Truth<'a> {
        match reader::read(book) {
            Ok(read) if read.atoms > TRIED => Truth::Plain { book, drive },
            _ => Truth::Oracle(Asked::new(book, drive)),
        }
    }

    /// The answer of `lesson_test`.
    pub fn test(&self, candidate: &[u8]) -> u64 {
        match self {
            Truth::Oracle(asked) => asked.test(candidate),
            Truth::Plain { book, drive } => plain::test(book, *drive, candidate),
        }
    }

    /// The answer of a call that writes, and the buffer after it.
    fn outcome(
        &self,
        buffer: &[u8],
        oracle: impl FnOnce(&Asked) -> Outcome,
        plain: impl FnOnce(&[u8], Drive, &mut [u8]) -> u64,
    ) -> Outcome {
        match self {
            Truth::Oracle(asked) => oracle(asked),
            Truth::Plain { book, drive } => {
                let mut after = buffer.to_vec();
                (plain(book, *drive, &mut after), after)
            }
        }
    }

    /// The answer of `lesson_list` and the buffer after it.
    pub fn list(&self, buffer: &[u8]) -> Outcome {
        self.outcome(buffer, |asked| asked.list(buffer), plain::list)
    }

    /// The answer of `lesson_one` and the buffer after it.
    pub fn one(&self, buffer: &[u8]) -> Outcome {
        self.outcome(buffer, |asked| asked.one(buffer), plain::one)
    }

    /// The answer of `lesson_nearest` and the buffer after it.
    pub fn nearest(&self, candidate: &[u8], buffer: &[u8]) -> Outcome {
        let plain =
            |book: &[u8], drive, after: &mut [u8]| plain::nearest(book, drive, candidate, after);
        let oracle = |asked: &Asked| asked.nearest(candidate, buffer);
        self.outcome(buffer, oracle, plain)
    }

    /// The answer of `lesson_place`.
    pub fn place(&self, fact: u32) -> u64 {
        match self {
            Truth::Oracle(asked) => asked.place(fact),
            Truth::Plain { book, drive } => plain::place(book, *drive, fact),
        }
    }

    /// The answer of `lesson_count`.
    pub fn count(&self, condition: &[u8]) -> u64 {
        match self {
            Truth::Oracle(asked) => asked.count(condition),
            Truth::Plain { book, drive } => plain::count(book, *drive, condition),
        }
    }
}
