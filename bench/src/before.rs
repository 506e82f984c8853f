//! The calls of the second archive. Its calls may take other arguments than the engine's: they are
//! declared and made here alone.
//!
//! It is expected to be one from after document 02, (i), whose calls take a set of layers that are switched
//! off behind the layer, and which answers as the engine does wherever it takes a book, but for which one
//! state it hands out; no row asks it for the closest one. For one whose calls take no set, the last line of
//! this file becomes `second_archive!();`.

use lesson_tests::drive::Drive;
use lesson_tests::ffi::Call;

/// Whether there is such an archive.
pub const LINKED: bool = cfg!(before);

/// The calls, with the set where it is named.
#[cfg(before)]
macro_rules! second_archive {
    ($($off:ident)?) => {
        extern "C" {
            fn before_check(book: *const u8, book_len: usize) -> u64;
            fn before_test(
                book: *const u8,
                book_len: usize,
                layer: u32,
                $($off: u32,)?
                candidate: *const u8,
                candidate_len: usize,
            ) -> u64;
            fn before_list(
                book: *const u8,
                book_len: usize,
                layer: u32,
                $($off: u32,)?
                buffer: *mut u8,
                buffer_len: usize,
            ) -> u64;
            fn before_one(
                book: *const u8,
                book_len: usize,
                layer: u32,
                $($off: u32,)?
                buffer: *mut u8,
                buffer_len: usize,
            ) -> u64;
            fn before_place(
                book: *const u8,
                book_len: usize,
                layer: u32,
                $($off: u32,)?
                fact: u32,
            ) -> u64;
        }

        /// The answer of a call of that archive on the slices themselves.
        pub fn answer(book: &[u8], drive: Drive, call: Call) -> u64 {
            let (book, book_len) = (book.as_ptr(), book.len());
            let Drive { layer, $($off,)? .. } = drive;
            // SAFETY: each pointer and its length are those of a live slice; and a buffer, which the
            // call may write, overlaps nothing, being borrowed mutably.
            unsafe {
                match call {
                    Call::Check => before_check(book, book_len),
                    Call::Test(candidate) => {
                        let candidate = candidate.unwrap_or_default();
                        let (candidate, length) = (candidate.as_ptr(), candidate.len());
                        before_test(book, book_len, layer, $($off,)? candidate, length)
                    }
                    Call::List(buffer) => {
                        let buffer = buffer.unwrap_or_default();
                        let (buffer, length) = (buffer.as_mut_ptr(), buffer.len());
                        before_list(book, book_len, layer, $($off,)? buffer, length)
                    }
                    Call::One(buffer) => {
                        let buffer = buffer.unwrap_or_default();
                        let (buffer, length) = (buffer.as_mut_ptr(), buffer.len());
                        before_one(book, book_len, layer, $($off,)? buffer, length)
                    }
                    Call::Place(fact) => before_place(book, book_len, layer, $($off,)? fact),
                    Call::Nearest(..) | Call::Count(_) => unreachable!("no row asks it"),
                }
            }
        }
    };
}

#[cfg(not(before))]
pub fn answer(_: &[u8], _: Drive, _: Call) -> u64 {
    unreachable!("LESSON_BEFORE_DIR was not set when this was built")
}

#[cfg(before)]
second_archive!(off);
