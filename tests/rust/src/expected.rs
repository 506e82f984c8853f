//! What documents 01 and 02 ask of each call, by the reader and the oracle.

use crate::book::Book;
use crate::conditions;
use crate::drive::Drive;
use crate::oracle::{self, Driven};
use crate::reader;
use std::cell::OnceCell;

pub const NO_SUCH_LAYER: u64 = 9;
pub const BAD_CANDIDATE: u64 = 10;
pub const NO_SUCH_FACT: u64 = 11;
pub const TOO_MANY_BRANCHING: u64 = 12;
pub const BUFFER_TOO_SHORT: u64 = 13;
pub const NO_STABLE_STATE: u64 = 14;
pub const BAD_CONDITION: u64 = 16;
pub const TOO_DEEP: u64 = 17;
pub const NO_SUCH_LAYER_OFF: u64 = 19;

pub const MAX_BRANCHING: usize = 20;

/// What `lesson_test` answers where it is granted.
pub const fn yes_or_no(stable: bool) -> u64 {
    (stable as u64) << 16
}

/// What `lesson_list` answers where it is granted.
pub const fn counts(branching: usize, states: usize) -> u64 {
    (branching as u64) << 8 | (states as u64) << 16
}

/// What `lesson_one` answers where it is granted.
pub const fn branching(branching: usize) -> u64 {
    (branching as u64) << 8
}

/// What `lesson_place` answers for a fact that stands in so many of the states, or cause 14.
pub const fn place_of(branching: usize, standing: usize, states: usize) -> u64 {
    let place = match standing {
        _ if states == 0 => return NO_STABLE_STATE,
        0 => 0,
        some if some < states => 1,
        _ => 2,
    };
    (branching as u64) << 8 | place << 16
}

/// What `lesson_nearest` answers where it is granted: so many facts differ.
pub const fn differing(branching: usize, facts: usize) -> u64 {
    (branching as u64) << 8 | (facts as u64) << 16
}

/// What `lesson_count` answers where it is granted.
pub const fn fit_counts(branching: usize, states: usize, fitting: usize) -> u64 {
    counts(branching, states) | (fitting as u64) << 40
}

/// The number of branching facts, or cause 12.
fn searched(driven: &Driven) -> Result<usize, u64> {
    match driven.branching_count() {
        branching if branching > MAX_BRANCHING => Err(TOO_MANY_BRANCHING),
        branching => Ok(branching),
    }
}

/// The book at the driven layer, or the first of causes 9 and 19 that applies.
fn driven(book: &Book, drive: Drive) -> Result<Driven, u64> {
    if drive.layer >= book.layers.into() {
        return Err(NO_SUCH_LAYER);
    }
    if (book.layers..32).any(|absent| drive.is_off(absent)) {
        return Err(NO_SUCH_LAYER_OFF);
    }
    Ok(Driven::new(book, drive))
}

/// A drive of a book, or the first of causes 1 to 9 and 19 that applies. The first question that asks
/// for the stable states tries every state, so the book must be small, or refused.
pub struct Asked {
    driven: Result<Driven, u64>,
    models: OnceCell<Vec<Vec<bool>>>,
}

impl Asked {
    pub fn new(book: &[u8], drive: Drive) -> Asked {
        let book = reader::read(book).map_err(u64::from);
        Asked {
            driven: book.and_then(|book| driven(&book, drive)),
            models: OnceCell::new(),
        }
    }

    fn driven(&self) -> Result<&Driven, u64> {
        self.driven.as_ref().map_err(|&cause| cause)
    }

    fn models(&self, driven: &Driven) -> &[Vec<bool>] {
        self.models.get_or_init(|| driven.stable_models())
    }

    /// The records of the stable states, in their order.
    fn records(&self, driven: &Driven) -> Vec<Vec<u8>> {
        let models = self.models(driven).iter();
        models.map(|model| oracle::record(model)).collect()
    }

    /// The answer of `lesson_test`.
    pub fn test(&self, candidate: &[u8]) -> u64 {
        let answer = self.driven().and_then(|driven| {
            let state = oracle::state(candidate, driven.atoms()).ok_or(BAD_CANDIDATE)?;
            Ok(yes_or_no(driven.stable(&state)))
        });
        answer.unwrap_or_else(|cause| cause)
    }

    /// The answer of `lesson_list` and the buffer after it.
    pub fn list(&self, buffer: &[u8]) -> (u64, Vec<u8>) {
        let mut after = buffer.to_vec();
        let answer = self.driven().and_then(|driven| {
            let branching = searched(driven)?;
            let records = self.records(driven);
            let listing = oracle::listing(driven.atoms(), &records);
            let place = after.get_mut(..listing.len()).ok_or(BUFFER_TOO_SHORT)?;
            place.copy_from_slice(&listing);
            Ok(counts(branching, records.len()))
        });
        (answer.unwrap_or_else(|cause| cause), after)
    }

    /// Writes the record of a stable state, which is taken of those listed: g and what is told of it,
    /// or the first of causes 12, 13 and 14 that applies.
    fn write<T>(
        &self,
        driven: &Driven,
        buffer: &mut [u8],
        take: impl FnOnce(&[Vec<bool>]) -> Option<(T, &[bool])>,
    ) -> Result<(usize, T), u64> {
        let branching = searched(driven)?;
        let width = usize::from(driven.atoms()).div_ceil(8);
        let place = buffer.get_mut(..width).ok_or(BUFFER_TOO_SHORT)?;
        let (told, state) = take(self.models(driven)).ok_or(NO_STABLE_STATE)?;
        place.copy_from_slice(&oracle::record(state));
        Ok((branching, told))
    }

    /// The answer of `lesson_one` and the buffer after it: the first record of the listing is handed
    /// out (document 02, f).
    pub fn one(&self, buffer: &[u8]) -> (u64, Vec<u8>) {
        let mut after = buffer.to_vec();
        let answer = self.driven().and_then(|driven| {
            let (g, ()) = self.write(driven, &mut after, |models| Some(((), models.first()?)))?;
            Ok(branching(g))
        });
        (answer.unwrap_or_else(|cause| cause), after)
    }

    /// The answer of `lesson_nearest` and the buffer after it (document 02, j).
    pub fn nearest(&self, candidate: &[u8], buffer: &[u8]) -> (u64, Vec<u8>) {
        let mut after = buffer.to_vec();
        let answer = self.driven().and_then(|driven| {
            let state = oracle::state(candidate, driven.atoms()).ok_or(BAD_CANDIDATE)?;
            let (g, facts) =
                self.write(driven, &mut after, |models| oracle::nearest(models, &state))?;
            Ok(differing(g, facts))
        });
        (answer.unwrap_or_else(|cause| cause), after)
    }

    /// The answer of `lesson_place`.
    pub fn place(&self, fact: u32) -> u64 {
        let answer = self.driven().and_then(|driven| {
            if fact >= driven.atoms().into() {
                return Err(NO_SUCH_FACT);
            }
            let branching = searched(driven)?;
            let models = self.models(driven);
            let standing = models.iter().filter(|model| model[fact as usize]);
            Ok(place_of(branching, standing.count(), models.len()))
        });
        answer.unwrap_or_else(|cause| cause)
    }

    /// The answer of `lesson_count`.
    pub fn count(&self, condition: &[u8]) -> u64 {
        let answer = self.driven().and_then(|driven| {
            let tree = conditions::read_for(condition, driven.atoms())?;
            let branching = searched(driven)?;
            let models = self.models(driven);
            Ok(fit_counts(branching, models.len(), tree.fitting(models)))
        });
        answer.unwrap_or_else(|cause| cause)
    }
}

/// The answer of `lesson_test`.
pub fn test(book: &[u8], drive: Drive, candidate: &[u8]) -> u64 {
    Asked::new(book, drive).test(candidate)
}

/// The answer of `lesson_list` and the buffer after it.
pub fn list(book: &[u8], drive: Drive, buffer: &[u8]) -> (u64, Vec<u8>) {
    Asked::new(book, drive).list(buffer)
}

/// The answer of `lesson_one` and the buffer after it.
pub fn one(book: &[u8], drive: Drive, buffer: &[u8]) -> (u64, Vec<u8>) {
    Asked::new(book, drive).one(buffer)
}

/// The answer of `lesson_place`.
pub fn place(book: &[u8], drive: Drive, fact: u32) -> u64 {
    Asked::new(book, drive).place(fact)
}

/// The answer of `lesson_nearest` and the buffer after it.
pub fn nearest(book: &[u8], drive: Drive, candidate: &[u8], buffer: &[u8]) -> (u64, Vec<u8>) {
    Asked::new(book, drive).nearest(candidate, buffer)
}
