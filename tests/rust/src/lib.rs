//! What the tests and the benchmark of the compiled lesson engine share.
//!
//! `reader` and `oracle` are written from documents 01 and 02 alone and share nothing with the
//! engine. `expected` has the answers that follow from them. Only `ffi`, `guarded` and `child`, which
//! wrap C calls, have `unsafe`.

#![deny(unsafe_code)]

pub mod bitset;
pub mod book;
pub mod causes;
#[allow(unsafe_code)]
pub mod child;
pub mod conditions;
pub mod drive;
pub mod elsewhere;
pub mod every_call;
pub mod examples;
pub mod expected;
#[allow(unsafe_code)]
pub mod ffi;
#[allow(unsafe_code)]
pub mod guarded;
pub mod inputs;
pub mod known;
pub mod listed;
pub mod misreadings;
pub mod oracle;
pub mod orders;
pub mod plain;
pub mod reader;
pub mod rng;
pub mod shapes;
pub mod sweep;
pub mod tally;
pub mod truth;
