//! An ordinary fast judge of CESR streams, as a good Rust programmer would
//! write it: the mark that the proved judge is measured against.
//!
//! It follows the same papers (003, 01, 02, docs/DECISIONS.md) and uses what
//! ordinary safe Rust offers: tables, the heap, loops that the compiler turns
//! into vector code. Nothing in it is proved; its tests compare it with
//! `oracle`.
//!
//! The report and the two conversions exist for lent buffers (`write_report`,
//! `to_binary`, `to_text`); `report` allocates its answer, `Walk` keeps its place, and `Pieces` is fed. `plain` holds the
//! conversions as a plain loop. `report_mixed` and `write_report_mixed` are of mixed streams.

#![forbid(unsafe_code)]

mod alphabet;
mod codes;
mod convert;
mod judge;
mod mixed;
mod pieces;
mod plain;
mod report;
mod walk;

pub use convert::{to_binary, to_text};
pub use mixed::{report_mixed, write_report_mixed};
pub use pieces::Pieces;
pub use plain::{plain_to_binary, plain_to_text};
pub use report::{report, write_report};
pub use walk::{Pause, Walk};

/// Text (T) or binary (B).
#[derive(Clone, Copy, Debug, PartialEq, Eq)]
pub enum Form {
    Text,
    Binary,
}

/// A refused call: 01's number, and the place in the stream's own measure.
#[derive(Clone, Copy, Debug, PartialEq, Eq)]
pub struct Refusal {
    pub number: u8,
    pub place: usize,
}

impl Refusal {
    pub(crate) const fn new(number: u8, place: usize) -> Self {
        Refusal { number, place }
    }
}

/// The longest stream in text characters and in bytes: 1,048,576 units.
pub const TEXT_LIMIT: usize = 4_194_304;
pub const BINARY_LIMIT: usize = 3_145_728;
