//! CESR streams judged, converted, read, written and walked.
//!
//! Nothing here judges. Every verdict, size, place and number is an answer of
//! the proved library, which is linked in as a static archive; this crate
//! lends it memory and gives its answers types. Its calls take any bytes of
//! any length and panic on none of them. It asks for `alloc` and no `std`, unless
//! the feature `std` is asked for, with which [`Live`] is a `std::io::Write`; and
//! has no unsafe code: the foreign calls stand in the crate `proved`.
//!
//! | To | Call |
//! | --- | --- |
//! | judge a stream | [`judge`], [`judge_into`], [`judge_with`]: a [`Report`] with its rows |
//! | judge one of text, binary and JSON by turns | [`judge_mixed`] and its `_into` and `_with` forms: a [`MixedReport`] |
//! | judge it while it arrives | [`Live`]: fed in pieces, a [`Report`] at the end; [`Pieces`]: its state alone, for lent buffers |
//! | judge it by the second engine | [`judge_second`] and its `_into` and `_with` forms |
//! | hold two answers against each other | [`difference`]: a [`Difference`] or none |
//! | convert a stream | [`to_binary`], [`to_text`] and their `_into` forms |
//! | read one primitive | [`read`], [`read_text_into`], [`read_binary_into`]: a [`Value`] |
//! | write one primitive | [`write()`], [`write_into`] |
//! | write a value by its type alone | [`write_variable`], [`write_variable_into`] |
//! | read or write one indexed signature | [`read_indexed`], [`write_indexed`]: an [`IndexedItem`] |
//! | put a group around items | [`write_group`], [`write_group_into`] |
//! | write items and groups one in the other | [`Builder`] |
//! | go through all depths | [`Walk`], an iterator |
//! | go on later, or by so many items at once | [`State`], saved as bytes, and [`Walk::walk_on`] |
//! | look at one item of any kind | [`item_at`] |
//! | compare expected verdicts with a report | [`compare`], [`Expectation`] |
//!
//! A stream is *text* (characters of URL-safe Base64) or *binary*, see
//! [`Form`]. Offsets, sizes and places count characters in text and bytes in
//! binary, always from the stream's start. A stream that changes form at top
//! level is *mixed*, which is a kind of report and no form: what stands in it is
//! read, walked and converted item by item. A refused call gives a
//! [`Refusal`]: a [`Number`] with its meaning in words, and the place. A
//! stream longer than [`Form::limit`] is refused.
//!
//! `Ok` of [`judge`] is a report and no pass: refused items stand in it.
//! [`Report::passed`] says whether every byte of a stream is accepted.
//!
//! The library keeps nothing between calls and allocates nothing; all calls
//! may be made from many threads at once. Where it is found, the crate `proved`
//! says: in the project it is built by `tools/library`, a release has it, and
//! outside of both it is the one that is installed.
//!
//! ```
//! use cesr::{judge, Form, Number};
//!
//! // A group with an inner item that passes the group's end, then a number.
//! let report = judge(Form::Text, b"-AAB0AAAMAAB")?;
//! assert_eq!((report.accepted(), report.refused()), (1, 1));
//!
//! let row = report.refusals().next().expect("one item is refused");
//! assert_eq!((row.index, row.refusal.place), (0, 4));
//! assert_eq!(row.refusal.number, Number::PastEnd);
//! assert_eq!(
//!     row.refusal.number.words(),
//!     "header or full size passes the end of stream or enclosing group"
//! );
//! assert!(report.remainder().is_none());
//! assert!(!report.passed());
//! # Ok::<(), cesr::Refusal>(())
//! ```

#![no_std]
#![forbid(unsafe_code)]
#![warn(missing_docs)]
#![deny(
    clippy::arithmetic_side_effects,
    clippy::expect_used,
    clippy::missing_errors_doc,
    clippy::indexing_slicing,
    clippy::panic,
    clippy::unwrap_used
)]

extern crate alloc;
#[cfg(feature = "std")]
extern crate std;

mod code;
mod convert;
mod expectation;
mod form;
mod group;
mod indexed;
mod live;
mod mixed;
mod names;
mod pieces;
mod primitive;
mod refusal;
mod report;
mod second;
mod walk;

pub use code::{Chars, Code, Head, ParseCodeError};
pub use convert::{to_binary, to_binary_into, to_text, to_text_into};
pub use expectation::{compare, Comparison, Expectation};
pub use form::{Form, ParseFormError};
pub use group::{write_group, write_group_into, Builder};
pub use indexed::{
    read_indexed, read_indexed_text_into, write_indexed, write_indexed_into, IndexedCode,
    IndexedItem, ParseIndexedCodeError,
};
pub use live::Live;
pub use mixed::{
    judge_mixed, judge_mixed_into, judge_mixed_with, ItemForm, JsonHead, MixedItem, MixedItems,
    MixedReport,
};
pub use pieces::{Pieces, Told, PIECES_BYTES};
pub use primitive::{
    read, read_binary_into, read_text_into, write, write_into, write_variable, write_variable_into,
    Primitive, Tag, Value,
};
pub use proved::{PIECES, STATE, STATE_INDEXED, STATE_OPEN, STATE_POSITION};
pub use refusal::{Number, Refusal};
pub use report::{
    judge, judge_into, judge_with, Item, Items, RefusalRow, Refusals, Remainder, Report, Verdict,
};
pub use second::{
    difference, judge_second, judge_second_into, judge_second_with, working_room, Difference, Part,
};
pub use walk::{item_at, Instalment, Pause, State, Step, Walk, STATE_BYTES};

/// The version of this crate, which is that of the library, the header and the
/// command.
pub const VERSION: &str = env!("CARGO_PKG_VERSION");

/// The guide's Rust examples run as tests of this crate.
#[cfg(doctest)]
#[doc = include_str!("../../../docs/GUIDE.md")]
struct Guide;
