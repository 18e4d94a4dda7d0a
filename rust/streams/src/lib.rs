//! Seeded CESR streams for tests and benchmarks.
//!
//! `generate` makes items that are accepted, of every code, selector and
//! nesting, and such that only their spelling, the fill of a text or the indexed
//! items of a signature group may be refused; `decks` the long streams that are timed; `damage` changes a stream in
//! the ways that streams go wrong; `noise` makes streams that were never right;
//! `body` makes what a group is put around, with its letter; `mixed` makes streams
//! of JSON and of groups in both forms, right and wrong;
//! `cuts` cuts a stream into pieces;
//! `expectation` makes expected verdicts and reports to compare them with;
//! `papers` are the papers' own; `shrink` makes a failing stream small.
//! The codes are typed in from 003 (`table`), so nothing here is shared with
//! the programs it tries.
//!
//! All of it is made from a seed: the same seed gives the same streams.

#![forbid(unsafe_code)]

pub mod body;
pub mod cuts;
pub mod damage;
pub mod decks;
pub mod expectation;
pub mod form;
pub mod generate;
pub mod item;
pub mod mixed;
pub mod noise;
pub mod papers;
pub mod random;
pub mod shrink;
pub mod table;

pub use damage::damage;
pub use form::Form;
pub use item::Item;
pub use random::Random;
pub use shrink::shrink;
