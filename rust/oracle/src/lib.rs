//! An independent second opinion on CESR streams.
//!
//! Everything here is written from the papers alone: 003 (the registry), 01
//! (what is built and its rules), 02 (its requests that have landed) and, where
//! these leave a choice, the readings of docs/DECISIONS.md. Comments name the
//! sentence a line follows. Plain data, plain recursion: it is meant to be read
//! beside 01.
//!
//! Offsets and sizes are always in the stream's own measure: characters for
//! text, bytes for binary.

#![forbid(unsafe_code)]

pub mod alphabet;
pub mod compare;
pub mod convert;
pub mod form;
pub mod frame;
pub mod group;
pub mod indexed;
pub mod instalments;
pub mod judge;
pub mod mixed;
pub mod pieces;
pub mod primitive;
pub mod refusal;
pub mod registry;
pub mod report;
pub mod second;
pub mod text;
pub mod walk;

pub use form::Form;
pub use refusal::Refusal;
