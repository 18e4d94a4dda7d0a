//! The proved library beside the oracle, which shares nothing with it: every
//! call on the same streams. Answers, places and buffers are equal, or the
//! test fails with the stream made small and printed.
//!
//! Seeded and repeatable. `CASES=1000000 cargo test --release --test
//! differential generated -- --nocapture` judges so many generated streams,
//! writes so many primitives and indexed items, puts a group around so many
//! bodies, judges so many mixed streams and compares so many expectations; `SEED=7` others; `THREADS=2` on two
//! cores.

mod compares;
mod deck;
mod demands;
mod generated;
mod groups;
mod judges;
mod limits;
mod lookup;
mod mixed;
mod papers;
mod pieces;
mod seconds;
mod walks;
mod writes;

use judges::Check;
use std::io::Write;
use streams::{shrink, Form};

/// A number from the environment.
fn setting(name: &str, otherwise: u64) -> u64 {
    match std::env::var(name) {
        Ok(text) => text.parse().expect("a number"),
        Err(_) => otherwise,
    }
}

/// Says it past the harness, which keeps what passing tests print.
fn say(line: &str) {
    let _ = writeln!(std::io::stderr(), "{line}");
}

/// Fails with the stream made small and what differs on it.
fn demand(stream: &[u8], form: Form, check: impl Fn(&[u8]) -> Check) {
    if check(stream).is_ok() {
        return;
    }
    let small = shrink(stream, form, |s| check(s).is_err());
    let shown = String::from_utf8_lossy(&small).into_owned();
    let why = check(&small).unwrap_err();
    panic!("{form:?} {small:02X?} {shown:?}\n{why}");
}
