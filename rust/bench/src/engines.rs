//! The tables of the report by both engines, text and binary: what the plain one
//! costs that is read by eye. They are tables of their own, since its working room
//! would take the others' place in the machine's memory.

use crate::race::{Contender, Race, REFUSED};
use crate::reports::{binary_report, contender, race, text_report, DECKS};
use std::cell::RefCell;
use streams::{Form, Random};

#[rustfmt::skip]
static TEXT: &[Contender] = &[
    contender("baseline", text_report),
    contender("first", |text, out| proved::report_text(text, out).unwrap_or(REFUSED)),
    contender("second", |text, out| proved::second_text(text, out).unwrap_or(REFUSED)),
];

#[rustfmt::skip]
static BINARY: &[Contender] = &[
    contender("baseline", binary_report),
    contender("first", |binary, out| proved::report_binary(binary, out).unwrap_or(REFUSED)),
    contender("second", second_binary),
];

thread_local! {
    /// Working room for any deck, there before a call is timed: answers are
    /// compared first.
    static WORK: RefCell<Vec<u8>> = RefCell::new(vec![1; 4 << 20]);
}

fn second_binary(stream: &[u8], out: &mut [u8]) -> usize {
    WORK.with_borrow_mut(|work| proved::second_binary(stream, work, out).unwrap_or(REFUSED))
}

/// A night's decks, 3 MiB of text each.
pub fn races() -> Vec<Race> {
    let mut races = Vec::new();
    for (deck, make) in DECKS {
        let text = make(&mut Random::new(2), 3 << 20);
        let binary = Form::Binary.of_text(&text);
        let title = format!("Text report by both engines, {deck}, 3 MiB of text");
        races.push(race(title, TEXT, text));
        let title = format!("Binary report by both engines, {deck}, 3 MiB of text as binary");
        races.push(race(title, BINARY, binary));
    }
    races
}
