//! The tables of the report, text and binary. Sizes are those of the text; the
//! binary decks are the same items.

use crate::race::{Contender, Race, Rate, REFUSED};
use crate::SIZES;
use streams::decks::{all_codes, attachments, digests, labels, nests, signatures, small_bytes};
use streams::{Form, Random};

/// A further program is one more line in each of the two lists.
#[rustfmt::skip]
static TEXT: &[Contender] = &[
    contender("baseline", text_report),
    contender("proved", |text, out| proved::report_text(text, out).unwrap_or(REFUSED)),
];

#[rustfmt::skip]
static BINARY: &[Contender] = &[
    contender("baseline", binary_report),
    contender("proved", |binary, out| proved::report_binary(binary, out).unwrap_or(REFUSED)),
];

pub type Call = fn(&[u8], &mut [u8]) -> usize;

pub const fn contender(name: &'static str, call: Call) -> Contender {
    Contender { name, call }
}

pub fn text_report(stream: &[u8], out: &mut [u8]) -> usize {
    baseline::write_report(stream, baseline::Form::Text, out).unwrap_or(REFUSED)
}

pub fn binary_report(stream: &[u8], out: &mut [u8]) -> usize {
    baseline::write_report(stream, baseline::Form::Binary, out).unwrap_or(REFUSED)
}

/// A maker of a text deck of at most a size.
pub type Deck = fn(&mut Random, usize) -> Vec<u8>;

/// The last two have the same sizes and selectors, from the same seed.
pub const DECKS: [(&str, Deck); 7] = [
    ("digests", digests),
    ("groups nested ten deep", nests),
    ("groups of one to four indexed signatures", signatures),
    ("attachments of a key event log", attachments),
    ("all codes, groups three deep", all_codes),
    ("labels and locations of type A", labels),
    ("the same as bytes of type B", small_bytes),
];

pub fn races() -> Vec<Race> {
    let mut races = Vec::new();
    for (deck, make) in DECKS {
        for (name, size) in SIZES {
            let text = make(&mut Random::new(2), size);
            let binary = Form::Binary.of_text(&text);
            let title = format!("Text report, {deck}, {name} of text");
            races.push(race(title, TEXT, text));
            let title = format!("Binary report, {deck}, {name} of text as binary");
            races.push(race(title, BINARY, binary));
        }
    }
    races
}

/// The room is just what the report asks for.
pub fn race(title: String, contenders: &'static [Contender], stream: Vec<u8>) -> Race {
    let items = items(&contenders[0], &stream);
    let room = 17 + 18 * items;
    let equal = contenders.len();
    Race::new(title, contenders, equal, stream, room, Rate::Items(items))
}

/// The number of items, which is the report's first count.
fn items(judge: &Contender, stream: &[u8]) -> usize {
    let mut out = vec![0; 17 + 18 * (stream.len() / 3)];
    (judge.call)(stream, &mut out);
    let count = [out[0], out[1], out[2], out[3]];
    u32::from_be_bytes(count) as usize
}
