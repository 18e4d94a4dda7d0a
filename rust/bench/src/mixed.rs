//! The tables of the mixed report: events with their signatures, groups in both
//! forms by turns; and decks of groups in one form, which that form's own report
//! judges too, so that the two can be held against each other.

use crate::race::{Contender, Race, Rate, REFUSED};
use crate::reports::contender;
use crate::SIZES;
use streams::decks::{nests, signatures};
use streams::generate::fixed;
use streams::item::stream;
use streams::mixed::{attachment, events, forms_in_turn};
use streams::table::FIXED;
use streams::{Form, Item, Random};

static MIXED: &[Contender] = &[
    contender("baseline", baseline_mixed),
    contender("proved", proved_mixed),
];

/// The last one writes a report of another shape, which is not compared.
static TEXT: &[Contender] = &[
    contender("baseline", baseline_mixed),
    contender("proved", proved_mixed),
    contender("proved, as text", |text, out| {
        proved::report_text(text, out).unwrap_or(REFUSED)
    }),
];

/// Likewise.
static BINARY: &[Contender] = &[
    contender("baseline", baseline_mixed),
    contender("proved", proved_mixed),
    contender("proved, as binary", |binary, out| {
        proved::report_binary(binary, out).unwrap_or(REFUSED)
    }),
];

fn baseline_mixed(stream: &[u8], out: &mut [u8]) -> usize {
    baseline::write_report_mixed(stream, out).unwrap_or(REFUSED)
}

fn proved_mixed(stream: &[u8], out: &mut [u8]) -> usize {
    proved::report_mixed(stream, out).unwrap_or(REFUSED)
}

/// A maker of a deck of at most a size in bytes, and who judges it.
type Deck = (
    &'static str,
    fn(&mut Random, usize) -> Vec<u8>,
    &'static [Contender],
);

const DECKS: [Deck; 3] = [
    (
        "JSON events with signatures in text",
        |random, size| events(random, size, Form::Text),
        MIXED,
    ),
    (
        "JSON events with signatures in binary",
        |random, size| events(random, size, Form::Binary),
        MIXED,
    ),
    (
        "groups in text and in binary by turns",
        forms_in_turn,
        MIXED,
    ),
];

/// Makers of text decks of groups, each of which is judged in both forms.
type Groups = (&'static str, fn(&mut Random, usize) -> Vec<u8>);

const GROUPS: [Groups; 5] = [
    ("groups of one digest", |random, size| {
        digests(random, size, 1)
    }),
    ("groups of twenty digests", |random, size| {
        digests(random, size, 20)
    }),
    ("groups nested ten deep", nests),
    ("groups of one to four indexed signatures", signatures),
    ("groups of all codes", all_codes),
];

/// Groups of so many digests.
fn digests(random: &mut Random, size: usize, count: usize) -> Vec<u8> {
    fill(size, || {
        let body = (0..count).map(|_| fixed(random, FIXED[4])).collect();
        stream(&[Item::Group {
            letter: b'A',
            large: false,
            body,
        }])
    })
}

/// All codes alike, as they stand behind an event.
fn all_codes(random: &mut Random, size: usize) -> Vec<u8> {
    fill(size, || attachment(random, Form::Text))
}

fn fill(size: usize, mut next: impl FnMut() -> Vec<u8>) -> Vec<u8> {
    let mut all = Vec::with_capacity(size);
    loop {
        let item = next();
        if all.len() + item.len() > size {
            return all;
        }
        all.extend(item);
    }
}

pub fn races() -> Vec<Race> {
    let mut races = Vec::new();
    for (deck, make, contenders) in DECKS {
        for (name, size) in SIZES {
            let stream = make(&mut Random::new(2), size);
            let title = format!("Mixed report, {deck}, {name}");
            races.push(race(title, contenders, stream));
        }
    }
    for (deck, make) in GROUPS {
        for (name, size) in SIZES {
            let text = make(&mut Random::new(2), size);
            let binary = Form::Binary.of_text(&text);
            let title = |form| format!("Mixed report, {deck}, all in {form}, {name}");
            races.push(race(title("text"), TEXT, text));
            races.push(race(title("binary"), BINARY, binary));
        }
    }
    races
}

/// The room is just what the mixed report asks for.
fn race(title: String, contenders: &'static [Contender], stream: Vec<u8>) -> Race {
    let mut out = vec![0; 17 + 19 * (stream.len() / 3)];
    baseline_mixed(&stream, &mut out);
    let count = [out[0], out[1], out[2], out[3]];
    let items = u32::from_be_bytes(count) as usize;
    let room = 17 + 19 * items;
    Race::new(
        title,
        contenders,
        MIXED.len(),
        stream,
        room,
        Rate::Items(items),
    )
}
