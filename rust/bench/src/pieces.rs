//! The tables of a stream in pieces: the whole report, and the same deck fed in
//! pieces of 64 KiB, by the library and by the baseline; and byte by byte, of two
//! sizes, to see that the time is linear. All write the same report.

use crate::race::{Contender, Race, Rate, REFUSED};
use crate::reports::{binary_report, contender, text_report, DECKS};
use proved::{Given, Pieces, Refusal, PIECES, PIECES_UNIT};
use std::cell::RefCell;
use streams::{Form, Random};

/// What a line delivers at a time.
const PIECE: usize = 1 << 16;

#[rustfmt::skip]
static TEXT: &[Contender] = &[
    contender("baseline", text_report),
    contender("baseline fed", |text, out| by_baseline(baseline::Form::Text, text, out)),
    contender("whole", |text, out| proved::report_text(text, out).unwrap_or(REFUSED)),
    contender("in pieces", |text, out| TEXT_CALLS.fed(PIECE, text, out)),
];

#[rustfmt::skip]
static BINARY: &[Contender] = &[
    contender("baseline", binary_report),
    contender("baseline fed", |binary, out| by_baseline(baseline::Form::Binary, binary, out)),
    contender("whole", |binary, out| proved::report_binary(binary, out).unwrap_or(REFUSED)),
    contender("in pieces", |binary, out| BINARY_CALLS.fed(PIECE, binary, out)),
];

#[rustfmt::skip]
static TEXT_BYTES: &[Contender] = &[
    contender("whole", |text, out| proved::report_text(text, out).unwrap_or(REFUSED)),
    contender("byte by byte", |text, out| TEXT_CALLS.fed(1, text, out)),
];

#[rustfmt::skip]
static BINARY_BYTES: &[Contender] = &[
    contender("whole", |binary, out| proved::report_binary(binary, out).unwrap_or(REFUSED)),
    contender("byte by byte", |binary, out| BINARY_CALLS.fed(1, binary, out)),
];

thread_local! {
    /// Room for the refusals of any deck, and the baseline's rows, there before a
    /// call is timed: answers are compared first.
    static WORK: RefCell<[Vec<u8>; 2]> = RefCell::new([vec![1; 16 << 20], Vec::new()]);
}

type Feed = fn(&mut Pieces, &[u8], &mut [u8], &mut [u8]) -> Result<Given, Refusal>;
type End = fn(&mut Pieces, &mut [u8]) -> Result<usize, Refusal>;

/// The library's calls of a form.
struct Calls {
    unit: usize,
    feed: Feed,
    end: End,
}

const TEXT_CALLS: Calls = Calls {
    unit: 4,
    feed: proved::feed_text,
    end: proved::end_text,
};

const BINARY_CALLS: Calls = Calls {
    unit: 3,
    feed: proved::feed_binary,
    end: proved::end_binary,
};

impl Calls {
    /// The rows of items go to where the report has them.
    fn fed(&self, size: usize, stream: &[u8], out: &mut [u8]) -> usize {
        WORK.with_borrow_mut(|[refusals, _]| {
            let mut state = [0; PIECES];
            state[PIECES_UNIT] = self.unit;
            let (mut items, mut refused) = (0, 0);
            for piece in stream.chunks(size) {
                let rows = &mut out[4 + items..];
                match (self.feed)(&mut state, piece, rows, &mut refusals[refused..]) {
                    Ok(given) => (items, refused) = (items + given.items, refused + given.refusals),
                    Err(_) => return REFUSED,
                }
            }
            let mut rest = [0; 5];
            let Ok(left) = (self.end)(&mut state, &mut rest) else {
                return REFUSED;
            };
            joined(out, items, &refusals[..refused], &rest[..left])
        })
    }
}

fn by_baseline(form: baseline::Form, stream: &[u8], out: &mut [u8]) -> usize {
    WORK.with_borrow_mut(|[refusals, rows]| {
        let mut fed = baseline::Pieces::new(form);
        let mut refused = Vec::new();
        rows.clear();
        for piece in stream.chunks(PIECE) {
            if fed.feed(piece, rows, &mut refused).is_err() {
                return REFUSED;
            }
        }
        let rest = match fed.end() {
            Ok(Some((offset, number))) => [&(offset as u32).to_be_bytes()[..], &[number]].concat(),
            Ok(None) => Vec::new(),
            Err(_) => return REFUSED,
        };
        out[4..4 + rows.len()].copy_from_slice(rows);
        refusals[..refused.len()].copy_from_slice(&refused);
        joined(out, rows.len(), &refusals[..refused.len()], &rest)
    })
}

/// The counts, and what stands behind the items.
fn joined(out: &mut [u8], items: usize, refusals: &[u8], rest: &[u8]) -> usize {
    let count = |rows: usize, row: usize| ((rows / row) as u32).to_be_bytes();
    out[..4].copy_from_slice(&count(items, 9));
    let mut at = 4 + items;
    for (rows, row) in [(refusals, 9), (rest, 5)] {
        out[at..at + 4].copy_from_slice(&count(rows.len(), row));
        out[at + 4..at + 4 + rows.len()].copy_from_slice(rows);
        at += 4 + rows.len();
    }
    at
}

pub fn races() -> Vec<Race> {
    let mut races = Vec::new();
    for (deck, make) in DECKS {
        let text = make(&mut Random::new(2), 3 << 20);
        let binary = Form::Binary.of_text(&text);
        let title = format!("Text in pieces of 64 KiB, {deck}, 3 MiB of text");
        races.push(crate::reports::race(title, TEXT, text));
        let title = format!("Binary in pieces of 64 KiB, {deck}, 3 MiB of text as binary");
        races.push(crate::reports::race(title, BINARY, binary));
    }
    for (name, size) in [("64 KiB", 1 << 16), ("256 KiB", 1 << 18)] {
        for (deck, make) in &DECKS[..2] {
            let text = make(&mut Random::new(2), size);
            let binary = Form::Binary.of_text(&text);
            let title = format!("Text byte by byte, {deck}, {name} of text, a byte for an item");
            races.push(bytes(title, TEXT_BYTES, text));
            let title = format!("Binary byte by byte, {deck}, {name} of text, a byte for an item");
            races.push(bytes(title, BINARY_BYTES, binary));
        }
    }
    races
}

/// The rate is by bytes that came.
fn bytes(title: String, contenders: &'static [Contender], stream: Vec<u8>) -> Race {
    let room = 17 + 18 * (stream.len() / 3);
    let rate = Rate::Items(stream.len());
    Race::new(title, contenders, contenders.len(), stream, room, rate)
}
