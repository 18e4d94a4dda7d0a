//! An input taken apart. Every input means something: what is missing is 0.
//!
//! | Byte | Meaning |
//! | --- | --- |
//! | 0 | call (bits 0 to 2), binary (bit 3), buffers against the page before them (bit 4), one too long (bits 5 to 7 all set), a comparison (bits 6 and 7 alone of these set), a group (bits 5 and 7 alone), a report by the second engine (bits 5 and 6 alone), a mixed report (bit 7 alone), a stream in pieces (bit 5 alone) |
//! | 1 | room: just enough, one less, none, nine more, or the number itself; of a walk the budget: without bound, 1, 0, 64, or the number itself; 255 just enough, and the stream is a long one |
//! | then | comparison: how the two are made (bits 0 to 2 of byte 0), the number of verdicts expected, these, and a remainder's number, or the file's length and the file; read: two bytes of offset; walk from a state: the state; write: the primitive, and an indexed item of the same bytes; group: its letter, and two bytes of length, 0 for the body's own; second engine: the working room, as byte 1; pieces: the room of refusals, as byte 1, the number of pieces before the last (bits 0 to 3) and whether the state is damaged (bit 7), their lengths, and for a damaged one the piece before which, the place and two bytes of number |
//! | then | the stream, or the raw value or text, or the body; of a long stream the last unit is taken over and over |

use crate::fence::{Edge, LONGEST};
use proved::{
    State, Tag, MAX_DEPTH, STATE, STATE_FIRST, STATE_INDEXED, STATE_OPEN, STATE_POSITION,
};
use std::borrow::Cow;
use streams::expectation::file;
use streams::Form;

/// Units of a long stream: a large header, and the least that it counts.
pub const LONG_UNITS: usize = 2 + 4096;

/// The second byte of an input with a long stream.
pub const LONG: u8 = 255;

/// Which call is tried.
#[derive(Clone, Copy, Debug, PartialEq, Eq)]
pub enum Call {
    Report,
    Convert,
    Read,
    Write,
    /// From the start to the end or the first refusal.
    Walk,
    /// A few steps from a state in the input.
    WalkFrom,
    /// The primitive at every item of the walk.
    ReadItems,
    /// Report, conversion and walk of one stream.
    All,
    /// An expectation file with a report.
    Compare,
    /// A group around a body.
    Group,
    /// A report by the second engine, in working room of any length.
    Second,
    /// A mixed report.
    Mixed,
    /// A stream in pieces.
    Pieces,
}

pub const CALLS: [Call; 8] = [
    Call::Report,
    Call::Convert,
    Call::Read,
    Call::Write,
    Call::Walk,
    Call::WalkFrom,
    Call::ReadItems,
    Call::All,
];

/// The first byte of a comparison, of a group, of a report by the second engine
/// and of a mixed one, without its low bits.
pub const COMPARE: u8 = 0xC0;
pub const GROUP: u8 = 0xA0;
pub const SECOND: u8 = 0x60;
pub const MIXED: u8 = 0x80;
/// The same of a stream in pieces.
pub const PIECES: u8 = 0x20;

/// How the two of a comparison are made: the file of verdicts or as bytes, the
/// report of a stream or as bytes.
#[derive(Clone, Copy, Debug, PartialEq, Eq)]
pub struct Made {
    pub of_verdicts: bool,
    pub of_stream: bool,
}

/// How much room a buffer has.
#[derive(Clone, Copy, Debug, PartialEq, Eq)]
pub enum Room {
    Exact,
    OneLess,
    More,
    Bytes(usize),
}

impl Room {
    /// The room where so much is asked for.
    pub fn of(self, asked: usize) -> usize {
        let room = match self {
            Room::Exact => asked,
            Room::OneLess => asked.saturating_sub(1),
            Room::More => asked + 9,
            Room::Bytes(bytes) => bytes,
        };
        room.min(LONGEST)
    }
}

impl Room {
    /// The same byte as the budget of an instalment.
    pub fn budget(self) -> usize {
        match self {
            Room::Exact => usize::MAX,
            Room::OneLess => 1,
            Room::More => 64,
            Room::Bytes(items) => items,
        }
    }
}

/// The front of an input, from which it is taken apart.
pub struct Front<'a>(pub &'a [u8]);

impl Front<'_> {
    pub fn byte(&mut self) -> u8 {
        match self.0.split_first() {
            Some((first, rest)) => {
                self.0 = rest;
                *first
            }
            None => 0,
        }
    }

    /// Two bytes; the highest numbers stand for some past every stream.
    pub fn number(&mut self) -> usize {
        match u16::from_be_bytes([self.byte(), self.byte()]) {
            0xFFFF => usize::MAX,
            0xFFFE => usize::MAX / 3,
            0xFFFD => usize::MAX / 4 + 1,
            small => usize::from(small),
        }
    }

    /// The expectation file of a comparison; the report, or its stream, is what
    /// is left.
    pub fn expected(&mut self, made: Made) -> Vec<u8> {
        let length = usize::from(self.byte());
        let verdicts: Vec<u8> = (0..length).map(|_| self.byte()).collect();
        match (made.of_verdicts, self.byte()) {
            (false, _) => verdicts,
            (true, 255) => file(&verdicts, &[]),
            (true, number) => file(&verdicts, &[number]),
        }
    }

    /// Call, form, edge, and whether the stream is one element too long
    /// whatever the input holds.
    pub fn choice(&mut self) -> (Call, Form, Edge, bool) {
        let first = self.byte();
        let call = match first & 0xE0 {
            COMPARE => Call::Compare,
            GROUP => Call::Group,
            SECOND => Call::Second,
            MIXED => Call::Mixed,
            PIECES => Call::Pieces,
            _ => CALLS[usize::from(first % 8)],
        };
        let form = [Form::Text, Form::Binary][usize::from(first >> 3 & 1)];
        let edge = [Edge::End, Edge::Start][usize::from(first >> 4 & 1)];
        (call, form, edge, first >= 0xE0)
    }

    pub fn room(&mut self) -> Room {
        match self.byte() {
            0 | LONG => Room::Exact,
            1 => Room::OneLess,
            2 => Room::Bytes(0),
            3 => Room::More,
            number => Room::Bytes(usize::from(number)),
        }
    }

    /// What is left as a stream, or as a long one.
    pub fn stream(&self, form: Form, long: bool) -> Cow<'_, [u8]> {
        let last = self.0.rchunks_exact(form.unit()).next();
        let Some(last) = last.filter(|_| long) else {
            return Cow::Borrowed(self.0);
        };
        let mut stream = self.0.to_vec();
        while stream.len() < LONG_UNITS * form.unit() {
            stream.extend(last);
        }
        Cow::Owned(stream)
    }

    /// The number open, the position, the marks, and how many ends follow. One byte
    /// has both marks, so that either may be no mark.
    pub fn state(&mut self) -> State {
        let mut state = [0; STATE];
        state[STATE_OPEN] = match self.byte() {
            255 => usize::MAX,
            open => usize::from(open),
        };
        state[STATE_POSITION] = self.number();
        let marks = self.byte();
        state[STATE_FIRST] = usize::from(marks & 15);
        state[STATE_INDEXED] = usize::from(marks >> 4);
        let ends = usize::from(self.byte()) % (MAX_DEPTH + 1);
        state[..ends].fill_with(|| self.number());
        state
    }

    /// chars, letter, the number of tag characters, and these.
    pub fn primitive(&mut self) -> (u8, u8, usize, Tag) {
        let (chars, letter) = (self.byte(), self.byte());
        let tags = match self.byte() {
            255 => usize::MAX,
            tags => usize::from(tags),
        };
        (chars, letter, tags, std::array::from_fn(|_| self.byte()))
    }

    /// The raw value or text: a length of two bytes, if not 0, over and over what
    /// is left; else what is left. The highest lengths stand for those around
    /// 12,285 and 16,380, the most bytes and characters that a small variable
    /// holds.
    pub fn raw(&mut self) -> Vec<u8> {
        let length = match u16::from_be_bytes([self.byte(), self.byte()]) {
            0 => return self.0.to_vec(),
            near @ 0xFF80.. => 16_376 + usize::from(near & 7),
            near @ 0xFF00.. => 12_281 + usize::from(near & 7),
            length => usize::from(length),
        };
        let rest: &[u8] = if self.0.is_empty() { &[0] } else { self.0 };
        rest.iter().copied().cycle().take(length).collect()
    }
}
