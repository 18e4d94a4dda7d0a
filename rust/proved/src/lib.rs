//! The proved library's calls, declared once and made safe once. Programs use
//! the crate `cesr`, which stands above this one and gives the numbers types.
//!
//! Nothing checks these declarations against the Rattle source, so they are
//! few and on numbers, byte slices and arrays only: a slice is a pointer, then
//! a length. The tests compare the answers with the oracle's.

#![no_std]

mod compare;
mod declared;
mod group;
mod indexed;
mod passed;
mod pieces;
mod second;
mod walk;

pub use compare::{compare, Counts};
pub use group::{group_binary, group_text};
pub use indexed::{
    read_indexed_binary, read_indexed_text, write_indexed_binary, write_indexed_text, Indexed,
    IndexedInfo, INDEXED, INDEXED_RAW, INDEXED_START,
};
pub use passed::passed;
pub use pieces::{
    end_binary, end_text, feed_binary, feed_text, Given, Pieces, PIECES, PIECES_COUNT,
    PIECES_ENDED, PIECES_HEADER, PIECES_HELD, PIECES_ITEMS, PIECES_LEAD, PIECES_NUMBER,
    PIECES_PHASE, PIECES_PLACE, PIECES_READ, PIECES_SCANS, PIECES_START, PIECES_TEXT, PIECES_UNIT,
    PIECES_WALK,
};
pub use second::{second_binary, second_text};
pub use walk::{
    walk_binary, walk_on_binary, walk_on_text, walk_text, Instalment, Item, Pause, State,
    MAX_DEPTH, STATE, STATE_FIRST, STATE_INDEXED, STATE_OPEN, STATE_POSITION,
};

/// A refused call: 01's number, and the place in the stream's own measure.
#[derive(Clone, Copy, Debug, PartialEq, Eq)]
pub struct Refusal {
    pub number: u8,
    pub place: usize,
}

/// Eleven places for tag characters; a reader leaves unused ones 0.
pub type Tag = [u8; 11];

/// What a reader tells of a primitive: chars (1, 2 or 4 for a fixed code of so
/// many characters, 5 for a small variable, 6 for a large one), the code's
/// letter, the full size in units, where the raw value starts in bytes of the
/// binary form from the item's start, its length, the number of tag characters,
/// and of type `A`, which has no raw value, the number of its text's.
pub type Info = [usize; INFO];

/// How many numbers that are, and where some of them stand.
pub const INFO: usize = 7;
pub const INFO_START: usize = 3;
pub const INFO_RAW: usize = 4;
pub const INFO_TEXT: usize = 6;

/// Text to binary: 1, 2, 5 or 19, 3, else the number of bytes written.
pub fn to_binary(text: &[u8], out: &mut [u8]) -> Result<usize, Refusal> {
    lent(declared::cesr_text_to_binary, text, out)
}

/// Binary to text: 1, 2, 3, else the number of characters written.
pub fn to_text(binary: &[u8], out: &mut [u8]) -> Result<usize, Refusal> {
    lent(declared::cesr_binary_to_text, binary, out)
}

/// The report of a text: 1, 3, else its length.
pub fn report_text(text: &[u8], out: &mut [u8]) -> Result<usize, Refusal> {
    lent(declared::cesr_report_text, text, out)
}

/// The report of a binary: 1, 3, else its length.
pub fn report_binary(binary: &[u8], out: &mut [u8]) -> Result<usize, Refusal> {
    lent(declared::cesr_report_binary, binary, out)
}

/// The report of a mixed stream: 1, 3, else its length. Its item rows have a tenth
/// byte, the item's form.
pub fn report_mixed(stream: &[u8], out: &mut [u8]) -> Result<usize, Refusal> {
    lent(declared::cesr_report_mixed, stream, out)
}

fn lent(call: declared::Call, source: &[u8], out: &mut [u8]) -> Result<usize, Refusal> {
    let mut answer = 0;
    // SAFETY: both slices are valid for their lengths and do not overlap, and
    // the answer is a place of its own. The library asks nothing else of them.
    let number = unsafe {
        call(
            source.as_ptr(),
            source.len(),
            out.as_mut_ptr(),
            out.len(),
            &mut answer,
        )
    };
    answered(number, answer)
}

/// Reads a primitive of a text: the length of its raw value or of type `A`'s
/// text, which is copied to the start of `out`.
pub fn read_text(
    text: &[u8],
    at: usize,
    out: &mut [u8],
    tag: &mut Tag,
    info: &mut Info,
) -> Result<usize, Refusal> {
    read(declared::cesr_read_text, text, at, out, tag, info)
}

/// Reads a primitive of a binary: the length of its raw value, which lies in
/// the stream from `at` and info's start on, or of type `A`'s text, which is
/// copied to the start of `out`.
pub fn read_binary(
    binary: &[u8],
    at: usize,
    out: &mut [u8],
    tag: &mut Tag,
    info: &mut Info,
) -> Result<usize, Refusal> {
    read(declared::cesr_read_binary, binary, at, out, tag, info)
}

fn read(
    call: declared::Read,
    stream: &[u8],
    at: usize,
    out: &mut [u8],
    tag: &mut Tag,
    info: &mut Info,
) -> Result<usize, Refusal> {
    let mut answer = 0;
    // SAFETY: as in `lent`; tag and info are places of their own, of the
    // lengths that the library writes.
    let number = unsafe {
        call(
            stream.as_ptr(),
            stream.len(),
            at,
            out.as_mut_ptr(),
            out.len(),
            tag,
            info,
            &mut answer,
        )
    };
    answered(number, answer)
}

/// A primitive to write: its code as in `Info`, the tag characters and how
/// many of them count, and the raw value or, of type `A`, the text.
#[derive(Clone, Copy, Debug)]
pub struct Primitive<'a> {
    pub chars: u8,
    pub letter: u8,
    pub tag: Tag,
    pub tags: usize,
    pub raw: &'a [u8],
}

/// Writes a primitive as text: 6, 12, 18, 5 or 19, 16, 3, else the length
/// written.
pub fn write_text(item: &Primitive, out: &mut [u8]) -> Result<usize, Refusal> {
    write(declared::cesr_write_text, item, out)
}

/// Writes a primitive as binary: 6, 12, 18, 5 or 19, 16, 3, else the length
/// written.
pub fn write_binary(item: &Primitive, out: &mut [u8]) -> Result<usize, Refusal> {
    write(declared::cesr_write_binary, item, out)
}

fn write(call: declared::Write, item: &Primitive, out: &mut [u8]) -> Result<usize, Refusal> {
    let mut answer = 0;
    // SAFETY: as in `lent`; the tag is eleven bytes that are only read.
    let number = unsafe {
        call(
            item.chars,
            item.letter,
            &item.tag,
            item.tags,
            item.raw.as_ptr(),
            item.raw.len(),
            out.as_mut_ptr(),
            out.len(),
            &mut answer,
        )
    };
    answered(number, answer)
}

fn answered(number: u8, answer: usize) -> Result<usize, Refusal> {
    match number {
        0 => Ok(answer),
        _ => Err(Refusal {
            number,
            place: answer,
        }),
    }
}
