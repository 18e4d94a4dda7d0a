//! One indexed item: read from a stream, or written.

use crate::{answered, declared, Refusal};

/// What a reader tells of an indexed item: selector (a character, or 0 where
/// the letter stands alone) and letter, the full size in units, where the raw
/// value starts in bytes of the binary form from the item's start, its length,
/// the index, and the ondex.
pub type IndexedInfo = [usize; INDEXED];

/// How many numbers that are, and where some of them stand.
pub const INDEXED: usize = 7;
pub const INDEXED_START: usize = 3;
pub const INDEXED_RAW: usize = 4;

/// Reads an indexed item of a text: the length of its raw value, which is
/// copied to the start of `out`.
pub fn read_indexed_text(
    text: &[u8],
    at: usize,
    out: &mut [u8],
    info: &mut IndexedInfo,
) -> Result<usize, Refusal> {
    let mut answer = 0;
    // SAFETY: both slices are valid for their lengths and do not overlap; info
    // and answer are places of their own, of the lengths that the library
    // writes.
    let number = unsafe {
        declared::cesr_read_indexed_text(
            text.as_ptr(),
            text.len(),
            at,
            out.as_mut_ptr(),
            out.len(),
            info,
            &mut answer,
        )
    };
    answered(number, answer)
}

/// Reads an indexed item of a binary: the length of its raw value, which lies
/// in the stream from `at` and info's start on.
pub fn read_indexed_binary(
    binary: &[u8],
    at: usize,
    info: &mut IndexedInfo,
) -> Result<usize, Refusal> {
    let mut answer = 0;
    let (start, length) = (binary.as_ptr(), binary.len());
    // SAFETY: as above.
    let number =
        unsafe { declared::cesr_read_indexed_binary(start, length, at, info, &mut answer) };
    answered(number, answer)
}

/// An indexed item to write: its code as in `IndexedInfo`, index, ondex and raw
/// value.
#[derive(Clone, Copy, Debug)]
pub struct Indexed<'a> {
    pub selector: u8,
    pub letter: u8,
    pub index: usize,
    pub ondex: usize,
    pub raw: &'a [u8],
}

/// Writes an indexed item as text: 6, 12, 15, 3, else the length written.
pub fn write_indexed_text(item: &Indexed, out: &mut [u8]) -> Result<usize, Refusal> {
    write(declared::cesr_write_indexed_text, item, out)
}

/// Writes an indexed item as binary: 6, 12, 15, 3, else the length written.
pub fn write_indexed_binary(item: &Indexed, out: &mut [u8]) -> Result<usize, Refusal> {
    write(declared::cesr_write_indexed_binary, item, out)
}

fn write(call: declared::WriteIndexed, item: &Indexed, out: &mut [u8]) -> Result<usize, Refusal> {
    let mut answer = 0;
    // SAFETY: as above; the raw value is only read.
    let number = unsafe {
        call(
            item.selector,
            item.letter,
            item.index,
            item.ondex,
            item.raw.as_ptr(),
            item.raw.len(),
            out.as_mut_ptr(),
            out.len(),
            &mut answer,
        )
    };
    answered(number, answer)
}
