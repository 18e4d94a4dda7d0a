//! Whole-stream conversion as a plain loop: a table lookup for each character,
//! four to three at a time, with a look at the whole text first so that a
//! refused call writes nothing.

use crate::alphabet::{number, LETTERS, STRANGER, VALUES};
use crate::{Refusal, BINARY_LIMIT, TEXT_LIMIT};

/// Text to binary: 1, 2, 5 or 19, 3, else the number of bytes written.
pub fn plain_to_binary(text: &[u8], out: &mut [u8]) -> Result<usize, Refusal> {
    if text.len() > TEXT_LIMIT {
        return Err(Refusal::new(1, 0));
    }
    if !text.len().is_multiple_of(4) {
        return Err(Refusal::new(2, 0));
    }
    for (place, character) in text.iter().enumerate() {
        if VALUES[usize::from(*character)] == STRANGER {
            return Err(Refusal::new(number(*character), place));
        }
    }
    let length = text.len() / 4 * 3;
    if out.len() < length {
        return Err(Refusal::new(3, 0));
    }
    let value = |character: u8| u32::from(VALUES[usize::from(character)]);
    for (unit, bytes) in text.chunks_exact(4).zip(out.chunks_exact_mut(3)) {
        let bits =
            value(unit[0]) << 18 | value(unit[1]) << 12 | value(unit[2]) << 6 | value(unit[3]);
        bytes[0] = (bits >> 16) as u8;
        bytes[1] = (bits >> 8) as u8;
        bytes[2] = bits as u8;
    }
    Ok(length)
}

/// Binary to text: 1, 2, 3, else the number of characters written.
pub fn plain_to_text(binary: &[u8], out: &mut [u8]) -> Result<usize, Refusal> {
    if binary.len() > BINARY_LIMIT {
        return Err(Refusal::new(1, 0));
    }
    if !binary.len().is_multiple_of(3) {
        return Err(Refusal::new(2, 0));
    }
    let length = binary.len() / 3 * 4;
    if out.len() < length {
        return Err(Refusal::new(3, 0));
    }
    let letter = |bits: u32| LETTERS[(bits & 63) as usize];
    for (bytes, unit) in binary.chunks_exact(3).zip(out.chunks_exact_mut(4)) {
        let bits = u32::from(bytes[0]) << 16 | u32::from(bytes[1]) << 8 | u32::from(bytes[2]);
        unit[0] = letter(bits >> 18);
        unit[1] = letter(bits >> 12);
        unit[2] = letter(bits >> 6);
        unit[3] = letter(bits);
    }
    Ok(length)
}
