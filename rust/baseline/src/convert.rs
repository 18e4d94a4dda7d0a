//! Whole-stream conversion, as fast as tables go: twelve bits at a lookup, and
//! loads and stores of eight bytes that reach over where the next one begins.

use crate::alphabet::{first_stranger, number, PAIRS, TWINS};
use crate::{Refusal, BINARY_LIMIT, TEXT_LIMIT};

/// Text to binary: 1, 2, 5 or 19, 3, else the number of bytes written.
pub fn to_binary(text: &[u8], out: &mut [u8]) -> Result<usize, Refusal> {
    if text.len() > TEXT_LIMIT {
        return Err(Refusal::new(1, 0));
    }
    if !text.len().is_multiple_of(4) {
        return Err(Refusal::new(2, 0));
    }
    if let Some(place) = first_stranger(text, 0) {
        return Err(Refusal::new(number(text[place]), place));
    }
    let length = text.len() / 4 * 3;
    let Some(out) = out.get_mut(..length) else {
        return Err(Refusal::new(3, 0));
    };
    pack(text, out);
    Ok(length)
}

/// Binary to text: 1, 2, 3, else the number of characters written.
pub fn to_text(binary: &[u8], out: &mut [u8]) -> Result<usize, Refusal> {
    if binary.len() > BINARY_LIMIT {
        return Err(Refusal::new(1, 0));
    }
    if !binary.len().is_multiple_of(3) {
        return Err(Refusal::new(2, 0));
    }
    let length = binary.len() / 3 * 4;
    let Some(out) = out.get_mut(..length) else {
        return Err(Refusal::new(3, 0));
    };
    unpack(binary, out);
    Ok(length)
}

/// The 48 bits of eight characters, at the top of a number.
#[inline(always)]
fn high48(eight: [u8; 8]) -> u64 {
    let word = u64::from_le_bytes(eight);
    let twelve = |shift: u32| u64::from(PAIRS[usize::from((word >> shift) as u16)]);
    twelve(0) << 52 | twelve(16) << 40 | twelve(32) << 28 | twelve(48) << 16
}

/// Whole units in the alphabet, into just the room for them.
///
/// Eight bytes are stored where six are meant: the next store goes over the
/// last two, and the last stores are of six and three bytes.
fn pack(text: &[u8], out: &mut [u8]) {
    let (eights, last) = text.as_chunks::<8>();
    let (reaching, ending) = eights.split_at(eights.len().saturating_sub(1));
    for (index, eight) in reaching.iter().enumerate() {
        out[6 * index..6 * index + 8].copy_from_slice(&high48(*eight).to_be_bytes());
    }
    let mut rest = &mut out[6 * reaching.len()..];
    if let [eight] = ending {
        let (six, behind) = rest.split_at_mut(6);
        six.copy_from_slice(&high48(*eight).to_be_bytes()[..6]);
        rest = behind;
    }
    if let [a, b, c, d] = *last {
        let bits = high48([a, b, c, d, 0, 0, 0, 0]);
        rest.copy_from_slice(&bits.to_be_bytes()[..3]);
    }
}

/// Eight characters for the 48 bits at the top of a number.
#[inline(always)]
fn put_twins(bits: u64, eight: &mut [u8]) {
    for (pair, shift) in eight.chunks_exact_mut(2).zip([52, 40, 28, 16]) {
        let twin = TWINS[(bits >> shift) as usize & 0xFFF];
        pair.copy_from_slice(&twin.to_le_bytes());
    }
}

/// Whole units, into just the room for them. Eight bytes are read where six
/// are meant, as long as there are eight.
fn unpack(binary: &[u8], out: &mut [u8]) {
    let (blocks, _) = out.as_chunks_mut::<16>();
    // The last block may have fewer than two bytes behind it.
    let reaching = blocks.len().saturating_sub(1);
    for (index, block) in blocks[..reaching].iter_mut().enumerate() {
        let bytes = &binary[12 * index..12 * index + 14];
        for (half, eight) in block.chunks_exact_mut(8).enumerate() {
            let mut six = [0; 8];
            six.copy_from_slice(&bytes[6 * half..6 * half + 8]);
            put_twins(u64::from_be_bytes(six), eight);
        }
    }
    let rest = binary[12 * reaching..].chunks_exact(3);
    for (bytes, unit) in rest.zip(out[16 * reaching..].chunks_exact_mut(4)) {
        let bits = [bytes[0], bytes[1], bytes[2], 0, 0, 0, 0, 0];
        put_twins(u64::from_be_bytes(bits), unit);
    }
}
