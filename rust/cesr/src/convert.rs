//! Whole streams from text to binary and back.

use crate::{Form, Refusal};
use alloc::vec;
use alloc::vec::Vec;

/// A text as binary.
///
/// # Errors
///
/// 1, 2, or 5 or 19 at the first character outside the alphabet.
///
/// ```
/// use cesr::{to_binary, Number};
/// assert_eq!(to_binary(b"1AAM"), Ok(vec![0xD4, 0x00, 0x0C]));
/// let refusal = to_binary(b"MAA!").unwrap_err();
/// assert_eq!((refusal.number, refusal.place), (Number::Character, 3));
/// let refusal = to_binary(b"MA/!").unwrap_err();
/// assert_eq!((refusal.number, refusal.place), (Number::OrdinaryBase64, 2));
/// ```
pub fn to_binary(text: &[u8]) -> Result<Vec<u8>, Refusal> {
    grown(Form::Text, text, to_binary_into)
}

/// A binary as text.
///
/// # Errors
///
/// 1 or 2.
///
/// ```
/// use cesr::{to_text, Number};
/// assert_eq!(to_text(b"\xD4\x00\x0C"), Ok(b"1AAM".to_vec()));
/// assert_eq!(to_text(b"\xD4").unwrap_err().number, Number::NotWholeUnits);
/// ```
pub fn to_text(binary: &[u8]) -> Result<Vec<u8>, Refusal> {
    grown(Form::Binary, binary, to_text_into)
}

/// A text as binary at the start of `out`: the bytes written.
///
/// # Errors
///
/// As [`to_binary`], then 3. Refused, `out` stays as it was.
pub fn to_binary_into(text: &[u8], out: &mut [u8]) -> Result<usize, Refusal> {
    Ok(proved::to_binary(text, out)?)
}

/// A binary as text at the start of `out`: the characters written.
///
/// # Errors
///
/// 1, 2 or 3. Refused, `out` stays as it was.
pub fn to_text_into(binary: &[u8], out: &mut [u8]) -> Result<usize, Refusal> {
    Ok(proved::to_text(binary, out)?)
}

type Into = fn(&[u8], &mut [u8]) -> Result<usize, Refusal>;

/// The conversion with room for every stream of this length.
fn grown(from: Form, stream: &[u8], convert: Into) -> Result<Vec<u8>, Refusal> {
    let mut out = vec![0; from.other().room(from.units(stream.len()))];
    let length = convert(stream, &mut out)?;
    out.truncate(length);
    Ok(out)
}
